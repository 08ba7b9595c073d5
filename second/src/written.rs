//! The library's writer and its reading of a file's numbers, against this program's.

use crate::difference::Difference;
use crate::library::{Answer, Function};
use crate::other::Other;
use crate::random::Random;
use crate::runfile::{read, write_parts, Refusal, MAX_CALLS, MAX_TURNS, RECORD, TRAILER};

/// Refusals by number; 0 is none.
#[derive(Default)]
struct Met([u64; 15]);

impl Met {
    fn count(&mut self, answer: &Answer) {
        self.0[answer.as_ref().map_or_else(|refusal| refusal.number as usize, |_| 0)] += 1;
    }

    fn line(&self, wanted: &[usize]) -> String {
        let each: Vec<String> = wanted.iter().map(|&number| format!("{number}:{}", self.0[number])).collect();
        format!("good {} refused {}", self.0[0], each.join(" "))
    }

    fn missed(&self, wanted: &[usize], name: &str) -> Vec<String> {
        let never = wanted.iter().chain(&[0]).filter(|&&number| self.0[number] == 0);
        never.map(|number| format!("{name}: refusal {number} (0 is none) was never met")).collect()
    }
}

const OF_A_WRITER: [usize; 7] = [3, 4, 5, 6, 7, 8, 14];
const OF_A_FILE: [usize; 8] = [1, 2, 3, 4, 5, 6, 7, 8];

#[derive(Default)]
pub struct Written {
    cases: u64,
    written: Met,
    /// Cases refused 7 and 8 with a K over 1.
    later: [u64; 2],
    read: Met,
}

/// What a writer is given.
struct Parts {
    x: u32,
    n: u32,
    table: Vec<u8>,
    turns: Vec<u8>,
}

impl Written {
    /// The numbers of a file that may be good or not.
    pub fn read(&mut self, other: &mut Other, file: &[u8]) -> Result<(), Difference> {
        let own = read(file).map(|run| {
            let (q, t) = (run.calls().len() as u64, run.turns.len() as u64);
            let words = [run.x.to_le_bytes(), u32::from(run.n).to_le_bytes()].concat();
            [words, q.to_le_bytes().to_vec(), t.to_le_bytes().to_vec()].concat()
        });
        if other.gives(Function::Read, file, &own)? {
            self.read.count(&own);
        }
        Ok(())
    }

    /// So many cases for the writer, each with buffers of several lengths.
    pub fn cases(&mut self, other: &mut Other, count: u64) -> Result<(), Difference> {
        let Some(library) = &mut other.library else { return Ok(()) };
        self.cases = count;
        for seed in 0..count {
            let random = &mut Random::new(seed ^ 0x7772_6974);
            let Parts { x, n, table, turns } = parts(random);
            let own = write_parts(x, n, &table, &turns);
            let length = TRAILER + table.len() + turns.len();
            let rooms =
                vec![length, length - 1, random.pick(&[0, 1, 15, 16, length / 2, length + 1, 53_264])];
            for room in &rooms {
                let short = own.is_ok() && *room < length;
                self.written.count(if short { &Err(Refusal { number: 14, k: 0 }) } else { &own });
            }
            if let Err(Refusal { number, k: 2.. }) = own {
                self.later[usize::from(number == 8)] += 1;
            }
            library.ask_with(Function::Write { x, n }, &table, &turns, &own, rooms)?;
        }
        Ok(())
    }

    pub fn lines(&self) -> String {
        format!(
            "writer: {} cases, three buffers each: {}; cases with a K over 1: 7:{} 8:{}\nread: {}\n",
            self.cases,
            self.written.line(&OF_A_WRITER),
            self.later[0],
            self.later[1],
            self.read.line(&OF_A_FILE),
        )
    }

    pub fn missed(&self) -> Vec<String> {
        if self.cases == 0 {
            return Vec::new();
        }
        let written = self.written.missed(&OF_A_WRITER, "writer");
        [written, self.read.missed(&OF_A_FILE, "read")].concat()
    }
}

/// Good, or bad in one thing or several.
fn parts(random: &mut Random) -> Parts {
    let any = random.next() as u32;
    let x = random.pick(&[0, 1, 7, any, u32::MAX]);
    let good = random.between(1, 32) as u32;
    let bad = random.pick(&[0, 33, 34, 64, 255, 256, 257, 288, 65_536, 65_568, 1 << 31, any | 256, u32::MAX]);
    let n = if random.once_in(8) { bad } else { random.pick(&[1, 2, 31, 32, good]) };
    let stations = n.clamp(1, 32) as u8;
    let table = table(random, stations);
    Parts { x, n, table, turns: turns(random, stations) }
}

/// Few, or around the limit.
fn amount(random: &mut Random, few: usize, limit: usize) -> usize {
    let small = random.below(few);
    if random.once_in(24) {
        random.pick(&[limit - 1, limit, limit + 1])
    } else {
        small
    }
}

/// The first, the last, or any of so many.
fn one_of(random: &mut Random, count: usize) -> usize {
    let any = random.below(count);
    random.pick(&[0, count - 1, any, any])
}

fn table(random: &mut Random, n: u8) -> Vec<u8> {
    let q = amount(random, 12, MAX_CALLS);
    let mut table: Vec<u8> = (0..q).flat_map(|_| record(random, n)).collect();
    if q > 0 && random.once_in(3) {
        let at = RECORD * one_of(random, q);
        spoil(random, &mut table[at..at + RECORD], n);
    }
    if random.once_in(8) {
        table.resize(around(random, table.len()), 0);
    }
    table
}

fn turns(random: &mut Random, n: u8) -> Vec<u8> {
    let t = amount(random, 40, MAX_TURNS);
    let mut turns: Vec<u8> = (0..t).map(|_| random.between(1, n.into()) as u8).collect();
    if t > 0 && random.once_in(3) {
        turns[one_of(random, t)] = random.pick(&[0, n + 1, 33, 64, 255]);
    }
    turns
}

/// A length near this one, or near the table's limit.
fn around(random: &mut Random, length: usize) -> usize {
    let by = random.pick(&[1, 4, 5, 11, 12, 13]);
    random.pick(&[length + by, length.saturating_sub(by), 12_287, 12_288, 12_293, 12_299, 12_300, 12_305])
}

/// A good record.
fn record(random: &mut Random, n: u8) -> Vec<u8> {
    let kind = random.pick(&[0, 1, 2]);
    let station = random.between(1, n.into()) as u8;
    let values = if kind == 0 { [0; 8] } else { random.next().to_le_bytes() };
    [vec![station, 0, kind, 0], values.into()].concat()
}

/// One field of a record is made bad, or, with a station of n or a kind of 2, nearly so.
fn spoil(random: &mut Random, record: &mut [u8], n: u8) {
    let bit = 1 << random.below(8);
    match random.below(6) {
        0 => record[0] = random.pick(&[0, n, n + 1, 33, 255]),
        1 => record[1] = bit,
        2 => record[2] = random.pick(&[2, 3, 4, 127, 255]),
        3 => record[3] = bit,
        _ => {
            record[2] = 0;
            record[4..].fill(0);
            record[random.between(4, 11)] = bit;
        }
    }
}

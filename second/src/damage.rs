//! Damaged run files: every cut and many byte changes of small files, and edits by hand.

use crate::make;
use crate::random::Random;
use crate::runfile::{read, write, Call, Kind, MAX_CALLS, MAX_FILE, MAX_TURNS, RECORD, TRAILER};

/// Every cut of small files, and every change of a single byte, with five values a byte.
pub struct Sweep {
    random: Random,
    base: Vec<u8>,
    step: usize,
}

impl Sweep {
    pub fn new(seed: u64) -> Sweep {
        Sweep { random: Random::new(seed), base: Vec::new(), step: 0 }
    }

    /// The next damaged file. One of five values may be the byte's own: then the file is good.
    pub fn next(&mut self) -> Vec<u8> {
        if self.step == 6 * self.base.len() {
            self.base = make::tiny(&mut self.random);
            self.step = 0;
        }
        let (way, at) = (self.step / self.base.len(), self.step % self.base.len());
        self.step += 1;
        let mut file = self.base.clone();
        match way {
            0 => file.truncate(at),
            1 => file[at] ^= 1,
            2 => file[at] ^= 0x80,
            3 => file[at] = file[at].wrapping_add(1),
            4 => file[at] = 0,
            _ => file[at] = 0xff,
        }
        file
    }
}

/// A small file damaged once or twice, or one at the edge of a limit.
pub fn random(random: &mut Random) -> Vec<u8> {
    if random.once_in(12) {
        return edge(random);
    }
    let mut file = make::tiny(random);
    for _ in 0..random.pick(&[1, 1, 1, 2]) {
        hurt(random, &mut file);
    }
    file
}

fn hurt(random: &mut Random, file: &mut Vec<u8>) {
    let length = file.len();
    let at = random.below(length.max(1));
    match random.below(8) {
        0 => file.truncate(at),
        1 => drop(file.drain(..at.min(length))),
        2 if length > 0 => file[at] = random.next() as u8,
        3 => {
            for _ in 0..random.between(1, 20) {
                file.push(random.pick(&[0, 1, 1, 2, 255]));
            }
        }
        4 => file.insert(at.min(length), random.pick(&[0, 1, 2])),
        5 if length >= TRAILER => part(random, file),
        _ if length >= TRAILER => trailer(random, file),
        _ => {}
    }
}

/// A call or a turn is made bad, or nearly so.
fn part(random: &mut Random, file: &mut [u8]) {
    let Ok(run) = read(file) else { return };
    let (q, t, n) = (run.calls().len(), run.turns.len(), run.n);
    if t > 0 && (q == 0 || random.once_in(2)) {
        file[RECORD * q + random.below(t)] = random.pick(&[0, n, n + 1, 32, 33, 255]);
    } else if q > 0 {
        let record = RECORD * random.below(q);
        let (place, value) = random.pick(&[
            (0, 0),
            (0, n),
            (0, n + 1),
            (1, 1),
            (2, 0),
            (2, 2),
            (2, 3),
            (2, 255),
            (3, 1),
            (4, 1),
            (7, 1),
            (8, 1),
            (11, 1),
        ]);
        file[record + place] = value;
    }
}

/// A field of the trailer is set by hand; distances go up to 4,294,967,295 and wrap there.
fn trailer(random: &mut Random, file: &mut [u8]) {
    let at = file.len() - TRAILER;
    let word = |file: &[u8], place: usize| {
        u32::from_le_bytes([file[place], file[place + 1], file[place + 2], file[place + 3]])
    };
    let (first, second) = (word(file, at + 8), word(file, at + 12));
    match random.below(7) {
        0 => file[at + 4] = random.pick(&[0, 1, 2, 31, 32, 33, 255]),
        1 => file[at + 5] = random.pick(&[0, 2, 255]),
        2 => {
            let q = u16::from_le_bytes([file[at + 6], file[at + 7]]);
            let new = random.pick(&[0, q.wrapping_sub(1), q + 1, 1_024, 1_025, 65_535]);
            file[at + 6..at + 8].copy_from_slice(&new.to_le_bytes());
        }
        3 => put(file, at + 8, near(random, first)),
        4 => put(file, at + 12, near(random, second)),
        _ => {
            let by = near(random, 0);
            put(file, at + 8, first.wrapping_add(by));
            put(file, at + 12, second.wrapping_add(by));
        }
    }
}

fn put(file: &mut [u8], at: usize, value: u32) {
    file[at..at + 4].copy_from_slice(&value.to_le_bytes());
}

fn near(random: &mut Random, value: u32) -> u32 {
    let small = random.below(40) as u32;
    random.pick(&[
        value.wrapping_add(1),
        value.wrapping_sub(1),
        value.wrapping_add(12),
        value.wrapping_sub(12),
        small,
        small.wrapping_neg(),
        u32::MAX,
        1 << 31,
        MAX_TURNS as u32,
        MAX_TURNS as u32 + 1,
    ])
}

/// A file at the edge of q, t or the length.
fn edge(random: &mut Random) -> Vec<u8> {
    let read = Call { station: 1, kind: Kind::Read, a: 0, b: 0 };
    let q = random.pick(&[0, 1, MAX_CALLS - 1, MAX_CALLS, MAX_CALLS + 1]);
    let t = random.pick(&[0, 3, 28_648, MAX_TURNS - 1, MAX_TURNS, MAX_TURNS + 1]);
    let mut file = write(7, 1, &vec![read; q], &vec![1; t]);
    match random.below(4) {
        0 => file.push(1),
        1 => file.insert(0, 1),
        2 => file.resize(random.pick(&[MAX_FILE - 1, MAX_FILE, MAX_FILE + 1, 60_000]), 1),
        _ => {}
    }
    file
}

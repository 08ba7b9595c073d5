//! Cases for benches in numbers (docs/PROBE.md): read, tried, and written.

use crate::bench::{is_place, Bench, Claim, Halves, Offer, Outcome, Record, ROWS};
use std::fmt::Write;

/// The numbers of a bench, and of a case: a bench and a turn.
pub const BENCH: usize = 6 + 16 * ROWS;
pub const CASE: usize = BENCH + 4;
/// Where the stations' records begin, and the numbers of each.
pub const STATIONS: usize = 6 + 4 * ROWS;
pub const RECORD: usize = 12;

/// The bench of these numbers, in the order of the document.
pub fn bench_of(numbers: &[u32]) -> Bench {
    let at = |at: usize| numbers[at];
    let mut bench = Bench::fresh(at(0), at(2));
    bench.v.0 = at(1);
    bench.p = Claim { seq: at(3), pid: at(4), c: at(5) };
    for row in 0..ROWS {
        let entry = 6 + 4 * row;
        bench.a[row] = Halves(at(entry), at(entry + 1));
        bench.r[row] = Halves(at(entry + 2), at(entry + 3));
        let from = STATIONS + RECORD * row;
        let [place, kind, a, b, s, own, c, seq, pid, cp, ca, val] =
            std::array::from_fn(|field| at(from + field));
        bench.stations[row] = Record { place, kind, a, b, s, own, c, seq, pid, cp, ca, val };
    }
    bench
}

/// The numbers of a bench, in the order of the document.
pub fn numbers_of(bench: &Bench) -> Vec<u32> {
    let Claim { seq, pid, c } = bench.p;
    let mut numbers = vec![bench.n, bench.v.0, bench.v.1, seq, pid, c];
    for (a, r) in bench.a.iter().zip(&bench.r) {
        numbers.extend([a.0, a.1, r.0, r.1]);
    }
    for record in &bench.stations {
        let Record { place, kind, a, b, s, own, c, seq, pid, cp, ca, val } = *record;
        numbers.extend([place, kind, a, b, s, own, c, seq, pid, cp, ca, val]);
    }
    numbers
}

/// What is written for the cases of an input.
pub fn probe(input: &[u8]) -> String {
    let mut words =
        input.split(|byte| matches!(byte, b' ' | b'\n')).filter(|word| !word.is_empty()).peekable();
    let mut text = String::new();
    let mut number = 0;
    while words.peek().is_some() {
        number += 1;
        match case(&mut words) {
            Ok(case) => text += &tried(&case),
            Err(told) => {
                let _ = writeln!(text, "case {number}: {told}");
                break;
            }
        }
    }
    text
}

/// The numbers of the next case, or what is wrong with it.
fn case<'a>(words: &mut impl Iterator<Item = &'a [u8]>) -> Result<Vec<u32>, &'static str> {
    let mut numbers = Vec::with_capacity(CASE);
    for word in words.take(CASE) {
        numbers.push(number(word).ok_or("number expected")?);
    }
    if numbers.len() < CASE {
        return Err("cut");
    }
    if !(0..ROWS).all(|row| is_place(numbers[STATIONS + RECORD * row])) {
        return Err("no such place");
    }
    Ok(numbers)
}

/// A decimal number of 32 bits; leading zeros are allowed.
fn number(word: &[u8]) -> Option<u32> {
    let all_digits = word.iter().all(u8::is_ascii_digit);
    std::str::from_utf8(word).ok().filter(|_| all_digits)?.parse().ok()
}

/// The four lines of a case.
fn tried(case: &[u32]) -> String {
    let mut bench = bench_of(case);
    let sound = if bench.is_sound() { "sound" } else { "unsound" };
    let &[station, kind, a, b] = &case[BENCH..] else { return String::new() };
    let outcome = match bench.turn(station, Offer { kind, a, b }) {
        Outcome::Idle => "idle".into(),
        Outcome::Going => "going".into(),
        Outcome::Ended(result, own) => format!("ended {result} {own}"),
        Outcome::Refused(number) => format!("refused {number}"),
    };
    let picture = match bench.picture() {
        Ok(bytes) => {
            let mut text = String::from("picture ");
            for byte in bytes {
                let _ = write!(text, "{byte:02x}");
            }
            text
        }
        Err(number) => format!("refused {number}"),
    };
    format!("{sound}\n{outcome}\n{}\n{picture}\n", line(&numbers_of(&bench)))
}

/// Numbers with one space between them.
pub fn line(numbers: &[u32]) -> String {
    let mut text = String::with_capacity(4 * numbers.len());
    for (at, number) in numbers.iter().enumerate() {
        let _ = write!(text, "{}{number}", if at == 0 { "" } else { " " });
    }
    text
}

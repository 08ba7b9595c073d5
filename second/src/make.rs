//! Random good run files: those that contend, some of any kind, and the largest ones.

use crate::contend::{self, Size};
use crate::random::Random;
use crate::runfile::{write, Call, Kind, MAX_CALLS, MAX_STATIONS, MAX_TURNS};
use crate::values::Ring;

const TINY: Size = Size { stations: 3, calls: 6, turns: 62 };
const SMALL: Size = Size { stations: 6, calls: 24, turns: 240 };
const MIDDLE: Size = Size { stations: 32, calls: 80, turns: 900 };
const BIG: Size = Size { stations: 32, calls: MAX_CALLS, turns: 12_000 };

/// A random run of a random size.
pub fn run(random: &mut Random) -> Vec<u8> {
    let size = match random.below(200) {
        0..=49 => TINY,
        50..=154 => SMALL,
        155..=198 => MIDDLE,
        _ => BIG,
    };
    if random.once_in(8) {
        wild(random, &size)
    } else {
        contend::run(random, &size)
    }
}

/// A small run, as the base of damaged files.
pub fn tiny(random: &mut Random) -> Vec<u8> {
    wild(random, &Size { stations: 4, calls: 4, turns: 30 })
}

/// A run in which all of 1,024 calls go past place 5, of any length up to 40,960 turns.
pub fn deepest(random: &mut Random) -> Vec<u8> {
    let n = random.between(3, usize::from(MAX_STATIONS));
    let turns = if random.once_in(4) { MAX_TURNS } else { random.between(0, MAX_TURNS) };
    contend::deepest(random, n, turns)
}

/// A run of any calls and any turns, not made with a machine: the word may stick at a value that no call claims from.
fn wild(random: &mut Random, size: &Size) -> Vec<u8> {
    let n = if random.once_in(8) { 1 } else { random.between(2, size.stations) };
    let q = random.between(0, size.calls);
    let most = size.turns.min(12 * q + 10);
    let t = if random.once_in(4) { random.between(0, most) } else { most - random.below(most / 2) };
    let values = Ring::new(random, &[1, 1, 2, 2, 2, 2, 3, 5]);
    let calls = some_calls(random, n, q, &values);
    let turns = some_turns(random, n, t);
    write(values.one(random), n as u8, &calls, &turns)
}

fn some_calls(random: &mut Random, n: usize, q: usize, values: &Ring) -> Vec<Call> {
    let busiest = random.between(1, n);
    let (heavy, reads, swaps) = (random.once_in(4), random.below(4), random.below(4));
    (0..q)
        .map(|_| {
            let id = random.between(1, n);
            let station = if heavy && !random.once_in(4) { busiest } else { id } as u8;
            let kind = match random.below(10) {
                number if number < reads => Kind::Read,
                number if number < reads + swaps => Kind::Swap,
                _ => Kind::Set,
            };
            call(random, station, kind, values)
        })
        .collect()
}

fn call(random: &mut Random, station: u8, kind: Kind, values: &Ring) -> Call {
    if kind == Kind::Read {
        return Call { station, kind, a: 0, b: 0 };
    }
    let (a, mut b) = (values.one(random), values.one(random));
    if a == b && !random.once_in(5) {
        b = values.after(a);
    }
    Call { station, kind, a, b }
}

/// Turns in pieces: any station, bursts of one, two by turns, all in a row.
fn some_turns(random: &mut Random, n: usize, t: usize) -> Vec<u8> {
    let mut turns = Vec::with_capacity(t + 40);
    let slow = random.between(1, n);
    let (habit, longest) = (random.below(5), random.pick(&[3, 6, 12, 24]));
    while turns.len() < t {
        let way = if random.once_in(3) { random.below(4) } else { habit };
        let length = random.between(1, longest);
        let (one, two) = (random.between(1, n), random.between(1, n));
        for at in 0..length {
            let id = match way {
                0 => random.between(1, n),
                1 => one,
                2 if at % 2 == 0 => one,
                2 => two,
                3 => 1 + (one + at) % n,
                _ => random.between(1, n.min(4)),
            };
            if id != slow || random.once_in(2) {
                turns.push(id as u8);
            } else {
                turns.push(one as u8);
            }
        }
    }
    turns.truncate(t);
    turns
}

/// The largest file: 32 stations with 32 calls each, and 40,960 turns in rows of all the stations.
/// Call by call the sets go to and fro between two values, so that nearly all of them contend.
pub fn largest(random: &mut Random) -> Vec<u8> {
    let n = MAX_STATIONS;
    let x = random.next() as u32 | 1;
    let calls: Vec<Call> = (0..MAX_CALLS)
        .map(|at| {
            let station = (at % usize::from(n)) as u8 + 1;
            let (a, b) = if at / usize::from(n) % 2 == 0 { (x, x - 1) } else { (x - 1, x) };
            match random.below(20) {
                0 => Call { station, kind: Kind::Read, a: 0, b: 0 },
                1..=4 => Call { station, kind: Kind::Swap, a, b },
                _ => Call { station, kind: Kind::Set, a, b },
            }
        })
        .collect();
    let mut row: Vec<u8> = (1..=n).collect();
    let mut turns = Vec::with_capacity(MAX_TURNS);
    while turns.len() < MAX_TURNS {
        for at in 0..row.len() {
            row.swap(at, random.below(at + 1));
        }
        turns.extend_from_slice(&row);
    }
    write(x, n, &calls, &turns)
}

/// The file of the widest report: 1,024 swaps of ten-digit values after 10,000 idle turns.
pub fn widest() -> Vec<u8> {
    let (n, x) = (MAX_STATIONS, u32::MAX);
    let calls: Vec<Call> = (0..MAX_CALLS as u32)
        .map(|at| Call { station: n, kind: Kind::Swap, a: x - at % 2, b: x - (at + 1) % 2 })
        .collect();
    let mut turns = vec![1; 10_000];
    turns.resize(10_000 + 10 * MAX_CALLS, n);
    write(x, n, &calls, &turns)
}

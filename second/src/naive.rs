//! The run a third time, as plainly as can be: nothing is kept but the registers, two halves a number, and a full record of
//! the turns. Where a station stands and what it read are looked up in its turns, its next call is looked for in the whole
//! table each time, and the points are found when all is over.

use crate::runfile::{Call, Kind, RunFile};
use std::fmt::Write;

/// One turn: the line of 001 that it did, 0 if it was idle.
#[derive(Clone, Copy)]
pub struct Done {
    pub station: usize,
    pub line: u8,
    /// The call, from 0; of an idle turn the last one that the station made.
    call: Option<usize>,
    /// What was read; for place 19 V after it.
    pub first: u32,
    pub second: u32,
    /// The turn ended its call, or raised V.seq.
    ended: bool,
    pub raised: bool,
}

struct Registers {
    v: u64,
    p: u64,
    a: [u64; 33],
    r: [u64; 33],
}

fn both(first: u32, second: u32) -> u64 {
    u64::from(first) << 32 | u64::from(second)
}

fn halves(register: u64) -> (u32, u32) {
    ((register >> 32) as u32, register as u32)
}

fn max_write(register: &mut u64, first: u32, second: u32) {
    if first >= halves(*register).0 {
        *register = both(first, second);
    }
}

/// The record of all turns of a file, and what the registers hold then.
pub struct Record {
    pub turns: Vec<Done>,
    v: u64,
}

pub fn record(file: &RunFile) -> Record {
    let calls: Vec<Call> = file.calls().collect();
    let mut registers = Registers { v: both(0, file.x), p: 0, a: [0; 33], r: [0; 33] };
    let mut turns = Vec::with_capacity(file.turns.len());
    for &station in file.turns {
        let done = turn(&calls, &turns, &mut registers, usize::from(station));
        turns.push(done);
    }
    Record { turns, v: registers.v }
}

fn turn(calls: &[Call], record: &[Done], registers: &mut Registers, station: usize) -> Done {
    let last = record.iter().rev().find(|done| done.station == station);
    let made = last.and_then(|done| done.call);
    match last {
        Some(done) if done.line != 0 && !done.ended => {
            let call = made.unwrap_or(0);
            let line = line_after(record, call, done);
            operate(record, registers, Done { station, line, ..*done }, &calls[call])
        }
        _ => {
            let from = made.map_or(0, |call| call + 1);
            let next = (0..calls.len()).find(|&at| at >= from && usize::from(calls[at].station) == station);
            match next {
                Some(call) => begin(registers, station, call, &calls[call]),
                None => {
                    let (first, second) = (0, 0);
                    Done { station, line: 0, call: made, first, second, ended: false, raised: false }
                }
            }
        }
    }
}

fn begin(registers: &Registers, station: usize, call: usize, told: &Call) -> Done {
    let (first, second) = halves(registers.v);
    let read = told.kind == Kind::Read;
    let ended = read || second != told.a || told.a == told.b;
    let line = if read { 2 } else { 5 };
    Done { station, line, call: Some(call), first, second, ended, raised: false }
}

/// What the call read at this line.
fn read_at(record: &[Done], call: usize, line: u8) -> (u32, u32) {
    let found = record.iter().rev().find(|done| done.call == Some(call) && done.line == line);
    found.map_or((0, 0), |done| (done.first, done.second))
}

fn line_after(record: &[Done], call: usize, last: &Done) -> u8 {
    match last.line {
        5 => 11,
        16 => {
            let (seq, claim) = read_at(record, call, 15);
            if seq % 2 == 0 && claim % 65_536 == last.first {
                18
            } else {
                20
            }
        }
        line => line + 1,
    }
}

/// The operation of this line, 11 to 20.
fn operate(record: &[Done], registers: &mut Registers, mut done: Done, told: &Call) -> Done {
    let (id, call) = (done.station, done.call.unwrap_or(0));
    let read = |line| read_at(record, call, line);
    let count = halves(registers.a[id]).0;
    (done.first, done.second, done.raised) = (0, 0, false);
    match done.line {
        11 => registers.a[id] = both(count + 1, told.b),
        12 => registers.r[id] = both(count, 0),
        13 => max_write(&mut registers.p, read(5).0 + 1, id as u32 * 65_536 + count),
        14 => {
            let (seq, claim) = halves(registers.p);
            registers.p = both(seq.max(read(5).0 + 2), claim);
        }
        15 => (done.first, done.second) = halves(registers.p),
        16 => (done.first, done.second) = halves(registers.a[(read(15).1 / 65_536) as usize]),
        18 => max_write(&mut registers.r[(read(15).1 / 65_536) as usize], read(16).0, 1),
        19 => {
            let before = halves(registers.v).0;
            max_write(&mut registers.v, read(15).0, read(16).1);
            (done.first, done.second) = halves(registers.v);
            done.raised = done.first > before;
        }
        _ => {
            (done.first, done.second) = halves(registers.r[id]);
            done.ended = true;
        }
    }
    done
}

/// A raise of V: its turn, the version, and the station in its saved pid.
struct Raise {
    turn: usize,
    version: u32,
    winner: usize,
}

impl Record {
    fn raises(&self) -> Vec<Raise> {
        let raised = self.turns.iter().enumerate().filter(|(_, done)| done.raised);
        raised
            .map(|(at, done)| {
                let claim = read_at(&self.turns[..at], done.call.unwrap_or(0), 15).1;
                Raise { turn: at + 1, version: done.first, winner: (claim / 65_536) as usize }
            })
            .collect()
    }

    /// The turns of a call that began at this place of the record: how many, and what the last one read if it ended.
    fn own(&self, at: usize) -> (usize, Option<Done>) {
        let call = self.turns[at].call;
        let (mut count, mut last) = (0, None);
        for done in self.turns[at..].iter().filter(|done| done.call == call && done.line != 0) {
            count += 1;
            last = done.ended.then_some(*done);
            if done.ended {
                break;
            }
        }
        (count, last)
    }

    /// The report of the file that this is the record of.
    pub fn report(&self, file: &RunFile) -> String {
        let raises = self.raises();
        let mut list = Vec::new();
        let (mut begun, mut ended) = (0, 0);
        for (at, done) in self.turns.iter().enumerate().filter(|(_, done)| matches!(done.line, 2 | 5)) {
            let (own, last) = self.own(at);
            (begun, ended) = (begun + 1, ended + usize::from(last.is_some()));
            let line = (done.call.unwrap_or(0), own, answer(file, done, last));
            if done.ended {
                list.push((at + 1, 0, done.station, line));
            } else if let Some(raise) = raises.iter().find(|raise| raise.version == done.first + 2) {
                list.push((raise.turn, usize::from(raise.winner != done.station), done.station, line));
            }
        }
        list.sort();
        let mut text = String::new();
        for (at, (point, _, station, (call, own, answer))) in list.iter().enumerate() {
            let kind = file.call(*call).kind.word();
            let _ = writeln!(text, "{} {station} {} {kind} {answer} {own} {point}", at + 1, call + 1);
        }
        let idle = self.turns.iter().filter(|done| done.line == 0).count();
        let (seq, val) = halves(self.v);
        let _ = writeln!(text, "{} {idle} {begun} {ended} {val} {seq}", self.turns.len());
        text
    }
}

/// The answer of the call that began with `first`, and ended with `last` if it did.
fn answer(file: &RunFile, first: &Done, last: Option<Done>) -> String {
    let call = file.call(first.call.unwrap_or(0));
    match (call.kind, last) {
        (_, None) => "open".into(),
        (Kind::Set, Some(last)) if last.line == 5 => (last.second == call.a).to_string(),
        (Kind::Set, Some(last)) => (last.second == 1).to_string(),
        _ => first.second.to_string(),
    }
}

/// What is counted of a record.
#[derive(Default)]
pub struct Seen {
    pub raises: usize,
    pub begun: usize,
    pub past_5: usize,
    /// Losers of each raise.
    pub losers: Vec<usize>,
    /// Turns at place 16 with an even seq and cp ≠ ca.
    pub moved: usize,
    /// Turns by place, 11 to 20, before which the station stood there while V was raised twice or more.
    pub late: [usize; 21],
}

impl Record {
    pub fn seen(&self) -> Seen {
        let raises = self.raises();
        let begun = || self.turns.iter().filter(|done| matches!(done.line, 2 | 5));
        let past_5 = || begun().filter(|done| !done.ended);
        let losers = raises.iter().map(|raise| {
            past_5().filter(|done| done.first + 2 == raise.version && done.station != raise.winner).count()
        });
        let moved = self.turns.iter().enumerate().filter(|(at, done)| {
            let (seq, claim) = match done.line {
                16 => read_at(&self.turns[..*at], done.call.unwrap_or(0), 15),
                _ => return false,
            };
            seq % 2 == 0 && claim % 65_536 != done.first
        });
        Seen {
            raises: raises.len(),
            begun: begun().count(),
            past_5: past_5().count(),
            losers: losers.collect(),
            moved: moved.count(),
            late: self.late(),
        }
    }

    fn late(&self) -> [usize; 21] {
        let (mut late, mut seen, mut raises) = ([0; 21], [0; 33], 0);
        for done in &self.turns {
            if done.line > 5 && raises >= seen[done.station] + 2 {
                late[usize::from(done.line)] += 1;
            }
            raises += usize::from(done.raised);
            seen[done.station] = raises;
        }
        late
    }
}

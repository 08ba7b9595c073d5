//! Random runs that contend. Each is made while a machine runs it: a call claims from the value that stands when it begins,
//! so that the word keeps moving, and a station may stop at a place until others have gone on without it.

use crate::machine::{Machine, Place, ENTRIES};
use crate::random::Random;
use crate::runfile::{write, Call, Kind, MAX_CALLS};
use crate::values::Ring;

/// Limits of a run: stations, calls and turns.
pub struct Size {
    pub stations: usize,
    pub calls: usize,
    pub turns: usize,
}

/// What the calls of a run are like, in parts of 100.
struct Habits {
    reads: usize,
    swaps: usize,
    /// Calls that end at place 5: another value than the one that stands, or a = b.
    early: usize,
    /// Calls that stop somewhere.
    stops: usize,
    /// Turns of stations without a call.
    idle: usize,
}

impl Habits {
    fn some(random: &mut Random) -> Habits {
        Habits {
            reads: random.pick(&[0, 0, 5, 20]),
            swaps: random.pick(&[0, 10, 30, 60]),
            early: random.pick(&[0, 5, 10, 20]),
            stops: random.pick(&[10, 30, 50, 70]),
            idle: random.pick(&[0, 0, 1, 5]),
        }
    }

    /// Every call goes past place 5.
    fn all_past_5(random: &mut Random) -> Habits {
        Habits { reads: 0, early: 0, ..Habits::some(random) }
    }
}

/// What a station that stopped waits for.
#[derive(Clone, Copy)]
enum Until {
    /// V.seq has reached this version.
    Raised(u32),
    /// The station that it read from P is in its next call: A no longer has the count that P had.
    HolderMoved,
    /// And its R is reset for that call.
    HolderReset,
    /// P.seq is odd: another station stands between its 13 and its 14.
    Claimed,
}

#[derive(Clone, Copy)]
struct Stop {
    place: Place,
    until: Until,
    /// It waits no longer than to this turn.
    last: usize,
}

struct Maker<'a> {
    random: &'a mut Random,
    machine: Machine,
    n: usize,
    ring: Ring,
    habits: Habits,
    calls: Vec<Call>,
    turns: Vec<u8>,
    most_calls: usize,
    stops: [Option<Stop>; ENTRIES],
    /// Stations that make no call any more: what a turn of theirs at rest finds.
    silent: [bool; ENTRIES],
}

/// A run of at most this size, cut short or with calls left over now and then.
pub fn run(random: &mut Random, size: &Size) -> Vec<u8> {
    let n = if random.once_in(12) { 1 } else { random.between(2, size.stations) };
    let calls = size.calls - random.below(size.calls / 2);
    let turns = if random.once_in(6) { random.between(0, size.turns) } else { size.turns };
    let habits = Habits::some(random);
    let fill = random.once_in(8);
    let mut maker = Maker::new(random, n, habits, calls);
    let x = maker.machine.v.second;
    if n > 2 && maker.random.once_in(3) {
        let quiet = maker.random.between(1, n);
        maker.silent[quiet] = true;
    }
    maker.turns(turns, fill);
    if maker.random.once_in(4) {
        maker.calls_left_over(size.calls);
    }
    let table = maker.table();
    write(x, n as u8, &table, &maker.turns)
}

/// 1,024 calls that all go past place 5, and this many turns; the last station makes no call. Under 10,240 turns the last
/// calls don't begin.
pub fn deepest(random: &mut Random, n: usize, turns: usize) -> Vec<u8> {
    let habits = Habits::all_past_5(random);
    let mut maker = Maker::new(random, n, habits, MAX_CALLS);
    let x = maker.machine.v.second;
    maker.silent[n] = true;
    maker.turns(turns, true);
    maker.calls_left_over(MAX_CALLS);
    let table = maker.table();
    write(x, n as u8, &table, &maker.turns)
}

impl Maker<'_> {
    fn new(random: &mut Random, n: usize, habits: Habits, most_calls: usize) -> Maker<'_> {
        let ring = Ring::new(random, &[2, 2, 3, 3, 4, 7]);
        let machine = Machine::fresh(ring.one(random));
        let (calls, turns) = (Vec::with_capacity(most_calls), Vec::new());
        let (stops, silent) = ([None; ENTRIES], [false; ENTRIES]);
        Maker { random, machine, n, ring, habits, calls, turns, most_calls, stops, silent }
    }

    /// Turns in phases. In each a few stations contend; the others stay where they are.
    fn turns(&mut self, most: usize, fill: bool) {
        let n = self.n;
        while self.turns.len() < most {
            if !fill && self.calls.len() == self.most_calls && !self.any_in_call() {
                return;
            }
            let size = if self.random.once_in(2) { n } else { self.random.between(n.min(2), n) };
            let mut some: Vec<usize> = (1..=n).collect();
            for at in 0..n {
                some.swap(at, self.random.below(at + 1));
            }
            some.truncate(size);
            let length = self.random.between(1, 12 * size);
            self.phase(&some, length.min(most - self.turns.len()));
        }
    }

    fn any_in_call(&self) -> bool {
        self.machine.stations[1..=self.n].iter().any(|station| station.place != Place::Rest)
    }

    /// So many turns of these stations: any of them, one after the other, bursts of one, or two by turns.
    fn phase(&mut self, some: &[usize], length: usize) {
        let (way, mut at) = (self.random.below(4), self.random.below(some.len()));
        for turn in 0..length {
            at = match way {
                0 => self.random.below(some.len()),
                1 => (at + 1) % some.len(),
                2 if self.random.once_in(5) => self.random.below(some.len()),
                2 => at,
                _ => turn % 2 % some.len(),
            };
            let id = self.next_from(some, at);
            self.turn(id);
        }
    }

    /// The station at this place of the row, or the first after it that can move and doesn't wait.
    /// Where all wait, the first of them goes on; where none is in a call, a turn is idle.
    fn next_from(&mut self, some: &[usize], at: usize) -> usize {
        let idle = self.random.below(100) < self.habits.idle;
        let (mut late, mut quiet) = (None, None);
        for step in 0..some.len() {
            let id = some[(at + step) % some.len()];
            if self.is_quiet(id) {
                if idle {
                    return id;
                }
                quiet = quiet.or(Some(id));
            } else if self.waits(id) {
                late = late.or(Some(id));
            } else {
                return id;
            }
        }
        if let Some(id) = late {
            self.stops[id] = None;
        }
        late.or(quiet).unwrap_or(some[at])
    }

    /// At rest, and with no call to make.
    fn is_quiet(&self, id: usize) -> bool {
        let no_call = self.silent[id] || self.calls.len() == self.most_calls;
        self.machine.stations[id].place == Place::Rest && no_call
    }

    fn waits(&mut self, id: usize) -> bool {
        let (me, Some(stop)) = (&self.machine.stations[id], self.stops[id]) else { return false };
        if me.place != stop.place {
            return false;
        }
        let over = match stop.until {
            Until::Raised(version) => self.machine.v.first >= version,
            Until::HolderMoved => self.machine.a[me.pid].first != me.cp,
            Until::HolderReset => self.machine.r[me.pid].first > me.cp,
            Until::Claimed => self.machine.p.first % 2 == 1,
        };
        if over || self.turns.len() >= stop.last {
            self.stops[id] = None;
            return false;
        }
        true
    }

    fn turn(&mut self, id: usize) {
        self.turns.push(id as u8);
        if self.is_quiet(id) {
            self.silent[id] = true;
        } else if self.machine.stations[id].place != Place::Rest {
            self.machine.step::<{ crate::fault::NONE }>(id);
        } else {
            let call = self.offer(id as u8);
            self.calls.push(call);
            self.machine.begin(id, call);
            let stops = self.random.below(100) < self.habits.stops;
            self.stops[id] = stops.then(|| self.stop());
        }
    }

    /// Mostly a call from the value that stands.
    fn offer(&mut self, station: u8) -> Call {
        let stands = self.machine.v.second;
        let (part, random) = (self.random.below(100), &mut *self.random);
        let kind = if random.below(100) < self.habits.swaps { Kind::Swap } else { Kind::Set };
        let (a, b) = match part.checked_sub(self.habits.reads) {
            None => return Call { station, kind: Kind::Read, a: 0, b: 0 },
            Some(part) if part >= self.habits.early => (stands, self.ring.other(random, stands)),
            Some(part) if part % 3 == 0 => (stands, stands),
            Some(_) => (self.ring.other(random, stands), self.ring.one(random)),
        };
        Call { station, kind, a, b }
    }

    /// A place to stop at in the call just begun, and what to wait for there.
    fn stop(&mut self) -> Stop {
        let places = [
            Place::P11,
            Place::P12,
            Place::P13,
            Place::P14,
            Place::P14,
            Place::P15,
            Place::P16,
            Place::P16,
            Place::P18,
            Place::P18,
            Place::P18,
            Place::P19,
            Place::P20,
        ];
        let place = self.random.pick(&places);
        let raises = self.random.pick(&[1, 1, 1, 2, 3, 5]);
        let until = match (place, self.random.below(4)) {
            (Place::P15, 0..=2) | (Place::P18, 0..=1) => Until::Claimed,
            (Place::P18, 2) => Until::HolderReset,
            (Place::P16 | Place::P19, 0..=2) | (Place::P18, 3) => Until::HolderMoved,
            _ => Until::Raised(self.machine.v.first + 2 * raises),
        };
        Stop { place, until, last: self.turns.len() + self.random.between(30, 30 * self.n + 90) }
    }

    /// Calls that never begin, for stations that had no idle turn.
    fn calls_left_over(&mut self, most: usize) {
        let able: Vec<usize> = (1..=self.n).filter(|&id| !self.silent[id]).collect();
        while !able.is_empty() && self.calls.len() < most {
            let id = self.random.pick(&able);
            let call = self.offer(id as u8);
            self.calls.push(call);
        }
    }

    /// The calls as they began, or in another order that keeps each station's own.
    fn table(&mut self) -> Vec<Call> {
        if self.random.once_in(2) {
            return self.calls.clone();
        }
        let mut row: Vec<u8> = self.calls.iter().map(|call| call.station).collect();
        for at in 0..row.len() {
            row.swap(at, self.random.below(at + 1));
        }
        let mut next = [0; ENTRIES];
        row.into_iter()
            .map(|station| {
                let from = &mut next[usize::from(station)];
                let behind = self.calls[*from..].iter().position(|call| call.station == station);
                let at = *from + behind.unwrap_or(0);
                *from = at + 1;
                self.calls[at]
            })
            .collect()
    }
}

//! The step table of document 01 (Algorithm 1 of 001): one register operation a turn.

use crate::card::{count_of, pid_and_count, pid_of, Pair};
use crate::fault;
use crate::runfile::{Call, Kind};

/// Where a station stands; the numbers are the lines of 001.
#[derive(Clone, Copy, Debug, PartialEq, Eq)]
pub enum Place {
    Rest,
    P11,
    P12,
    P13,
    P14,
    P15,
    P16,
    P18,
    P19,
    P20,
}

/// What a call gave, or `Open`.
#[derive(Clone, Copy, Debug, PartialEq, Eq)]
pub enum Answer {
    Open,
    Truth(bool),
    Number(u32),
}

/// What one operation brought about.
#[derive(Clone, Copy, Debug, PartialEq, Eq)]
pub enum Event {
    Going,
    /// Ended by its first operation.
    EndedAtOnce(Answer),
    /// Place 19 done; true if it raised V.seq.
    Wrote(bool),
    EndedAt20(Answer),
}

#[derive(Clone, Copy, Debug)]
pub struct Station {
    pub place: Place,
    kind: Kind,
    a: u32,
    b: u32,
    pub s: u32,
    c: u32,
    pub seq: u32,
    pub pid: usize,
    pub cp: u32,
    ca: u32,
    val: u32,
}

const RESTING: Station = Station {
    place: Place::Rest,
    kind: Kind::Read,
    a: 0,
    b: 0,
    s: 0,
    c: 0,
    seq: 0,
    pid: 0,
    cp: 0,
    ca: 0,
    val: 0,
};

pub const ENTRIES: usize = 33;

pub struct Machine {
    pub v: Pair,
    pub p: Pair,
    pub a: [Pair; ENTRIES],
    pub r: [Pair; ENTRIES],
    pub stations: [Station; ENTRIES],
}

impl Machine {
    pub fn fresh(x: u32) -> Machine {
        Machine {
            v: Pair::new(0, x),
            p: Pair::ZERO,
            a: [Pair::ZERO; ENTRIES],
            r: [Pair::ZERO; ENTRIES],
            stations: [RESTING; ENTRIES],
        }
    }

    /// A station at rest begins `call` with its first operation, place 2 or 5.
    #[inline]
    pub fn begin(&mut self, id: usize, call: Call) -> Event {
        let Pair { first: seq, second: val } = self.v;
        if call.kind == Kind::Read {
            return Event::EndedAtOnce(Answer::Number(val));
        }
        if val != call.a || call.a == call.b {
            let answer = match call.kind {
                Kind::Swap => Answer::Number(val),
                _ => Answer::Truth(val == call.a),
            };
            return Event::EndedAtOnce(answer);
        }
        let c = self.stations[id].c;
        self.stations[id] =
            Station { place: Place::P11, kind: call.kind, a: call.a, b: call.b, s: seq, c, ..RESTING };
        Event::Going
    }

    /// The next operation of a station that is in a call.
    #[inline]
    pub fn step<const F: u8>(&mut self, id: usize) -> Event {
        let me = &mut self.stations[id];
        match me.place {
            Place::Rest => {}
            Place::P11 => {
                if F == fault::S_AT_11 {
                    me.s = self.v.first;
                }
                me.c += 1;
                self.a[id] = Pair::new(me.c, me.b);
                me.place = Place::P12;
            }
            Place::P12 => {
                if F != fault::NO_RESET {
                    self.r[id] = Pair::new(me.c, 0);
                }
                me.place = Place::P13;
            }
            Place::P13 => {
                let c = if F == fault::OLD_COUNT_AT_13 { me.c - 1 } else { me.c };
                let claim = Pair::new(me.s + 1, pid_and_count(id as u8, c));
                put::<F>(&mut self.p, claim, fault::WRITE_AT_13);
                me.place = Place::P14;
            }
            Place::P14 => {
                self.p.half_max(if F == fault::HALF_MAX_ODD { me.s + 1 } else { me.s + 2 });
                me.place = Place::P15;
            }
            Place::P15 => {
                me.seq = self.p.first;
                me.pid = pid_of(self.p.second);
                me.cp = count_of(self.p.second);
                me.place = Place::P16;
            }
            _ => return self.step_late::<F>(id),
        }
        Event::Going
    }

    /// The operations at places 16 to 20.
    #[inline]
    fn step_late<const F: u8>(&mut self, id: usize) -> Event {
        let me = &mut self.stations[id];
        match me.place {
            Place::P16 => {
                let Pair { first: ca, second: val } = self.a[me.pid];
                (me.ca, me.val) = (ca, val);
                let even = F == fault::NO_PARITY || me.seq.is_multiple_of(2);
                let same = F == fault::NO_COUNT_TEST || me.cp == ca;
                me.place = if even && same { Place::P18 } else { Place::P20 };
                Event::Going
            }
            Place::P18 => {
                if F == fault::A_READ_AGAIN {
                    Pair { first: me.ca, second: me.val } = self.a[me.pid];
                }
                let winner = match F {
                    fault::R_OF_SELF => id,
                    fault::R_OF_LATER_PID => pid_of(self.p.second),
                    _ => me.pid,
                };
                put::<F>(&mut self.r[winner], Pair::new(me.ca, 1), fault::WRITE_AT_18);
                me.place = Place::P19;
                Event::Going
            }
            Place::P19 => {
                let before = self.v.first;
                put::<F>(&mut self.v, Pair::new(me.seq, me.val), fault::WRITE_AT_19);
                me.place = Place::P20;
                Event::Wrote(self.v.first > before)
            }
            _ => {
                let won = self.r[id].second == 1;
                let answer = match me.kind {
                    Kind::Swap if F == fault::SWAP_OF_LAST_TURN => Answer::Number(self.v.second),
                    Kind::Swap => Answer::Number(me.a),
                    _ => Answer::Truth(won),
                };
                *me = Station { c: me.c, ..RESTING };
                Event::EndedAt20(answer)
            }
        }
    }
}

/// A max-write, or a write in the program of the fault `plain`.
#[inline]
fn put<const F: u8>(register: &mut Pair, new: Pair, plain: u8) {
    if F == plain {
        *register = new;
    } else {
        register.max_write::<F>(new);
    }
}

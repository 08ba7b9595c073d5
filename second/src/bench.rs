//! Any bench in numbers, sound or not: whether it is sound, a turn of it, and its picture, from document 01's sections
//! "Registers", "One turn", "A sound bench" and "Numbered refusals". A run never comes here: its machine is machine.rs.

pub const ROWS: usize = 33;
const MOST_COUNT: u32 = 65_535;
const LAST_S: u32 = 4_294_967_292;

/// A station's record; place 0 is at rest.
#[derive(Clone, Copy, Debug, Default, PartialEq, Eq)]
pub struct Record {
    pub place: u32,
    pub kind: u32,
    pub a: u32,
    pub b: u32,
    pub s: u32,
    pub own: u32,
    pub c: u32,
    pub seq: u32,
    pub pid: u32,
    pub cp: u32,
    pub ca: u32,
    pub val: u32,
}

/// A register of two halves; of R the second is ret.
#[derive(Clone, Copy, Debug, Default, PartialEq, Eq)]
pub struct Halves(pub u32, pub u32);

#[derive(Clone, Copy, Debug, Default, PartialEq, Eq)]
pub struct Claim {
    pub seq: u32,
    pub pid: u32,
    pub c: u32,
}

#[derive(Clone, Debug, PartialEq, Eq)]
pub struct Bench {
    pub n: u32,
    pub v: Halves,
    pub p: Claim,
    pub a: [Halves; ROWS],
    pub r: [Halves; ROWS],
    pub stations: [Record; ROWS],
}

/// An offered call: kind 0 read, 1 set, 2 swap, 3 none.
#[derive(Clone, Copy, Debug, PartialEq, Eq)]
pub struct Offer {
    pub kind: u32,
    pub a: u32,
    pub b: u32,
}

#[derive(Clone, Copy, Debug, PartialEq, Eq)]
pub enum Outcome {
    Idle,
    Going,
    /// The result, of a set 1 or 0, and own turns.
    Ended(u32, u32),
    Refused(u32),
}

pub fn is_place(number: u32) -> bool {
    matches!(number, 0 | 11..=16 | 18..=20)
}

impl Record {
    /// At rest: zero in all but c.
    fn rests(&self) -> bool {
        *self == Record { c: self.c, ..Record::default() }
    }

    /// What a sound bench of `n` stations asks of a station among them.
    fn is_sound(&self, n: u32) -> bool {
        if self.c > MOST_COUNT {
            return false;
        }
        if self.place == 0 {
            return self.rests();
        }
        let called = matches!(self.kind, 1 | 2) && self.a != self.b;
        let version = self.s.is_multiple_of(2) && self.s <= LAST_S;
        let saved = self.pid <= n && self.cp <= MOST_COUNT && self.ca <= MOST_COUNT;
        called && version && saved && self.stands_well()
    }

    /// Own turns and what was read, by the place.
    fn stands_well(&self) -> bool {
        let nothing_read = [self.seq, self.pid, self.cp, self.ca, self.val] == [0; 5];
        let chosen = self.seq.is_multiple_of(2) && self.cp == self.ca;
        match self.place {
            11 => self.own == 1 && self.c < MOST_COUNT && nothing_read,
            12..=15 => self.own == self.place - 10 && nothing_read,
            16 => self.own == 6 && self.ca == 0 && self.val == 0,
            18 | 19 => self.own == self.place - 11 && chosen,
            20 => matches!(self.own, 7 | 9),
            _ => false,
        }
    }
}

impl Halves {
    fn max_write(&mut self, first: u32, second: u32) {
        if first >= self.0 {
            *self = Halves(first, second);
        }
    }

    fn word(self) -> u64 {
        u64::from(self.0) << 32 | u64::from(self.1)
    }
}

impl Bench {
    pub fn fresh(n: u32, x: u32) -> Bench {
        Bench {
            n,
            v: Halves(0, x),
            p: Claim::default(),
            a: [Halves::default(); ROWS],
            r: [Halves::default(); ROWS],
            stations: [Record::default(); ROWS],
        }
    }

    pub fn is_sound(&self) -> bool {
        let n = self.n;
        let entries =
            self.a.iter().all(|a| a.0 <= MOST_COUNT) && self.r.iter().all(|r| r.0 <= MOST_COUNT && r.1 <= 1);
        let registers = self.v.0.is_multiple_of(2) && self.p.pid <= n && self.p.c <= MOST_COUNT;
        let fresh = |at: usize| self.stations[at] == Record::default();
        let above = |at: usize| fresh(at) && self.a[at] == Halves(0, 0) && self.r[at] == Halves(0, 0);
        (1..=32).contains(&n)
            && entries
            && registers
            && fresh(0)
            && (1..ROWS).all(|at| if at as u32 > n { above(at) } else { self.stations[at].is_sound(n) })
    }

    /// The lowest of 9 to 13 that holds.
    fn refusal(&self, station: u32, offer: Offer) -> Option<u32> {
        let bare = !matches!(offer.kind, 0 | 3) || (offer.a == 0 && offer.b == 0);
        if !self.is_sound() {
            return Some(9);
        }
        if station == 0 || station > self.n {
            return Some(10);
        }
        if offer.kind > 3 || !bare {
            return Some(11);
        }
        let me = &self.stations[station as usize];
        if me.place != 0 || !matches!(offer.kind, 1 | 2) {
            return None;
        }
        match () {
            () if me.c == MOST_COUNT => Some(12),
            () if self.v.0 > LAST_S => Some(13),
            () => None,
        }
    }

    /// A turn; refused, it leaves the bench as it was.
    pub fn turn(&mut self, station: u32, offer: Offer) -> Outcome {
        if let Some(number) = self.refusal(station, offer) {
            return Outcome::Refused(number);
        }
        let id = station as usize;
        let outcome = match self.stations[id].place {
            0 => self.begin(id, offer),
            place => self.operate(id, place),
        };
        if let Outcome::Ended(..) = outcome {
            self.stations[id] = Record { c: self.stations[id].c, ..Record::default() };
        }
        outcome
    }

    /// Place 2 or 5, or an idle turn.
    fn begin(&mut self, id: usize, offer: Offer) -> Outcome {
        let Halves(seq, val) = self.v;
        let Offer { kind, a, b } = offer;
        match kind {
            3 => Outcome::Idle,
            0 => Outcome::Ended(val, 1),
            2 if val != a || a == b => Outcome::Ended(val, 1),
            _ if val != a => Outcome::Ended(0, 1),
            _ if a == b => Outcome::Ended(1, 1),
            _ => {
                let c = self.stations[id].c;
                self.stations[id] = Record { place: 11, kind, a, b, s: seq, own: 1, c, ..Record::default() };
                Outcome::Going
            }
        }
    }

    /// The operation at a place from 11 to 20.
    fn operate(&mut self, id: usize, place: u32) -> Outcome {
        let me = &mut self.stations[id];
        me.own += 1;
        me.place = if place == 16 { 18 } else { place + 1 };
        let pid = me.pid as usize;
        match place {
            11 => {
                me.c += 1;
                self.a[id] = Halves(me.c, me.b);
            }
            12 => self.r[id] = Halves(me.c, 0),
            13 if me.s + 1 >= self.p.seq => self.p = Claim { seq: me.s + 1, pid: id as u32, c: me.c },
            13 => {}
            14 => self.p.seq = self.p.seq.max(me.s + 2),
            15 => Claim { seq: me.seq, pid: me.pid, c: me.cp } = self.p,
            16 => {
                Halves(me.ca, me.val) = self.a[pid];
                if me.seq % 2 == 1 || me.cp != me.ca {
                    me.place = 20;
                }
            }
            18 => self.r[pid].max_write(me.ca, 1),
            19 => self.v.max_write(me.seq, me.val),
            _ => return Outcome::Ended(if me.kind == 2 { me.a } else { self.r[id].1 }, me.own),
        }
        Outcome::Going
    }

    /// V, P, A[1..n] and R[1..n] as little-endian words; refused 9 if the bench is not sound.
    pub fn picture(&self) -> Result<Vec<u8>, u32> {
        if !self.is_sound() {
            return Err(9);
        }
        let n = self.n as usize;
        let claim = Halves(self.p.seq, self.p.pid << 16 | self.p.c);
        let words = [self.v, claim].into_iter().chain(self.a[1..=n].to_vec()).chain(self.r[1..=n].to_vec());
        Ok(words.flat_map(|halves| halves.word().to_le_bytes()).collect())
    }
}

//! The run of a good file: whose call is next, and the book of what each call did.

use crate::fault;
use crate::machine::{Answer, Event, Machine, Place, ENTRIES};
use crate::runfile::{RunFile, MAX_CALLS};

const NO_CALL: u16 = u16::MAX;

/// What is known of one call; turns count from 1, and 0 is "not yet".
#[derive(Clone, Copy, Debug)]
pub struct Entry {
    pub answer: Answer,
    pub own: u32,
    pub first: u32,
    pub last: u32,
    pub point: u32,
}

const UNBEGUN: Entry = Entry { answer: Answer::Open, own: 0, first: 0, last: 0, point: 0 };

/// The book of a run. All its rows are lent once; a turn allocates nothing.
pub struct Book {
    pub entries: [Entry; MAX_CALLS],
    list: [u16; MAX_CALLS],
    listed: usize,
    /// The next call of the same station, by call.
    next: [u16; MAX_CALLS],
    /// The call that a station begins next, and the one it is in.
    head: [u16; ENTRIES],
    current: [u16; ENTRIES],
    pub idle: u32,
    pub begun: u32,
    pub ended: u32,
    pub contests: u32,
}

impl Book {
    fn fresh(file: &RunFile) -> Book {
        let mut book = Book {
            entries: [UNBEGUN; MAX_CALLS],
            list: [NO_CALL; MAX_CALLS],
            listed: 0,
            next: [NO_CALL; MAX_CALLS],
            head: [NO_CALL; ENTRIES],
            current: [NO_CALL; ENTRIES],
            idle: 0,
            begun: 0,
            ended: 0,
            contests: 0,
        };
        for (at, call) in file.calls().enumerate().rev() {
            let head = &mut book.head[usize::from(call.station)];
            book.next[at] = *head;
            *head = at as u16;
        }
        book
    }

    /// The calls that have a point, in the order of effect.
    pub fn list(&self) -> &[u16] {
        &self.list[..self.listed]
    }

    #[inline]
    fn give_point(&mut self, call: u16, turn: u32) {
        let entry = &mut self.entries[usize::from(call)];
        if entry.point == 0 && self.listed < MAX_CALLS {
            entry.point = turn;
            self.list[self.listed] = call;
            self.listed += 1;
        }
    }

    #[inline]
    fn end(&mut self, call: u16, turn: u32, answer: Answer) {
        let entry = &mut self.entries[usize::from(call)];
        entry.answer = answer;
        entry.last = turn;
        self.ended += 1;
    }
}

/// Runs the turns of `file` from a fresh bench; the fault is `NONE` but in trials of the checks.
pub fn run<const F: u8>(file: &RunFile) -> (Book, Machine) {
    let mut book = Book::fresh(file);
    let mut machine = Machine::fresh(file.x);
    for (at, &id) in file.turns.iter().enumerate() {
        turn::<F>(file, &mut book, &mut machine, usize::from(id), at as u32 + 1);
    }
    (book, machine)
}

#[inline]
fn turn<const F: u8>(file: &RunFile, book: &mut Book, machine: &mut Machine, id: usize, now: u32) {
    let event = if machine.stations[id].place == Place::Rest {
        let call = book.head[id];
        if call == NO_CALL {
            book.idle += 1;
            return;
        }
        book.head[id] = book.next[usize::from(call)];
        book.current[id] = call;
        book.begun += 1;
        book.entries[usize::from(call)].first = now;
        machine.begin(id, file.call(usize::from(call)))
    } else {
        machine.step::<F>(id)
    };
    let call = book.current[id];
    book.entries[usize::from(call)].own += 1;
    match event {
        Event::Going => {}
        Event::EndedAtOnce(answer) => {
            book.give_point(call, now);
            book.end(call, now, answer);
        }
        Event::EndedAt20(answer) => {
            if F == fault::LOSER_AT_OWN_TURN {
                book.give_point(call, now);
            }
            book.end(call, now, answer);
        }
        Event::Wrote(raised) => wrote::<F>(book, machine, id, raised, now),
    }
}

/// Points after place 19 of station `id`: at the first raise to s+2, the winner's, then the others'.
fn wrote<const F: u8>(book: &mut Book, machine: &Machine, id: usize, raised: bool, now: u32) {
    let (seq, winner) = (machine.stations[id].seq, machine.stations[id].pid);
    if F == fault::POINT_AT_OWN_19 {
        if winner != id || machine.stations[id].s + 2 != seq {
            return;
        }
    } else if !raised {
        return;
    }
    if past_5(machine, winner, seq) {
        book.give_point(book.current[winner], now);
    }
    if F == fault::LOSER_AT_OWN_TURN {
        return;
    }
    let before = book.listed;
    for at in 1..ENTRIES {
        let other = if F == fault::LOSERS_FALLING { ENTRIES - at } else { at };
        let loses = if F == fault::LOSERS_BY_SEQ {
            machine.stations[other].place != Place::Rest && machine.stations[other].seq == seq
        } else {
            past_5(machine, other, seq)
        };
        if loses && other != winner {
            book.give_point(book.current[other], now);
        }
    }
    book.contests += u32::from(book.listed > before);
}

/// Station `id` is in a call that went past place 5 with the version before `seq`.
#[inline]
fn past_5(machine: &Machine, id: usize, seq: u32) -> bool {
    let station = &machine.stations[id];
    station.place != Place::Rest && station.s + 2 == seq
}

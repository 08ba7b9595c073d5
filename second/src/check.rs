//! Demand 3 by brute force: from the trace of each call and the printed list, and not from the
//! definition of the list.

use crate::machine::Answer;
use crate::run::Book;
use crate::runfile::{Call, Kind, RunFile};

/// A call as the trace has it: its turns come from the run, its own turns are counted in the file.
#[derive(Clone, Copy)]
pub struct Traced {
    pub call: Call,
    pub first: u32,
    pub last: Option<u32>,
    pub answer: Answer,
    own: u32,
}

/// A line of the printed list.
struct Line {
    call: usize,
    answer: Answer,
    own: u32,
    point: u32,
}

/// The calls that were begun; none for the others.
pub fn trace(run: &RunFile, book: &Book) -> Vec<Option<Traced>> {
    run.calls()
        .zip(&book.entries)
        .map(|(call, entry)| {
            let last = (entry.last > 0).then_some(entry.last);
            let until = last.unwrap_or(run.turns.len() as u32) as usize;
            let from = (entry.first as usize).checked_sub(1)?;
            let own = run.turns[from..until].iter().filter(|&&id| id == call.station).count();
            Some(Traced { call, first: entry.first, last, answer: entry.answer, own: own as u32 })
        })
        .collect()
}

/// What is wrong with the printed list of a run, if anything is.
pub fn check(run: &RunFile, trace: &[Option<Traced>], printed: &str) -> Result<(), String> {
    let mut lines: Vec<Vec<&str>> = printed.lines().map(|l| l.split(' ').collect()).collect();
    let totals = lines.pop().ok_or("no last line")?;
    let list = lines
        .iter()
        .enumerate()
        .map(|(at, fields)| line(at, fields, trace))
        .collect::<Result<Vec<Line>, String>>()?;
    own_turns(trace)?;
    listed_once(&list, trace)?;
    points(run, &list, trace)?;
    let word = serve(run.x, &list, trace)?;
    sums(run, trace, &totals, word)
}

fn number(field: &str) -> Result<u32, String> {
    field.parse().map_err(|_| format!("{field} is no number"))
}

fn line(at: usize, fields: &[&str], trace: &[Option<Traced>]) -> Result<Line, String> {
    let &[place, station, call, kind, answer, own, point] = fields else {
        return Err(format!("line {} has not 7 fields", at + 1));
    };
    let call = (number(call)? as usize).wrapping_sub(1);
    let traced = trace.get(call).ok_or("listed, but not in the table")?;
    let traced = traced.ok_or("listed, but never begun")?;
    let answer = match answer {
        "open" => Answer::Open,
        "true" => Answer::Truth(true),
        "false" => Answer::Truth(false),
        value => Answer::Number(number(value)?),
    };
    let same = number(place)? as usize == at + 1
        && number(station)? == u32::from(traced.call.station)
        && kind == traced.call.kind.word()
        && answer == traced.answer
        && number(own)? == traced.own;
    if !same {
        return Err(format!("line {} and the trace differ", at + 1));
    }
    Ok(Line { call, answer, own: number(own)?, point: number(point)? })
}

fn own_turns(trace: &[Option<Traced>]) -> Result<(), String> {
    for traced in trace.iter().flatten() {
        let good = match traced.last {
            Some(_) => matches!(traced.own, 1 | 8 | 10),
            None => traced.own <= 9,
        };
        if !good {
            return Err(format!("a call with {} own turns", traced.own));
        }
    }
    Ok(())
}

fn listed_once(list: &[Line], trace: &[Option<Traced>]) -> Result<(), String> {
    let mut times = vec![0; trace.len()];
    list.iter().for_each(|line| times[line.call] += 1);
    for (at, traced) in trace.iter().enumerate() {
        let ended = traced.is_some_and(|traced| traced.last.is_some());
        if times[at] > 1 || (ended && times[at] == 0) {
            return Err(format!("call {} is listed {} times", at + 1, times[at]));
        }
    }
    Ok(())
}

fn points(run: &RunFile, list: &[Line], trace: &[Option<Traced>]) -> Result<(), String> {
    let mut before = 0;
    for line in list {
        let Some(traced) = trace[line.call] else { continue };
        let last = traced.last.unwrap_or(run.turns.len() as u32);
        if line.point < before || line.point < traced.first || line.point > last {
            return Err(format!("the point of call {} is out of place", line.call + 1));
        }
        before = line.point;
    }
    Ok(())
}

/// What a word served with `call` becomes, and whether the answer is the one it would give.
/// The answer of an open call and of a swap is not looked at.
pub fn served(word: u32, call: Call, answer: Answer) -> (u32, bool) {
    match call.kind {
        Kind::Read => (word, matches!(answer, Answer::Open) || answer == Answer::Number(word)),
        kind => {
            let after = if word == call.a { call.b } else { word };
            let free = kind == Kind::Swap || answer == Answer::Open;
            (after, free || answer == Answer::Truth(word == call.a))
        }
    }
}

fn serve(x: u32, list: &[Line], trace: &[Option<Traced>]) -> Result<u32, String> {
    let mut word = x;
    for line in list {
        let Some(traced) = trace[line.call] else { continue };
        let (after, same) = served(word, traced.call, line.answer);
        if !same {
            return Err(format!("call {} of {} own turns has another answer", line.call + 1, line.own));
        }
        word = after;
    }
    Ok(word)
}

fn sums(run: &RunFile, trace: &[Option<Traced>], totals: &[&str], word: u32) -> Result<(), String> {
    let &[turns, idle, begun, ended, val, _seq] = totals else {
        return Err("the last line has not 6 fields".into());
    };
    let known: Vec<&Traced> = trace.iter().flatten().collect();
    let own: u32 = known.iter().map(|traced| traced.own).sum();
    let done = known.iter().filter(|traced| traced.last.is_some()).count();
    let same = number(turns)? as usize == run.turns.len()
        && number(idle)? + own == number(turns)?
        && number(begun)? as usize == known.len()
        && number(ended)? as usize == done;
    if !same || number(val)? != word {
        return Err("the last line is wrong".into());
    }
    Ok(())
}

//! Is there any legal order at all? Searched for small runs, without the list.

use crate::check::{served, Traced};

/// Runs of at most this many calls are searched.
pub const SMALL: usize = 6;

/// Some order of the calls, the open ones in it or not, keeps to "ended before it began",
/// gives every answer, and leaves the word at `val`.
pub fn some_order(x: u32, val: u32, calls: &[Traced]) -> bool {
    descend(x, val, calls, 0)
}

fn descend(word: u32, val: u32, calls: &[Traced], done: u32) -> bool {
    let left = |at: usize| done & 1 << at == 0;
    let must = (0..calls.len()).any(|at| left(at) && calls[at].last.is_some());
    if !must && word == val {
        return true;
    }
    (0..calls.len()).filter(|&at| left(at)).any(|at| {
        let me = &calls[at];
        let early = |other: usize| left(other) && calls[other].last.is_some_and(|l| l < me.first);
        let (after, same) = served(word, me.call, me.answer);
        same && !(0..calls.len()).any(early) && descend(after, val, calls, done | 1 << at)
    })
}

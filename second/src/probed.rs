//! The probes compared: cases through this program's own and through the bench's, and inputs that can't be read.

use crate::difference::Difference;
use crate::ill_formed;
use crate::other::{program, run, started, top};
use crate::probe::{line, probe};
use crate::probes::{cases, spoils, ANEW};
use crate::seen::Seen;
use std::process::Command;
use std::sync::atomic::{AtomicUsize, Ordering};
use std::thread::{available_parallelism, scope};

/// Cases of one process.
const BATCH: u64 = 10 * ANEW;
const SEED: u64 = 1;

/// The other side: the words of SECOND_PROBE, or the bench's program.
fn other_side() -> Option<Command> {
    if let Ok(words) = std::env::var("SECOND_PROBE") {
        let mut words = words.split(' ');
        let mut command = Command::new(words.next()?);
        command.args(words);
        return Some(command);
    }
    let path = top().join(program("probe"));
    path.is_file().then(|| started(&path))
}

/// A process's input: cases from one number up to another, or bytes that can't be read.
enum Input {
    Cases(u64, u64),
    IllFormed(Vec<u8>),
}

impl Input {
    fn compare(&self) -> Result<Seen, Difference> {
        match self {
            Input::Cases(from, to) => compare_cases(*from, *to),
            Input::IllFormed(input) => {
                let (own, theirs) = (probe(input).into_bytes(), answered(input)?);
                if own != theirs {
                    return Err(Difference::new("probe of an ill-formed input", input, &own, &theirs));
                }
                let mut seen = Seen::default();
                seen.take_ill_formed();
                Ok(seen)
            }
        }
    }
}

fn answered(input: &[u8]) -> Result<Vec<u8>, Difference> {
    let told = |told: String| Difference::new(&format!("probe: {told}"), input, &[], &[]);
    let mut command = other_side().ok_or_else(|| told("not there".into()))?;
    run(&mut command, input).map(|(out, _)| out).map_err(|error| told(error.to_string()))
}

fn compare_cases(from: u64, to: u64) -> Result<Seen, Difference> {
    let cases = cases(SEED, from, to);
    let input: String = cases.iter().map(|case| line(case) + "\n").collect();
    let (own, theirs) = (probe(input.as_bytes()), answered(input.as_bytes())?);
    let lines: Vec<&str> = own.lines().collect();
    if own.as_bytes() != theirs {
        return Err(first_difference(&cases, from, &own, &theirs));
    }
    let mut seen = Seen::default();
    for ((case, lines), at) in cases.iter().zip(lines.chunks(4)).zip(from..) {
        seen.take(case, lines, spoils(at));
    }
    Ok(seen)
}

/// The first case whose four lines differ.
fn first_difference(cases: &[Vec<u32>], from: u64, own: &str, theirs: &[u8]) -> Difference {
    let own: Vec<&[u8]> = own.as_bytes().split_inclusive(|&byte| byte == b'\n').collect();
    let theirs: Vec<&[u8]> = theirs.split_inclusive(|&byte| byte == b'\n').collect();
    let four =
        |lines: &[&[u8]], at: usize| lines.iter().skip(4 * at).take(4).copied().collect::<Vec<_>>().concat();
    let at = (0..cases.len()).find(|&at| four(&own, at) != four(&theirs, at)).unwrap_or(cases.len());
    let case = cases.get(at).map_or(String::new(), |case| line(case) + "\n");
    let what = format!("probe, case {} of seed {SEED}, from 0", from + at as u64);
    Difference::new(&what, case.as_bytes(), &four(&own, at), &four(&theirs, at))
}

/// So many cases and the ill-formed inputs, some processes at a time; none if the other side is not there.
pub fn compare(count: u64) -> Option<Result<Seen, Difference>> {
    other_side()?;
    let starts = (0..count).step_by(BATCH as usize);
    let batches = starts.map(|from| Input::Cases(from, count.min(from + BATCH)));
    let inputs: Vec<Input> = batches.chain(ill_formed::inputs().into_iter().map(Input::IllFormed)).collect();
    let next = AtomicUsize::new(0);
    let work = || {
        let mut seen = Seen::default();
        while let Some(input) = inputs.get(next.fetch_add(1, Ordering::Relaxed)) {
            match input.compare() {
                Ok(met) => seen.add(met),
                Err(difference) => {
                    next.store(inputs.len(), Ordering::Relaxed);
                    return Err(difference);
                }
            }
        }
        Ok(seen)
    };
    let threads = available_parallelism().map_or(1, |cores| cores.get().min(4));
    let results: Vec<Result<Seen, Difference>> = scope(|scope| {
        let all: Vec<_> = (0..threads).map(|_| scope.spawn(work)).collect();
        let broken = || Err(Difference::new("a thread of the comparison broke off", &[], &[], &[]));
        all.into_iter().map(|thread| thread.join().unwrap_or_else(|_| broken())).collect()
    });
    let mut seen = Seen::default();
    Some(results.into_iter().try_for_each(|result| result.map(|met| seen.add(met))).map(|()| seen))
}

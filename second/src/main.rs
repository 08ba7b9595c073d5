//! The second program: document 01's report written a second time, and its comparison with the bench.

mod bench;
mod card;
mod check;
mod compare;
mod contend;
mod contention;
mod counts;
mod damage;
mod decorate;
mod difference;
mod fault;
mod faults;
mod ill_formed;
mod later;
mod library;
mod machine;
mod make;
mod naive;
mod other;
mod parse;
mod probe;
mod probed;
mod probes;
mod random;
mod report;
mod run;
mod runfile;
mod search;
mod seen;
#[cfg(feature = "linked")]
mod speed;
#[cfg(test)]
mod tests;
#[cfg(test)]
mod tests_probe;
mod text;
mod texts;
mod values;
mod written;
mod wrong;

use compare::Comparison;
use difference::Difference;
use random::Random;
use std::io::{Read, Write};
use std::process::ExitCode;
use text::LONGEST_TEXT;

const HELP: &str = "usage: second report < FILE      the report of a run file
       second read < FILE        a run file as text
       second write < TEXT       a text as a run file
       second make SEED KIND     a random file: run, tiny, deepest, largest, widest, damaged,
                                 sweep (file SEED of the cuts and changes), text or slip
       second compare [RUNS [DAMAGED]]   against the bench's programs
       second faults [RUNS]      the planted faults
       second probe < CASES      a turn of each bench given in numbers (docs/PROBE.md)
       second probes SEED COUNT  cases for it
       second compare_probes [COUNT]     such cases, against the bench's probe
       second speed [ROUNDS] < FILE      both reports of a file, timed; x86-64 alone, and the library
";

fn main() -> ExitCode {
    let words: Vec<String> = std::env::args().skip(1).collect();
    let words: Vec<&str> = words.iter().map(String::as_str).collect();
    let number = |at: usize, or: u64| words.get(at).map_or(Some(or), |word| word.parse().ok());
    match (words.as_slice(), number(1, 20_000), number(2, 20_000)) {
        (["report"], ..) => say(&report::output(&input())),
        (["read"], ..) => match text::print(&input()) {
            Ok(text) => say(text.as_bytes()),
            Err(refusal) => complain(&refusal.line()),
        },
        (["write"], ..) => write_one(&input()),
        (["make", _, kind], Some(seed), _) => make_one(seed, kind),
        (["compare"] | ["compare", _] | ["compare", _, _], Some(runs), Some(damaged)) => {
            compare_all(runs, damaged)
        }
        (["faults"] | ["faults", _], Some(runs), _) => {
            let (text, all_caught) = faults::faults(runs);
            say(text.as_bytes());
            ExitCode::from(u8::from(!all_caught))
        }
        (["probe"], ..) => say(probe::probe(&all_input()).as_bytes()),
        (["probes", _, _], Some(seed), Some(count)) => say(probes::probes(seed, count).as_bytes()),
        (["compare_probes"] | ["compare_probes", _], ..) => {
            number(1, 100_000).map_or_else(|| complain(HELP), compare_probes)
        }
        #[cfg(feature = "linked")]
        (["speed"] | ["speed", _], Some(rounds), _) => match speed::speed(&input(), rounds as usize) {
            Ok(line) => say((line + "\n").as_bytes()),
            Err(told) => complain(&(told + "\n")),
        },
        _ => complain(HELP),
    }
}

/// Standard input, but no more than a byte over the longest text; run files are shorter.
fn input() -> Vec<u8> {
    taken(LONGEST_TEXT as u64 + 1)
}

/// The whole of standard input.
fn all_input() -> Vec<u8> {
    taken(u64::MAX)
}

fn taken(most: u64) -> Vec<u8> {
    let mut bytes = Vec::new();
    if let Err(error) = std::io::stdin().take(most).read_to_end(&mut bytes) {
        eprintln!("standard input: {error}");
        std::process::exit(2);
    }
    bytes
}

fn say(bytes: &[u8]) -> ExitCode {
    match std::io::stdout().write_all(bytes) {
        Ok(()) => ExitCode::SUCCESS,
        Err(_) => ExitCode::from(2),
    }
}

fn complain(text: &str) -> ExitCode {
    eprint!("{text}");
    ExitCode::FAILURE
}

fn write_one(text: &[u8]) -> ExitCode {
    if text.len() > LONGEST_TEXT {
        return complain("the text has more than 262143 bytes\n");
    }
    match parse::parse(text) {
        Ok(file) => say(&file),
        Err(wrong) => complain(&wrong.message()),
    }
}

fn make_one(seed: u64, kind: &str) -> ExitCode {
    let mut random = Random::new(seed);
    match kind {
        "run" => say(&make::run(&mut random)),
        "tiny" => say(&make::tiny(&mut random)),
        "deepest" => say(&make::deepest(&mut random)),
        "largest" => say(&make::largest(&mut random)),
        "widest" => say(&make::widest()),
        "damaged" => say(&damage::random(&mut random)),
        "sweep" => {
            let mut sweep = damage::Sweep::new(0);
            (0..seed).for_each(|_| drop(sweep.next()));
            say(&sweep.next())
        }
        "text" | "slip" => {
            let text = text::print(&make::tiny(&mut random)).unwrap_or_default();
            let text = decorate::decorate(&text, &mut random);
            let slip = kind == "slip";
            say(if slip { decorate::spoil(&text, &mut random) } else { text }.as_bytes())
        }
        _ => complain(HELP),
    }
}

fn compare_all(runs: u64, damaged: u64) -> ExitCode {
    let mut comparison = Comparison::new();
    if let Err(difference) = comparison.all(runs, damaged) {
        return show(&difference);
    }
    say(comparison.lines().as_bytes());
    let seldom = comparison.too_seldom();
    if !seldom.is_empty() {
        return complain(&(seldom.join("\n") + "\n"));
    }
    let missing = comparison.missing();
    if missing.is_empty() {
        return ExitCode::SUCCESS;
    }
    complain(&format!("not all compared; not built: {}\n", missing.join(", ")));
    ExitCode::from(2)
}

fn compare_probes(count: u64) -> ExitCode {
    let seen = match probed::compare(count) {
        None => {
            complain(&format!("nothing compared; not built: {}\n", other::program("probe")));
            return ExitCode::from(2);
        }
        Some(Err(difference)) => return show(&difference),
        Some(Ok(seen)) => seen,
    };
    say(seen.lines().as_bytes());
    match seen.missed() {
        missed if missed.is_empty() => ExitCode::SUCCESS,
        missed => complain(&(missed.join("\n") + "\n")),
    }
}

/// Saves the file and both outputs of a difference under target/, and shows it.
fn show(difference: &Difference) -> ExitCode {
    let mut text = format!("differs: {}\n", difference.what);
    let parts = [("file", &difference.file), ("second", &difference.own), ("other", &difference.other)];
    for (name, bytes) in parts {
        let path = other::top().join(format!("target/second/difference.{name}"));
        let saved = std::fs::write(&path, bytes).map_or("not saved", |()| "saved");
        text += &format!("{name}, {} bytes, {saved}: {}\n", bytes.len(), path.display());
        for line in bytes.split_inclusive(|&byte| byte == b'\n').take(60) {
            text += &format!("    {}\n", line.escape_ascii());
        }
    }
    say(text.as_bytes());
    ExitCode::FAILURE
}

//! Planted faults: each faulted program against the good one, on the same random runs.

use crate::check::{check, trace};
use crate::fault;
use crate::machine::Machine;
use crate::make;
use crate::random::Random;
use crate::report::{print, ENOUGH};
use crate::run::{run, Book};
use crate::runfile::{read, RunFile};
use crate::search;

type Runner = fn(&RunFile) -> (Book, Machine);

/// One faulted program, and how often it was caught.
struct Planted {
    name: &'static str,
    run: Runner,
    differs: u64,
    checked: u64,
    searched: u64,
    caught: u64,
}

/// A fault must be caught in this many of 100 runs, by the report or by the check of the list.
const FLOOR: u64 = 5;

impl Planted {
    fn is_caught(&self, runs: u64) -> bool {
        100 * self.caught >= FLOOR * runs
    }
}

fn planted() -> Vec<Planted> {
    let all: [(&str, Runner); 18] = [
        ("max-write strictly larger", run::<{ fault::STRICT_MAX_WRITE }>),
        ("cp = ca dropped", run::<{ fault::NO_COUNT_TEST }>),
        ("point at the winner's own 19", run::<{ fault::POINT_AT_OWN_19 }>),
        ("losers by the seq read at 15", run::<{ fault::LOSERS_BY_SEQ }>),
        ("losers in falling order", run::<{ fault::LOSERS_FALLING }>),
        ("R not reset at 12", run::<{ fault::NO_RESET }>),
        ("parity test dropped", run::<{ fault::NO_PARITY }>),
        ("half-max of s+1", run::<{ fault::HALF_MAX_ODD }>),
        ("point at the loser's own turn", run::<{ fault::LOSER_AT_OWN_TURN }>),
        ("R of the station itself at 18", run::<{ fault::R_OF_SELF }>),
        ("R of P's pid at 18", run::<{ fault::R_OF_LATER_PID }>),
        ("A read again at 18", run::<{ fault::A_READ_AGAIN }>),
        ("s taken at 11", run::<{ fault::S_AT_11 }>),
        ("swap hands back V of its last turn", run::<{ fault::SWAP_OF_LAST_TURN }>),
        ("write at 13", run::<{ fault::WRITE_AT_13 }>),
        ("write at 18", run::<{ fault::WRITE_AT_18 }>),
        ("write at 19", run::<{ fault::WRITE_AT_19 }>),
        ("count before at 13", run::<{ fault::OLD_COUNT_AT_13 }>),
    ];
    let with = |(name, run)| Planted { name, run, differs: 0, checked: 0, searched: 0, caught: 0 };
    all.into_iter().map(with).collect()
}

/// A line for each fault; false if one was caught in fewer runs than the floor.
pub fn faults(runs: u64) -> (String, bool) {
    let mut all = planted();
    let mut text = format!(
        "{runs} runs each: caught (report or list check), report differs, list check fails, no order found\n"
    );
    for seed in 0..runs {
        let file = make::run(&mut Random::new(seed));
        let Ok(file) = read(&file) else { continue };
        let (good, _) = printed(&file, run::<{ fault::NONE }>);
        for one in &mut all {
            try_fault(one, &file, &good);
        }
    }
    for one in &all {
        let Planted { name, differs, checked, searched, caught, .. } = one;
        let seldom = if one.is_caught(runs) { "" } else { " too seldom" };
        text += &format!("{name}: {caught} {differs} {checked} {searched}{seldom}\n");
    }
    (text, all.iter().all(|one| one.is_caught(runs)))
}

fn printed(file: &RunFile, runner: Runner) -> (String, (Book, Machine)) {
    let (book, machine) = runner(file);
    let mut buffer = vec![0; ENOUGH];
    let length = print(file, &book, &machine, &mut buffer).unwrap_or(0);
    buffer.truncate(length);
    (String::from_utf8_lossy(&buffer).into_owned(), (book, machine))
}

fn try_fault(one: &mut Planted, file: &RunFile, good: &str) {
    let (text, (book, machine)) = printed(file, one.run);
    let traced = trace(file, &book);
    let (differs, fails) = (text != good, check(file, &traced, &text).is_err());
    one.differs += u64::from(differs);
    one.checked += u64::from(fails);
    one.caught += u64::from(differs || fails);
    let begun: Vec<_> = traced.into_iter().flatten().collect();
    if begun.len() <= search::SMALL {
        one.searched += u64::from(!search::some_order(file.x, machine.v.second, &begun));
    }
}

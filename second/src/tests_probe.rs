//! The bench in numbers: against the machine of the runs, at both sides of its limits, and as text.

use crate::bench::{Bench, Halves, Offer, Outcome, Record};
use crate::fault;
use crate::ill_formed;
use crate::machine::{Answer, Event, Machine, Place};
use crate::make;
use crate::probe::{bench_of, line, numbers_of, probe, BENCH};
use crate::probes::{cases, probes, sound, spoils, ANEW};
use crate::random::Random;
use crate::runfile::{read, Call};

const NONE: Offer = Offer { kind: 3, a: 0, b: 0 };

fn set(a: u32, b: u32) -> Offer {
    Offer { kind: 1, a, b }
}

fn offer_of(call: Call) -> Offer {
    Offer { kind: call.kind as u32, a: call.a, b: call.b }
}

/// What the machine of the runs answers, without own turns.
fn answer(event: Event) -> Option<u32> {
    match event {
        Event::Going
        | Event::Wrote(_)
        | Event::EndedAtOnce(Answer::Open)
        | Event::EndedAt20(Answer::Open) => None,
        Event::EndedAtOnce(Answer::Truth(truth)) | Event::EndedAt20(Answer::Truth(truth)) => {
            Some(truth.into())
        }
        Event::EndedAtOnce(Answer::Number(number)) | Event::EndedAt20(Answer::Number(number)) => Some(number),
    }
}

#[test]
fn runs_go_the_same_way_in_numbers() {
    for seed in 0..200 {
        let file = make::run(&mut Random::new(seed));
        let file = read(&file).expect("a good file");
        let mut left: Vec<Vec<Call>> = vec![Vec::new(); 33];
        file.calls().rev().for_each(|call| left[usize::from(call.station)].push(call));
        let mut machine = Machine::fresh(file.x);
        let mut bench = Bench::fresh(u32::from(file.n), file.x);
        for &id in file.turns {
            let at = usize::from(id);
            let next = if machine.stations[at].place == Place::Rest { left[at].pop() } else { None };
            let event = match next {
                Some(call) => Some(machine.begin(at, call)),
                None if machine.stations[at].place == Place::Rest => None,
                None => Some(machine.step::<{ fault::NONE }>(at)),
            };
            let expected = event.map(answer);
            let outcome = match bench.turn(id.into(), next.map_or(NONE, offer_of)) {
                Outcome::Idle => None,
                Outcome::Going => Some(None),
                Outcome::Ended(result, _) => Some(Some(result)),
                Outcome::Refused(number) => panic!("refused {number}"),
            };
            assert_eq!(outcome, expected);
            assert_eq!(bench.v, Halves(machine.v.first, machine.v.second));
        }
        assert!(bench.is_sound());
    }
}

#[test]
fn sound_benches_stay_sound() {
    for seed in 0..2_000 {
        let random = &mut Random::new(seed);
        let mut bench = sound(random);
        assert!(bench.is_sound());
        assert_eq!(bench_of(&numbers_of(&bench)), bench);
        for _ in 0..20 {
            let station = random.between(1, bench.n as usize) as u32;
            bench.turn(station, set(bench.v.1, 5));
            assert!(bench.is_sound());
        }
    }
}

#[test]
fn both_sides_of_c_and_of_the_version() {
    let mut bench = Bench::fresh(1, 7);
    bench.stations[1].c = 65_535;
    assert_eq!(bench.turn(1, set(8, 9)), Outcome::Refused(12));
    assert_eq!(bench.turn(1, NONE), Outcome::Idle);
    bench.stations[1].c = 65_534;
    bench.v.0 = 4_294_967_294;
    assert_eq!(bench.turn(1, set(8, 9)), Outcome::Refused(13));
    assert_eq!(bench.turn(1, Offer { kind: 0, a: 0, b: 0 }), Outcome::Ended(7, 1));
    bench.v.0 = 4_294_967_292;
    assert_eq!(bench.turn(1, set(7, 8)), Outcome::Going);
    for _ in 0..8 {
        assert_eq!(bench.turn(1, NONE), Outcome::Going);
    }
    assert_eq!(bench.turn(1, Offer { kind: 4, a: 0, b: 0 }), Outcome::Refused(11));
    assert_eq!(bench.turn(1, set(1, 2)), Outcome::Ended(1, 10));
    assert_eq!(bench.v, Halves(4_294_967_294, 8));
    assert_eq!(bench.stations[1], Record { c: 65_535, ..Record::default() });
}

#[test]
fn the_lowest_refusal_is_told() {
    let mut bench = Bench::fresh(2, 7);
    let bad = Offer { kind: 3, a: 1, b: 0 };
    assert_eq!(bench.turn(3, bad), Outcome::Refused(10));
    assert_eq!(bench.turn(2, bad), Outcome::Refused(11));
    bench.v.0 = 1;
    assert_eq!(bench.turn(3, bad), Outcome::Refused(9));
    assert_eq!(bench.picture(), Err(9));
    assert_eq!(bench, Bench { v: Halves(1, 7), ..Bench::fresh(2, 7) });
}

#[test]
fn entry_0_keeps_the_limits_alone_and_station_0_is_fresh() {
    let mut bench = Bench::fresh(1, 7);
    (bench.a[0], bench.r[0]) = (Halves(65_535, 3), Halves(1, 1));
    assert!(bench.is_sound());
    bench.stations[0].c = 1;
    assert!(!bench.is_sound());
    bench = Bench::fresh(1, 7);
    bench.r[0].1 = 2;
    assert!(!bench.is_sound());
}

#[test]
fn cases_as_text() {
    assert_eq!(probe(b""), "");
    assert_eq!(probe(b" \n"), "");
    let mut numbers = numbers_of(&Bench::fresh(1, 7));
    numbers.extend([1, 1, 7, 8]);
    let case = line(&numbers);
    let told = probe(case.as_bytes());
    let lines: Vec<&str> = told.lines().collect();
    let picture = "picture ".to_owned() + "0700000000000000" + &"0".repeat(48);
    assert_eq!((lines[0], lines[1], lines[3]), ("sound", "going", picture.as_str()));
    assert_eq!(lines[2].split(' ').count(), BENCH);
    assert_eq!(probe((case.clone() + "\n1 x").as_bytes()), told.clone() + "case 2: number expected\n");
    assert_eq!(
        probe((case.clone() + "\n1 4294967296").as_bytes()),
        told.clone() + "case 2: number expected\n"
    );
    assert_eq!(probe((case.clone() + " 1 0").as_bytes()), told + "case 2: cut\n");
    numbers[BENCH - 12] = 17;
    assert_eq!(probe(line(&numbers).as_bytes()), "case 1: no such place\n");
}

#[test]
fn ill_formed_inputs_end_with_a_line_of_each_kind() {
    let told: Vec<String> = ill_formed::inputs().iter().map(|input| probe(input)).collect();
    for end in ["case 1: cut", "case 2: cut", "case 1: number expected", "case 1: no such place"] {
        assert!(told.iter().filter(|told| told.lines().last() == Some(end)).count() > 10, "{end}");
    }
}

#[test]
fn a_batch_is_a_part_of_the_cases() {
    let all = cases(1, 0, 3 * ANEW);
    assert_eq!(cases(1, ANEW, 2 * ANEW), all[ANEW as usize..2 * ANEW as usize]);
    assert_eq!(spoils(4 + 6 * 533), Some(533));
}

#[test]
fn every_refusal_and_answer_is_among_the_cases() {
    let told = probe(probes(1, 4_000).as_bytes());
    let wanted = "idle|going|refused 9|refused 10|refused 11|refused 12|refused 13|sound|unsound";
    for word in wanted.split('|') {
        assert!(told.lines().any(|line| line == word), "{word}");
    }
    for own in [" 1", " 8", " 10"] {
        assert!(told.lines().any(|line| line.starts_with("ended ") && line.ends_with(own)), "{own}");
    }
}

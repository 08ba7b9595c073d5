//! R1 to R8 of document 01, byte for byte, and both sides of the limits that files have.

use crate::naive::record;
use crate::parse::parse;
use crate::random::Random;
use crate::report::{output, report, ENOUGH};
use crate::runfile::{self, write, Call, Kind, Refusal};
use crate::text::print;
use crate::{contend, make};

fn set(station: u8, a: u32, b: u32) -> Call {
    Call { station, kind: Kind::Set, a, b }
}

fn read(station: u8) -> Call {
    Call { station, kind: Kind::Read, a: 0, b: 0 }
}

fn gives(x: u32, n: u8, calls: &[Call], turns: &[u8], expected: &str) {
    let file = write(x, n, calls, turns);
    assert_eq!(String::from_utf8_lossy(&output(&file)), expected);
}

fn refused(file: &[u8], number: u32, k: u32) {
    let expected = Refusal { number, k };
    assert_eq!(report(file, &mut [0; ENOUGH]), Err(expected));
}

#[test]
fn r1_another_station_finishes_the_winners_call() {
    let turns = [1, 2, 1, 2, 1, 2, 1, 2, 1, 2, 1, 1, 1, 1, 1, 2, 2, 2, 2, 2, 2, 1];
    let expected = "1 2 2 set true 10 14\n2 1 1 set false 10 14\n3 2 3 read 6 1 21\n22 1 3 3 6 2\n";
    gives(4, 2, &[set(1, 4, 5), set(2, 4, 6), read(2)], &turns, expected);
}

#[test]
fn r2_and_r3_nothing_and_one_idle_turn() {
    gives(7, 1, &[], &[], "0 0 0 0 7 0\n");
    gives(7, 1, &[], &[1], "1 1 0 0 7 0\n");
}

#[test]
fn r4_and_r5_end_at_place_5() {
    gives(7, 1, &[set(1, 8, 9)], &[1], "1 1 1 set false 1 1\n1 0 1 1 7 0\n");
    gives(7, 1, &[set(1, 7, 7)], &[1], "1 1 1 set true 1 1\n1 0 1 1 7 0\n");
}

#[test]
fn r6_and_r7_are_open() {
    gives(7, 1, &[set(1, 7, 8)], &[1; 8], "8 0 1 0 7 0\n");
    gives(7, 1, &[set(1, 7, 8)], &[1; 9], "1 1 1 set open 9 9\n9 0 1 0 8 2\n");
}

#[test]
fn r8_loses_to_a_station_in_its_next_call() {
    let calls = [set(1, 4, 5), set(1, 5, 6), set(2, 4, 9)];
    let turns = [2, 2, 2, 2, 1, 1, 1, 1, 1, 2, 2, 1, 1, 1, 1, 1, 1, 1, 2, 2];
    let expected = "1 1 1 set true 10 15\n2 2 3 set false 8 15\n20 0 3 2 5 2\n";
    gives(4, 2, &calls, &turns, expected);
}

#[test]
fn a_file_of_15_bytes_is_refused_and_one_of_16_is_not() {
    let file = write(7, 1, &[], &[]);
    assert_eq!(file.len(), 16);
    assert!(report(&file, &mut [0; ENOUGH]).is_ok());
    refused(&file[..15], 1, 0);
    refused(&file[1..], 1, 0);
    refused(&[0; 53_265], 1, 0);
    refused(&[0; 53_264], 2, 0);
}

#[test]
fn stations_32_and_33() {
    gives(7, 32, &[read(32)], &[32], "1 32 1 read 7 1 1\n1 0 1 1 7 0\n");
    refused(&write(7, 33, &[read(32)], &[32]), 3, 0);
    refused(&write(7, 0, &[], &[]), 3, 0);
}

#[test]
fn calls_1024_and_1025() {
    let good = write(7, 1, &[read(1); 1_024], &[1; 40_960]);
    assert_eq!(good.len(), 53_264);
    assert!(report(&good, &mut [0; ENOUGH]).is_ok());
    refused(&write(7, 1, &[read(1); 1_025], &[]), 4, 0);
    refused(&write(7, 1, &[read(1); 1_025], &[1; 40_960]), 1, 0);
    refused(&write(7, 1, &[], &[1; 40_961]), 5, 0);
}

#[test]
fn distances_never_wrap() {
    let mut file = write(7, 1, &[read(1)], &[1]);
    let at = file.len() - 8;
    file[at..at + 4].copy_from_slice(&u32::MAX.to_le_bytes());
    refused(&file, 6, 0);
    file[at..].copy_from_slice(&[12, 0, 0, 0, 0, 0, 0, 0]);
    refused(&file, 6, 0);
    file[at + 4..].copy_from_slice(&u32::MAX.to_le_bytes());
    refused(&file, 5, 0);
}

#[test]
fn the_first_bad_call_or_turn_is_told() {
    refused(&write(7, 2, &[read(1), read(3), read(0)], &[0]), 7, 2);
    refused(&write(7, 2, &[set(1, 1, 2), Call { a: 1, ..read(1) }], &[]), 7, 2);
    refused(&write(7, 2, &[], &[1, 2, 3, 0]), 8, 3);
}

#[test]
fn the_widest_report_and_a_buffer_too_short() {
    let file = make::widest();
    assert_eq!(report(&file, &mut [0; 36_736]), Ok(36_736));
    assert_eq!(report(&file, &mut [0; 36_735]), Err(Refusal { number: 14, k: 0 }));
}

#[test]
fn texts_print_and_parse_back() {
    for seed in 0..200 {
        let file = make::run(&mut Random::new(seed));
        let text = print(&file).expect("a good file");
        assert_eq!(parse(text.as_bytes()).as_ref(), Ok(&file));
    }
}

fn wrong(text: &str) -> Option<(usize, u32)> {
    parse(text.as_bytes()).err().map(|wrong| (wrong.line, wrong.number))
}

#[test]
fn the_line_of_a_complaint() {
    assert_eq!(wrong("start 4\nstations 2\n1 set 4\n"), Some((3, 2)));
    assert_eq!(wrong("start 4\nstations 2\n3 read"), Some((3, 6)));
    assert_eq!(wrong("start 4\nstations 2\nturns 1\n 3"), Some((4, 8)));
    assert_eq!(wrong("start 4294967296\n"), Some((1, 2)));
    assert_eq!(wrong("start 4\n\n# x"), Some((3, 4)));
    assert_eq!(wrong("start 4\n\n# x\n"), Some((4, 4)));
    assert_eq!(wrong(""), Some((1, 1)));
    assert_eq!(wrong("\n"), Some((2, 1)));
}

#[test]
fn a_call_or_a_turn_too_many() {
    let head = "start 4\nstations 2\n";
    let calls = head.to_owned() + &"1 read\n".repeat(1_024);
    assert_eq!(wrong(&calls), None);
    assert_eq!(wrong(&(calls.clone() + "2 read\n1 x")), Some((1_027, 9)));
    assert_eq!(wrong(&(calls.clone() + "2 read 1\n")), Some((1_027, 3)));
    assert_eq!(wrong(&(calls + "turns 1\n")), None);
    let turns = head.to_owned() + "turns\n" + &"1 ".repeat(40_960);
    assert_eq!(wrong(&turns), None);
    assert_eq!(wrong(&(turns.clone() + "\n")), None);
    assert_eq!(wrong(&(turns.clone() + "2")), Some((4, 10)));
    assert_eq!(wrong(&(turns + "\nx")), Some((5, 10)));
}

#[test]
fn the_naive_run_reports_the_same() {
    for seed in 0..300 {
        let file = make::run(&mut Random::new(seed));
        let run_file = runfile::read(&file).expect("a good file");
        let report = record(&run_file).report(&run_file);
        assert_eq!(report.as_bytes(), output(&file));
    }
}

#[test]
fn all_calls_of_the_deepest_run_go_past_place_5() {
    for turns in [11_000, 40_960] {
        let file = contend::deepest(&mut Random::new(turns as u64), 32, turns);
        let seen = record(&runfile::read(&file).expect("a good file")).seen();
        assert_eq!((seen.begun, seen.past_5), (1_024, 1_024));
        assert!(seen.raises > 32);
    }
}

#[test]
fn the_writer_refuses_by_the_lowest_number() {
    let refused = |n, table: &[u8], turns: &[u8]| {
        let told = runfile::write_parts(7, n, table, turns);
        told.err().map_or((0, 0), |refusal| (refusal.number, refusal.k))
    };
    let read = [1, 0, 0, 0, 0, 0, 0, 0, 0, 0, 0, 0];
    let (table, turns) = (read.repeat(1_025), vec![1; 40_961]);
    assert_eq!(refused(256, &table, &turns), (3, 0));
    assert_eq!(refused(33, &[], &[]), (3, 0));
    assert_eq!(refused(1, &[table.clone(), vec![0; 5]].concat(), &turns), (4, 0));
    assert_eq!(refused(1, &table[..12_299], &turns), (5, 0));
    assert_eq!(refused(1, &table[..12_293], &turns[..40_960]), (6, 0));
    assert_eq!(refused(1, &[&table[..24], &[2], &read[1..]].concat(), &[0]), (7, 3));
    assert_eq!(refused(1, &table[..12_288], &[1, 1, 2]), (8, 3));
    assert_eq!(refused(1, &table[..12_288], &turns[..40_960]), (0, 0));
    let file = write(7, 1, &[set(1, 7, 8)], &[1, 1]);
    assert_eq!(runfile::write_parts(7, 1, &file[..12], &file[12..14]), Ok(file));
}

//! Inputs of a probe that can't be read, and inputs next to them that can.

use crate::bench::Bench;
use crate::probe::{numbers_of, BENCH, CASE, RECORD, STATIONS};

/// Words that are no number of 32 bits.
const BAD_WORDS: [&[u8]; 20] = [
    b"x",
    b"-1",
    b"+1",
    b"-",
    b"1.0",
    b"1,",
    b"0x1",
    b"1x",
    b"x1",
    b"1_0",
    b"4294967296",
    b"4294967297",
    b"42949672950",
    b"18446744073709551616",
    b"18446744073709551617",
    b"340282366920938463463374607431768211457",
    b"1\t",
    b"1\r",
    b"\0",
    b"\xd9\xa3",
];
const GOOD_WORDS: [&str; 4] = ["4294967295", "04294967295", "00000000000000000000000000000000000001", "0000"];
const BAD_PLACES: [&str; 10] = ["1", "2", "5", "10", "17", "21", "255", "267", "65547", "4294967295"];
/// Fields of all parts of a case, the first and the last among them; none is a place.
const FIELDS: [usize; 8] = [0, 1, 5, 6, STATIONS - 1, STATIONS + 1, BENCH, CASE - 1];

type Words = Vec<Vec<u8>>;

/// The words of a small case.
fn small() -> Words {
    let mut numbers = numbers_of(&Bench::fresh(2, 7));
    numbers.extend([1, 1, 7, 8]);
    numbers.iter().map(|number| number.to_string().into_bytes()).collect()
}

fn with(field: usize, word: &[u8]) -> Words {
    let mut words = small();
    words[field] = word.into();
    words
}

fn spaced(words: &[Vec<u8>]) -> Vec<u8> {
    words.join(&b' ')
}

pub fn inputs() -> Vec<Vec<u8>> {
    [spaces(), cuts(), words(), places(), several()].concat()
}

/// Nothing but spaces; and a good case among spaces and newlines.
fn spaces() -> Vec<Vec<u8>> {
    let case = spaced(&small());
    let lines = small().join(&b'\n');
    let wide = small().join(&b" \n\n  "[..]);
    let nothing = [&b""[..], b" ", b"\n", b" \n\n "].map(Vec::from);
    let good =
        [case.clone(), lines, wide, [b"\n ", &case[..], b" \n"].concat(), [&case[..], b" ", &case].concat()];
    [nothing.to_vec(), good.to_vec()].concat()
}

/// A case cut after each of its numbers, alone or after a good one, at the end of the number or after it.
fn cuts() -> Vec<Vec<u8>> {
    let (case, first) = (small(), [spaced(&small()), b"\n".to_vec()].concat());
    let cut = |at: usize| {
        let before: &[u8] = if at.is_multiple_of(2) { b"" } else { &first };
        let after: &[u8] = [&b""[..], b" ", b"\n"][at % 3];
        [before, &spaced(&case[..at]), after].concat()
    };
    (1..CASE).map(cut).collect()
}

/// Words that are no number, and odd ones that are, in all parts of a case.
fn words() -> Vec<Vec<u8>> {
    let odd = BAD_WORDS.iter().copied().chain(GOOD_WORDS.map(str::as_bytes)).enumerate();
    odd.flat_map(|(at, word)| [0, 3, 6].map(|more| spaced(&with(FIELDS[(at + more) % 8], word)))).collect()
}

/// Numbers that are no place, at station 0, at one of the bench, and above n.
fn places() -> Vec<Vec<u8>> {
    let each = BAD_PLACES.iter().flat_map(|word| [0, 1, 32].map(|row| (word, row)));
    each.map(|(word, row)| spaced(&with(STATIONS + RECORD * row, word.as_bytes()))).collect()
}

/// More than one thing wrong, within a case and in two of them.
fn several() -> Vec<Vec<u8>> {
    let mut both = with(STATIONS, b"17");
    both[CASE - 1] = b"x".into();
    let bad_place = spaced(&with(STATIONS, b"17"));
    let bad_word = spaced(&with(9, b"x"));
    let good = spaced(&small());
    vec![
        spaced(&both),
        spaced(&both[..CASE - 1]),
        spaced(&with(9, b"x")[..100]),
        [&bad_place[..], b"\n", &bad_word].concat(),
        [&bad_word[..], b"\n", &bad_place].concat(),
        [&good[..], b"\n", &bad_place].concat(),
        [&good[..], b"\n", &good, b"\n", &bad_word].concat(),
        [&good[..], b"\nx"].concat(),
        [&good[..], b"x"].concat(),
        [&good[..], b"\t"].concat(),
        [b"\t", &good[..]].concat(),
    ]
}

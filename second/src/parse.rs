//! Texts turned into run files (docs/RUN-TEXT.md).

use crate::runfile::{write, Call, Kind, MAX_CALLS, MAX_STATIONS, MAX_TURNS};

/// The first thing that is wrong with a text: its line from 1, and the number of what was expected.
#[derive(Clone, Copy, Debug, PartialEq, Eq)]
pub struct Wrong {
    pub line: usize,
    pub number: u32,
}

impl Wrong {
    pub fn message(self) -> String {
        let expected = match self.number {
            1 => "start",
            2 => "a value from 0 to 4294967295",
            3 => "the end of the line",
            4 => "stations",
            5 => "a number of stations from 1 to 32",
            6 => "a station or turns",
            7 => "read, set or swap",
            8 => "a station",
            9 => "no more than 1024 calls",
            _ => "no more than 40960 turns",
        };
        format!("line {}: expected {expected}\n", self.line)
    }
}

struct Words<'a> {
    text: &'a [u8],
    at: usize,
    line: usize,
}

impl<'a> Words<'a> {
    fn wrong<T>(&self, number: u32) -> Result<T, Wrong> {
        Err(Wrong { line: self.line, number })
    }

    fn skip(&mut self, over: impl Fn(u8) -> bool) {
        while self.text.get(self.at).is_some_and(|&byte| over(byte)) {
            self.at += 1;
        }
    }

    /// The next word of this line; none at its end.
    fn word(&mut self) -> Option<&'a [u8]> {
        self.skip(|byte| matches!(byte, b' ' | b'\t' | b'\r'));
        if self.text.get(self.at) == Some(&b'#') {
            self.skip(|byte| byte != b'\n');
        }
        let start = self.at;
        self.skip(|byte| !matches!(byte, b' ' | b'\t' | b'\r' | b'\n' | b'#'));
        (self.at > start).then(|| &self.text[start..self.at])
    }

    /// The next word of this line or of a later one; none at the end of the text, which after a final newline is on
    /// the line after it.
    fn word_of_any_line(&mut self) -> Option<&'a [u8]> {
        loop {
            if let Some(word) = self.word() {
                return Some(word);
            }
            if self.at == self.text.len() {
                return None;
            }
            self.at += 1;
            self.line += 1;
        }
    }

    fn end_of_line(&mut self) -> Result<(), Wrong> {
        match self.word() {
            None => Ok(()),
            Some(_) => self.wrong(3),
        }
    }

    fn value(&mut self) -> Result<u32, Wrong> {
        match self.word().and_then(number) {
            Some(value) => Ok(value),
            None => self.wrong(2),
        }
    }
}

/// A decimal number of 32 bits; leading zeros are allowed.
fn number(word: &[u8]) -> Option<u32> {
    word.iter().try_fold(0u32, |so_far, byte| match byte {
        b'0'..=b'9' => so_far.checked_mul(10)?.checked_add(u32::from(byte - b'0')),
        _ => None,
    })
}

/// A number from 1 to `most`.
fn station(word: &[u8], most: u8) -> Option<u8> {
    let found = number(word)?;
    (1..=u32::from(most)).contains(&found).then_some(found as u8)
}

/// The run file that a text tells, or the first thing that is wrong with it.
pub fn parse(text: &[u8]) -> Result<Vec<u8>, Wrong> {
    let mut words = Words { text, at: 0, line: 1 };
    if words.word_of_any_line() != Some(b"start") {
        return words.wrong(1);
    }
    let x = words.value()?;
    words.end_of_line()?;
    if words.word_of_any_line() != Some(b"stations") {
        return words.wrong(4);
    }
    let Some(n) = words.word().and_then(|word| station(word, MAX_STATIONS)) else {
        return words.wrong(5);
    };
    words.end_of_line()?;
    let (mut calls, mut turns) = (Vec::new(), Vec::new());
    while let Some(word) = words.word_of_any_line() {
        if word == b"turns" {
            turns = all_turns(&mut words, n)?;
            break;
        }
        let Some(id) = station(word, n) else {
            return words.wrong(6);
        };
        calls.push(call(&mut words, id)?);
        if calls.len() > MAX_CALLS {
            return words.wrong(9);
        }
    }
    Ok(write(x, n, &calls, &turns))
}

/// The rest of a call's line.
fn call(words: &mut Words, station: u8) -> Result<Call, Wrong> {
    let kind = match words.word() {
        Some(b"read") => Kind::Read,
        Some(b"set") => Kind::Set,
        Some(b"swap") => Kind::Swap,
        _ => return words.wrong(7),
    };
    let (a, b) = match kind {
        Kind::Read => (0, 0),
        _ => (words.value()?, words.value()?),
    };
    words.end_of_line()?;
    Ok(Call { station, kind, a, b })
}

fn all_turns(words: &mut Words, n: u8) -> Result<Vec<u8>, Wrong> {
    let mut turns = Vec::new();
    while let Some(word) = words.word_of_any_line() {
        if turns.len() == MAX_TURNS {
            return words.wrong(10);
        }
        let Some(id) = station(word, n) else {
            return words.wrong(8);
        };
        turns.push(id);
    }
    Ok(turns)
}

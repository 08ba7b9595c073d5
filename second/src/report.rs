//! The report of document 01: a line for each listed call, and the last line.

use crate::fault;
use crate::machine::{Answer, Machine};
use crate::run::{run, Book};
use crate::runfile::{read, Refusal, RunFile};

/// A buffer of this many bytes is always enough.
pub const ENOUGH: usize = 40_960;

/// Bytes appended to a lent buffer; those that don't fit are only counted.
struct Out<'a> {
    buffer: &'a mut [u8],
    length: usize,
}

impl Out<'_> {
    #[inline]
    fn bytes(&mut self, bytes: &[u8]) {
        if let Some(place) = self.buffer.get_mut(self.length..self.length + bytes.len()) {
            place.copy_from_slice(bytes);
        }
        self.length += bytes.len();
    }

    /// A decimal number without leading zeros, and the byte after it.
    #[inline]
    fn number(&mut self, number: u32, then: u8) {
        let mut digits = [then; 11];
        let mut at = 10;
        let mut left = number;
        loop {
            at -= 1;
            digits[at] = b'0' + (left % 10) as u8;
            left /= 10;
            if left == 0 {
                break;
            }
        }
        self.bytes(&digits[at..]);
    }
}

/// Writes the report of `file` to the start of `buffer` and gives its length, or the refusal.
/// Where it is refused 14 the start of the buffer may have been written to.
pub fn report(file: &[u8], buffer: &mut [u8]) -> Result<usize, Refusal> {
    let file = read(file)?;
    let (book, machine) = run::<{ fault::NONE }>(&file);
    print(&file, &book, &machine, buffer)
}

/// What the report program prints for `file`: the report, or the line of the refusal.
pub fn output(file: &[u8]) -> Vec<u8> {
    let mut buffer = vec![0; ENOUGH];
    match report(file, &mut buffer) {
        Ok(length) => {
            buffer.truncate(length);
            buffer
        }
        Err(refusal) => refusal.line().into_bytes(),
    }
}

/// Prints the book of a run.
pub fn print(file: &RunFile, book: &Book, machine: &Machine, buffer: &mut [u8]) -> Result<usize, Refusal> {
    let room = buffer.len();
    let mut out = Out { buffer, length: 0 };
    for (at, &call) in book.list().iter().enumerate() {
        listed_call(file, book, at, usize::from(call), &mut out);
    }
    let turns = file.turns.len() as u32;
    for number in [turns, book.idle, book.begun, book.ended, machine.v.second] {
        out.number(number, b' ');
    }
    out.number(machine.v.first, b'\n');
    if out.length > room {
        return Err(Refusal { number: 14, k: 0 });
    }
    Ok(out.length)
}

fn listed_call(file: &RunFile, book: &Book, at: usize, call: usize, out: &mut Out) {
    let (record, entry) = (file.call(call), &book.entries[call]);
    out.number(at as u32 + 1, b' ');
    out.number(u32::from(record.station), b' ');
    out.number(call as u32 + 1, b' ');
    out.bytes(record.kind.word().as_bytes());
    out.bytes(b" ");
    match entry.answer {
        Answer::Open => out.bytes(b"open "),
        Answer::Truth(true) => out.bytes(b"true "),
        Answer::Truth(false) => out.bytes(b"false "),
        Answer::Number(number) => out.number(number, b' '),
    }
    out.number(entry.own, b' ');
    out.number(entry.point, b'\n');
}

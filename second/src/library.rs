//! The bench's static library behind its server (tools/serve/serve.c), on every machine. What each function must give is
//! known before it is asked, so requests are sent ahead, and a thread reads the answers.

use crate::difference::Difference;
use crate::later::Later;
use crate::other::{started, top, ARCHIVE};
use crate::random::Random;
use crate::runfile::Refusal;
use std::io::{BufReader, Read, Write};
use std::process::{Child, ChildStdin, ChildStdout, Stdio};

/// A function of the library.
#[derive(Clone, Copy, PartialEq)]
pub enum Function {
    Report,
    Print,
    Parse,
    Write { x: u32, n: u32 },
    Read,
}

/// What a function gives: its output or its refusal. The output of `Read` is x, n, q and t as the server writes them.
pub type Answer = Result<Vec<u8>, Refusal>;

/// The bytes that `Read` gives.
const NUMBERS: usize = 24;

impl Function {
    /// The letter of a request, the function's name, and how many bytes are always enough for its output.
    fn known(self) -> (u8, &'static str, usize) {
        match self {
            Function::Report => (b'r', "report", 40_960),
            Function::Print => (b'p', "print", 153_635),
            Function::Parse => (b't', "parse", 53_264),
            Function::Write { .. } => (b'w', "write", 53_264),
            Function::Read => (b'd', "read", 0),
        }
    }

    /// Bits 63 to 56 of the word are N of a refusal or 0, bits 55 to 32 its K, bits 31 to 0 the output's length.
    /// A buffer shorter than the output is refused 14, and `Read` writes to none.
    fn expected(self, own: &Answer, room: usize) -> (u64, Vec<u8>) {
        let refused = |refusal: Refusal| u64::from(refusal.number) << 56 | u64::from(refusal.k) << 32;
        match (self, own) {
            (Function::Read, Ok(numbers)) => (0, numbers.clone()),
            (Function::Read, Err(refusal)) => (refused(*refusal), vec![0; NUMBERS]),
            (_, Err(refusal)) => (refused(*refusal), Vec::new()),
            (_, Ok(out)) if room < out.len() => (refused(Refusal { number: 14, k: 0 }), Vec::new()),
            (_, Ok(out)) => (out.len() as u64, out.clone()),
        }
    }
}

/// A function asked with its input, once for each of the buffers lent.
struct Asked {
    function: Function,
    first: Vec<u8>,
    second: Vec<u8>,
    own: Answer,
    rooms: Vec<usize>,
}

impl Asked {
    fn request(&self, room: usize) -> Vec<u8> {
        let (x, n) = if let Function::Write { x, n } = self.function { (x, n) } else { (0, 0) };
        let mut bytes = vec![self.function.known().0];
        for number in [x, n, self.first.len() as u32, self.second.len() as u32, room as u32] {
            bytes.extend(number.to_le_bytes());
        }
        [bytes, self.first.clone(), self.second.clone()].concat()
    }

    /// The answer for one buffer against the one expected. Of a difference the input is kept, and of the writer, which has
    /// several, the request.
    fn check(&self, room: usize, from: &mut impl Read) -> Result<(), Difference> {
        let (_, name, _) = self.function.known();
        let (word, out) = self.function.expected(&self.own, room);
        let told = |told: &str, theirs: &[u8]| {
            let writes = matches!(self.function, Function::Write { .. });
            let input = if writes { self.request(room) } else { self.first.clone() };
            Difference::new(&format!("the library's {name}, lent {room} bytes: {told}"), &input, &out, theirs)
        };
        let (their_word, only, theirs) = answer(from).map_err(|error| told(&error.to_string(), &[]))?;
        if !only {
            return Err(told("a byte outside the output changed", &theirs));
        }
        if (their_word, &theirs) != (word, &out) {
            return Err(told(&format!("{their_word:#018x} and not {word:#018x}"), &theirs));
        }
        Ok(())
    }
}

/// The returned word, whether no byte changed but the output's, and the output.
fn answer(from: &mut impl Read) -> std::io::Result<(u64, bool, Vec<u8>)> {
    let (mut word, mut only, mut length) = ([0; 8], [0; 1], [0; 4]);
    from.read_exact(&mut word)?;
    from.read_exact(&mut only)?;
    from.read_exact(&mut length)?;
    let mut out = vec![0; u32::from_le_bytes(length) as usize];
    from.read_exact(&mut out)?;
    Ok((u64::from_le_bytes(word), only == [1], out))
}

pub struct Library {
    child: Child,
    to: Option<ChildStdin>,
    answers: Later<Asked>,
    random: Random,
    /// Buffers lent, and those of them that were too short.
    pub lent: u64,
    pub short: u64,
}

impl Library {
    /// The server, if it and the library are built.
    pub fn find() -> Option<Library> {
        let (path, archive) = (top().join("target/rack/serve"), top().join(ARCHIVE));
        let mut command = (path.is_file() && archive.is_file()).then(|| started(&path))?;
        let mut child = command.stdin(Stdio::piped()).stdout(Stdio::piped()).spawn().ok()?;
        let mut from: BufReader<ChildStdout> = BufReader::new(child.stdout.take()?);
        let answers = Later::start(move |asked: Asked| {
            asked.rooms.iter().try_for_each(|&room| asked.check(room, &mut from))
        });
        let to = child.stdin.take();
        Some(Library { child, to, answers, random: Random::new(0), lent: 0, short: 0 })
    }

    /// A function of one input must give this with a buffer of just the output's length; one time in four also with a byte
    /// less, and with none, some more or what is always enough. What is refused has any of these.
    pub fn ask(&mut self, function: Function, input: &[u8], own: &Answer) -> Result<(), Difference> {
        let (_, _, enough) = function.known();
        let length = own.as_ref().map_or(0, Vec::len);
        let more = length + self.random.between(1, 64);
        let last = self.random.pick(&[0, more, more, more, more, more, more, enough]);
        let rooms = match own {
            Ok(_) if function == Function::Read => vec![0],
            Ok(_) if self.random.once_in(4) => vec![length, length - 1, last],
            Ok(_) => vec![length],
            Err(_) => vec![last],
        };
        self.ask_with(function, input, &[], own, rooms)
    }

    /// A function of two inputs must give this with buffers of so many bytes.
    pub fn ask_with(
        &mut self,
        function: Function,
        first: &[u8],
        second: &[u8],
        own: &Answer,
        rooms: Vec<usize>,
    ) -> Result<(), Difference> {
        let asked = Asked { function, first: first.into(), second: second.into(), own: own.clone(), rooms };
        let length = own.as_ref().map_or(0, Vec::len);
        let short = |room: &&usize| function != Function::Read && **room < length;
        self.lent += asked.rooms.len() as u64;
        self.short += asked.rooms.iter().filter(short).count() as u64;
        let requests: Vec<u8> = asked.rooms.iter().flat_map(|&room| asked.request(room)).collect();
        self.answers.give(asked)?;
        let sent = self.to.as_mut().is_some_and(|to| to.write_all(&requests).is_ok());
        if sent {
            Ok(())
        } else {
            self.end()
        }
    }

    /// Waits for all answers.
    pub fn end(&mut self) -> Result<(), Difference> {
        drop(self.to.take());
        self.answers.end()
    }
}

impl Drop for Library {
    fn drop(&mut self) {
        let _ = self.end();
        let _ = self.child.wait();
    }
}

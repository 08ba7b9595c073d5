//! The bench: its library and its programs, each held against what this program expects of it.

use crate::difference::Difference;
use crate::later::Later;
use crate::library::{Answer, Function, Library};
use std::io::Write;
use std::path::Path;
use std::process::{Command, Stdio};

/// The root of the repository.
pub fn top() -> &'static Path {
    let here = Path::new(env!("CARGO_MANIFEST_DIR"));
    here.parent().unwrap_or(here)
}

/// The bench's static library, below the root.
pub const ARCHIVE: &str = "crates/stepbench/out/libstepbench.a";

/// A program of the bench, below the root.
pub fn program(name: &str) -> String {
    format!("crates/{name}/out/{name}")
}

/// A program for x86-64.
pub fn started(program: &Path) -> Command {
    let mut command = Command::new(top().join("tools/x86/run"));
    command.arg(program);
    command
}

/// Runs a command on an input: its standard output and standard error.
pub fn run(command: &mut Command, input: &[u8]) -> std::io::Result<(Vec<u8>, Vec<u8>)> {
    let piped = command.stdin(Stdio::piped()).stdout(Stdio::piped()).stderr(Stdio::piped());
    let mut child = piped.spawn()?;
    let to = child.stdin.take();
    std::thread::scope(|scope| {
        // A program may end before it has read all.
        scope.spawn(move || to.map(|mut to| to.write_all(input)));
        let output = child.wait_with_output()?;
        Ok((output.stdout, output.stderr))
    })
}

/// About this many runs, and as many damaged files, go through the bench's programs: a process takes a
/// millisecond or two.
pub const SAMPLE: u64 = 500;

/// A program of the bench, its input, and what it must write to standard output and standard error.
struct Started {
    name: &'static str,
    input: Vec<u8>,
    out: Vec<u8>,
    err: Vec<u8>,
}

impl Started {
    fn check(&self) -> Result<(), Difference> {
        let Started { name, input, out, err } = self;
        let path = top().join(program(name));
        let told = |error| Difference::new(&format!("{}: {error}", path.display()), input, &[], &[]);
        let theirs = run(&mut started(&path), input).map_err(told)?;
        if theirs.0 != *out {
            return Err(Difference::new(name, input, out, &theirs.0));
        }
        if theirs.1 != *err {
            return Err(Difference::new(&format!("{name}, standard error"), input, err, &theirs.1));
        }
        Ok(())
    }
}

/// What of the bench is built.
pub struct Other {
    pub library: Option<Library>,
    programs: Vec<&'static str>,
    processes: Later<Started>,
}

const PROGRAMS: [&str; 3] = ["report", "read_run", "write_run"];

impl Other {
    pub fn find() -> Other {
        let built = |name: &&str| top().join(program(name)).is_file();
        let programs = PROGRAMS.into_iter().filter(built).collect();
        Other {
            library: Library::find(),
            programs,
            processes: Later::start(|started: Started| started.check()),
        }
    }

    /// What is not built.
    pub fn missing(&self) -> Vec<String> {
        let programs = PROGRAMS.iter().filter(|name| !self.programs.contains(name));
        let programs = programs.map(|name| program(name));
        let library = self.library.is_none().then(|| ARCHIVE.into());
        library.into_iter().chain(programs).collect()
    }

    /// A function of the library must give this. False if the library is not built.
    pub fn gives(&mut self, function: Function, input: &[u8], own: &Answer) -> Result<bool, Difference> {
        let Some(library) = &mut self.library else { return Ok(false) };
        library.ask(function, input, own).map(|()| true)
    }

    /// A program must write this. False if it is not built.
    pub fn writes(
        &mut self,
        name: &'static str,
        input: &[u8],
        (out, err): (&[u8], &[u8]),
    ) -> Result<bool, Difference> {
        if !self.programs.contains(&name) {
            return Ok(false);
        }
        let started = Started { name, input: input.into(), out: out.into(), err: err.into() };
        self.processes.give(started).map(|()| true)
    }

    /// Waits until all is compared.
    pub fn end(&mut self) -> Result<(), Difference> {
        self.library.as_mut().map_or(Ok(()), Library::end)?;
        self.processes.end()
    }
}

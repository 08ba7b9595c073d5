//! The comparison: random and damaged files through this program and through the bench's.

use crate::contention::Contention;
use crate::counts::Counts;
use crate::damage::{self, Sweep};
use crate::difference::Difference;
use crate::fault;
use crate::library::{Answer, Function};
use crate::make;
use crate::naive;
use crate::other::{top, Other, SAMPLE};
use crate::random::Random;
use crate::report::{print, ENOUGH};
use crate::run::run;
use crate::runfile::read;
use crate::texts::Texts;
use crate::written::Written;
use crate::{check, search};

/// Of this many files, one goes through the library's print and parse.
const TEXT_IN: usize = 16;
/// The largest files from this seed on don't go through the naive run, which takes 30 ms for one.
const NAIVE_LARGE: u64 = 5_000;
/// So many texts are made for each complaint.
const WRONG_TEXTS: u64 = 100;
/// Of this many runs and damaged files, one is a case for the writer.
const WRITER_IN: u64 = 8;

/// How far a file goes: through the report alone, through the library's text functions, or through all programs.
#[derive(Clone, Copy, PartialEq, PartialOrd)]
enum Depth {
    Report,
    Text,
    Process,
}

impl Depth {
    /// About `SAMPLE` of so many files go through the programs.
    fn some(seed: u64, of: u64) -> Depth {
        let mut random = Random::new(seed ^ 0x7361_6d70_6c65);
        if random.once_in((of / SAMPLE).max(1) as usize) {
            Depth::Process
        } else if random.once_in(TEXT_IN) {
            Depth::Text
        } else {
            Depth::Report
        }
    }

    fn of_large(seed: u64) -> Depth {
        if seed < 40 * SAMPLE {
            Depth::Process
        } else {
            Depth::Text
        }
    }
}

pub struct Comparison {
    other: Other,
    by_library: u64,
    by_process: u64,
    texts: Texts,
    written: Written,
    counts: Counts,
    contention: Contention,
}

impl Comparison {
    pub fn new() -> Comparison {
        Comparison {
            other: Other::find(),
            by_library: 0,
            by_process: 0,
            texts: Texts::default(),
            written: Written::default(),
            counts: Counts::default(),
            contention: Contention::default(),
        }
    }

    /// The stored runs, then `runs` random runs and `damaged` damaged files, cases for the writer, and texts with each
    /// complaint.
    pub fn all(&mut self, runs: u64, damaged: u64) -> Result<(), Difference> {
        self.stored()?;
        for seed in 0..runs {
            let mut random = Random::new(seed);
            let (file, depth) = match seed % 1_000 {
                997 => (make::deepest(&mut random), Depth::of_large(seed)),
                998 => (make::widest(), Depth::of_large(seed)),
                999 => (make::largest(&mut random), Depth::of_large(seed)),
                _ => (make::run(&mut random), Depth::some(seed, runs)),
            };
            self.counts.runs += 1;
            let own = self.file(&file, &mut random, depth)?;
            if seed % 1_000 < 997 || seed < NAIVE_LARGE {
                self.naive(&file, &own)?;
            }
        }
        let mut sweep = Sweep::new(runs);
        for seed in 0..damaged {
            let mut random = Random::new(!seed);
            let file = if seed % 2 == 0 { sweep.next() } else { damage::random(&mut random) };
            self.counts.damaged += 1;
            self.file(&file, &mut random, Depth::some(!seed, damaged))?;
        }
        self.written.cases(&mut self.other, (runs + damaged) / WRITER_IN)?;
        self.texts.complaints(&mut self.other, WRONG_TEXTS, 1_250 / SAMPLE)?;
        self.other.end()
    }

    /// R1 to R8 of runs/: the report, the text, and the run file that the text tells.
    fn stored(&mut self) -> Result<(), Difference> {
        for number in 1..=8 {
            let part = |end| {
                let path = top().join(format!("runs/r{number}.{end}"));
                let told = |e| Difference::new(&format!("{}: {e}", path.display()), &[], &[], &[]);
                std::fs::read(&path).map_err(told)
            };
            let (file, report, text) = (part("run")?, part("report")?, part("txt")?);
            let own = self.file(&file, &mut Random::new(number), Depth::Process)?;
            if own != report {
                return Err(Difference::new("stored report", &file, &own, &report));
            }
            let told = crate::parse::parse(&text).unwrap_or_default();
            if told != file {
                return Err(Difference::new("stored text", &text, &told, &file));
            }
            self.counts.stored += 1;
        }
        Ok(())
    }

    /// One file: its report by both programs, and demand 3 of the run; its text too, if it goes so far.
    /// Gives this program's report.
    fn file(&mut self, file: &[u8], random: &mut Random, depth: Depth) -> Result<Vec<u8>, Difference> {
        let answer = self.own(file)?;
        let own = answer.clone().unwrap_or_else(|refusal| refusal.line().into_bytes());
        self.by_library += u64::from(self.other.gives(Function::Report, file, &answer)?);
        self.written.read(&mut self.other, file)?;
        if depth == Depth::Process {
            self.by_process += u64::from(self.other.writes("report", file, (&own, &[]))?);
        }
        if depth >= Depth::Text {
            self.texts.file(&mut self.other, file, random, depth == Depth::Process)?;
        }
        Ok(own)
    }

    /// The naive run's report against this program's, and how much the run contends.
    fn naive(&mut self, file: &[u8], own: &[u8]) -> Result<(), Difference> {
        let Ok(run_file) = read(file) else { return Ok(()) };
        let record = naive::record(&run_file);
        let report = record.report(&run_file);
        self.counts.naive += 1;
        self.contention.take(&record.seen());
        if report.as_bytes() != own {
            return Err(Difference::new("the naive run's report", file, own, report.as_bytes()));
        }
        Ok(())
    }

    /// This program's report, counted and held against demand 3.
    fn own(&mut self, file: &[u8]) -> Result<Answer, Difference> {
        let run_file = match read(file) {
            Ok(good) => good,
            Err(refusal) => {
                self.counts.refused[refusal.number as usize] += 1;
                return Ok(Err(refusal));
            }
        };
        let (book, machine) = run::<{ fault::NONE }>(&run_file);
        let mut buffer = vec![0; ENOUGH];
        let printed = print(&run_file, &book, &machine, &mut buffer);
        buffer.truncate(printed.unwrap_or(0));
        self.counts.take(&book);
        let text = String::from_utf8_lossy(&buffer);
        let trace = check::trace(&run_file, &book);
        if let Err(told) = check::check(&run_file, &trace, &text) {
            return Err(Difference::new(&format!("demand 3: {told}"), file, &buffer, &[]));
        }
        let begun: Vec<_> = trace.into_iter().flatten().collect();
        if begun.len() <= search::SMALL {
            self.counts.searched += 1;
            if !search::some_order(run_file.x, machine.v.second, &begun) {
                return Err(Difference::new("demand 3: no order at all", file, &buffer, &[]));
            }
        }
        Ok(Ok(buffer))
    }

    /// The lines of counts.
    pub fn lines(&self) -> String {
        let (lent, short) =
            self.other.library.as_ref().map_or((0, 0), |library| (library.lent, library.short));
        let reports = format!(
            " report by library {} by process {}\nlibrary: buffers lent {lent}, of them too short {short}\n",
            self.by_library, self.by_process,
        );
        let parts = [self.contention.lines(), self.texts.lines(), self.written.lines()];
        self.counts.line() + &reports + &parts.concat()
    }

    /// What of the bench is not built.
    pub fn missing(&self) -> Vec<String> {
        self.other.missing()
    }

    /// What was met too seldom, a line each.
    pub fn too_seldom(&self) -> Vec<String> {
        [self.contention.below_the_floor(), self.texts.missed(), self.written.missed()].concat()
    }
}

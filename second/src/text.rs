//! Run files printed as text (docs/RUN-TEXT.md).

use crate::runfile::{read, Kind, Refusal, RunFile};
use std::fmt::Write;

/// The longest text that is taken.
pub const LONGEST_TEXT: usize = 262_143;
const ROW: usize = 20;

/// The text of a run file, or the refusal of the file.
pub fn print(file: &[u8]) -> Result<String, Refusal> {
    Ok(print_run(&read(file)?))
}

fn print_run(run: &RunFile) -> String {
    let mut text = format!("start {}\nstations {}\n", run.x, run.n);
    for call in run.calls() {
        let _ = match call.kind {
            Kind::Read => writeln!(text, "{} read", call.station),
            kind => writeln!(text, "{} {} {} {}", call.station, kind.word(), call.a, call.b),
        };
    }
    if !run.turns.is_empty() {
        text.push_str("turns\n");
    }
    for row in run.turns.chunks(ROW) {
        let words: Vec<String> = row.iter().map(u8::to_string).collect();
        text.push_str(&words.join(" "));
        text.push('\n');
    }
    text
}

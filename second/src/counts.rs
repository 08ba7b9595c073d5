//! What a comparison counted.

use crate::machine::Answer;
use crate::run::Book;

#[derive(Default)]
pub struct Counts {
    pub stored: u64,
    pub runs: u64,
    pub damaged: u64,
    /// Refused files by number.
    pub refused: [u64; 15],
    pub searched: u64,
    pub naive: u64,
    listed: u64,
    contests: u64,
    open: u64,
}

impl Counts {
    /// Counts the list of one run.
    pub fn take(&mut self, book: &Book) {
        let open = |call: &&u16| book.entries[usize::from(**call)].answer == Answer::Open;
        self.listed += book.list().len() as u64;
        self.open += book.list().iter().filter(open).count() as u64;
        self.contests += u64::from(book.contests);
    }

    pub fn line(&self) -> String {
        let refused: Vec<String> = (1..9).map(|n| format!("{n}:{}", self.refused[n])).collect();
        format!(
            "stored {} runs {} damaged {} refused {} listed {} contests {} open {} searched {} naive {}",
            self.stored,
            self.runs,
            self.damaged,
            refused.join(" "),
            self.listed,
            self.contests,
            self.open,
            self.searched,
            self.naive,
        )
    }
}

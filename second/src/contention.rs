//! How much the random runs of a comparison contend, and the floors below which it fails.

use crate::naive::Seen;

#[derive(Default)]
pub struct Contention {
    runs: u64,
    /// Runs with no raise of V, one, two or three, four or more.
    raises: [u64; 4],
    begun: u64,
    past_5: u64,
    /// Raises with no loser, 1, 2 or 3, 4 to 7, 8 to 15, 16 to 31.
    losers: [u64; 6],
    most_losers: usize,
    moved: u64,
    runs_moved: u64,
    /// Turns by place before which V was raised twice or more.
    late: [u64; 21],
}

/// The places that a station can stop at.
const PLACES: [usize; 9] = [11, 12, 13, 14, 15, 16, 18, 19, 20];

impl Contention {
    pub fn take(&mut self, seen: &Seen) {
        self.runs += 1;
        self.raises[seen.raises.min(4).saturating_sub(usize::from(seen.raises > 2))] += 1;
        self.begun += seen.begun as u64;
        self.past_5 += seen.past_5 as u64;
        for &losers in &seen.losers {
            self.losers[(usize::BITS - losers.leading_zeros()) as usize] += 1;
            self.most_losers = self.most_losers.max(losers);
        }
        for (sum, late) in self.late.iter_mut().zip(seen.late) {
            *sum += late as u64;
        }
        self.moved += seen.moved as u64;
        self.runs_moved += u64::from(seen.moved > 0);
    }

    /// At least half of the runs raise V four times or more, and one in ten meets an even seq with cp ≠ ca.
    pub fn below_the_floor(&self) -> Vec<String> {
        let mut told = Vec::new();
        if 2 * self.raises[3] < self.runs {
            told.push("fewer than half of the runs raise V four times or more".into());
        }
        if 10 * self.runs_moved < self.runs {
            told.push("fewer than one run in ten meets an even seq with cp ≠ ca at place 16".into());
        }
        told
    }

    pub fn lines(&self) -> String {
        let late: Vec<String> = PLACES.iter().map(|&place| format!("{place}:{}", self.late[place])).collect();
        let [none, once, some, many] = self.raises;
        let [alone, one, two, four, eight, sixteen] = self.losers;
        let part = |of: u64, all: u64| 100 * of / all.max(1);
        format!(
            "raises of V in {} runs: none {none}, once {once}, two or three {some}, four or more {many} ({}%)\n\
             calls begun {}, past place 5 {} ({}%)\n\
             losers a raise: none {alone}, 1 {one}, 2 or 3 {two}, 4 to 7 {four}, 8 to 15 {eight}, 16 to 31 {sixteen}, most {}\n\
             turns after V was raised twice or more, by place: {}\n\
             place 16 with an even seq and cp ≠ ca: {} turns, in {} runs ({}%)\n",
            self.runs,
            part(many, self.runs),
            self.begun,
            self.past_5,
            part(self.past_5, self.begun),
            self.most_losers,
            late.join(" "),
            self.moved,
            self.runs_moved,
            part(self.runs_moved, self.runs),
        )
    }
}

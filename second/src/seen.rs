//! What the cases of a comparison of probes met, by names, each of which must be met.

use crate::probe::{BENCH, RECORD, STATIONS};
use std::collections::{BTreeMap, BTreeSet};

const WANTED: [(&str, &[&str]); 6] = [
    ("benches", &["sound", "unsound"]),
    (
        "answers",
        &[
            "idle",
            "going",
            "ended after 1",
            "ended after 8",
            "ended after 10",
            "refused 9",
            "refused 10",
            "refused 11 at rest",
            "refused 11 in a call",
            "refused 12",
            "refused 13",
        ],
    ),
    ("pictures", &["drawn", "picture refused 9"]),
    (
        "operations at",
        &[
            "2",
            "5",
            "11",
            "12",
            "13",
            "14",
            "15",
            "16",
            "18",
            "19",
            "20 after 7",
            "20 after 9",
            "16 with pid 0",
            "18 with pid 0",
        ],
    ),
    ("stations", &["n of 0", "n of 1", "n of 31", "n of 32", "n of 33", "n over 33"]),
    ("turns of", &["station 0", "station n", "station n+1", "station 33", "a station over 33"]),
];

/// The fields of a bench that alone can make it unsound: all but V.val, P.seq, and val of A[0] and A[1].
const FIELDS: usize = BENCH - 4;

#[derive(Default)]
pub struct Seen {
    cases: u64,
    ill_formed: u64,
    met: BTreeMap<String, u64>,
    fields: BTreeSet<usize>,
}

impl Seen {
    /// Counts a case, its four lines, and the field that was spoiled in it.
    pub fn take(&mut self, case: &[u32], lines: &[&str], spoiled: Option<usize>) {
        let (n, station) = (case[0], case[BENCH]);
        let sound = lines[0] == "sound";
        self.cases += 1;
        if let (false, Some(field)) = (sound, spoiled) {
            self.fields.insert(field);
        }
        let record = STATIONS + RECORD * station.min(32) as usize;
        let place = if sound && (1..=n).contains(&station) { case[record] } else { 0 };
        let drawn = lines[3].starts_with("picture ");
        self.met(lines[0].into());
        self.met(answer(lines[1], place));
        self.met(if drawn { "drawn".into() } else { format!("picture {}", lines[3]) });
        self.met(if n > 33 { "n over 33".into() } else { format!("n of {n}") });
        self.met(turn_of(n, station).into());
        if sound && !lines[1].starts_with("refused") {
            self.operation(place, case[BENCH + 1], case[record + 5], case[record + 8]);
        }
    }

    pub fn take_ill_formed(&mut self) {
        self.ill_formed += 1;
    }

    /// The operation of a turn that was not refused.
    fn operation(&mut self, place: u32, kind: u32, own: u32, pid: u32) {
        match (place, kind) {
            (0, 0) => self.met("2".into()),
            (0, 1 | 2) => self.met("5".into()),
            (0, _) => {}
            (20, _) => self.met(format!("20 after {own}")),
            _ => self.met(place.to_string()),
        }
        if matches!(place, 16 | 18) && pid == 0 {
            self.met(format!("{place} with pid 0"));
        }
    }

    fn met(&mut self, name: String) {
        *self.met.entry(name).or_default() += 1;
    }

    pub fn add(&mut self, other: Seen) {
        self.cases += other.cases;
        self.ill_formed += other.ill_formed;
        self.fields.extend(other.fields);
        for (name, count) in other.met {
            *self.met.entry(name).or_default() += count;
        }
    }

    fn count(&self, name: &str) -> u64 {
        self.met.get(name).copied().unwrap_or(0)
    }

    pub fn lines(&self) -> String {
        let mut text = format!("probe: cases {} ill-formed inputs {}\n", self.cases, self.ill_formed);
        for (head, names) in WANTED {
            let each: Vec<String> =
                names.iter().map(|name| format!("{name}: {}", self.count(name))).collect();
            text += &format!("{head}: {}\n", each.join(", "));
        }
        text + &format!("fields that alone made a bench unsound: {} of {BENCH}\n", self.fields.len())
    }

    /// What was never met, a line each.
    pub fn missed(&self) -> Vec<String> {
        let names = WANTED.iter().flat_map(|(head, names)| names.iter().map(move |name| (head, name)));
        let never = names.filter(|(_, name)| self.count(name) == 0);
        let mut told: Vec<String> =
            never.map(|(head, name)| format!("{head}: {name} was never met")).collect();
        if self.fields.len() < FIELDS {
            told.push(format!("only {} of {FIELDS} fields made a bench unsound", self.fields.len()));
        }
        told
    }
}

/// A turn's answer without its result.
fn answer(line: &str, place: u32) -> String {
    match line.split(' ').collect::<Vec<_>>()[..] {
        ["ended", _, own] => format!("ended after {own}"),
        ["refused", "11"] => format!("{line} {}", if place == 0 { "at rest" } else { "in a call" }),
        _ => line.into(),
    }
}

fn turn_of(n: u32, station: u32) -> &'static str {
    match station {
        0 => "station 0",
        _ if station == n => "station n",
        33 => "station 33",
        _ if station.checked_sub(1) == Some(n) => "station n+1",
        34.. => "a station over 33",
        _ => "another station",
    }
}

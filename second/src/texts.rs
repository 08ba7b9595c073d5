//! The text form compared: the library's print and parse, `read_run` and `write_run` against this program's.

use crate::decorate::{decorate, spoil};
use crate::difference::Difference;
use crate::library::Function;
use crate::other::Other;
use crate::parse::{parse, Wrong};
use crate::random::Random;
use crate::runfile::Refusal;
use crate::text::{print, LONGEST_TEXT};
use crate::wrong;

/// Complaints by number; 0 is a good text.
#[derive(Default)]
struct Met([u64; wrong::COMPLAINTS + 1]);

impl Met {
    fn count(&mut self, wrong: Option<Wrong>) {
        self.0[wrong.map_or(0, |wrong| wrong.number as usize)] += 1;
    }

    fn line(&self) -> String {
        let each: Vec<String> =
            (1..self.0.len()).map(|number| format!("{number}:{}", self.0[number])).collect();
        format!("good {} complaints {}", self.0[0], each.join(" "))
    }
}

#[derive(Default)]
pub struct Texts {
    read: u64,
    printed: u64,
    by_process: Met,
    by_library: Met,
}

impl Texts {
    /// The file as text by all; and back by all, from that text and from one more like a person's;
    /// and what they say of a text with a slip.
    pub fn file(
        &mut self,
        other: &mut Other,
        file: &[u8],
        random: &mut Random,
        process: bool,
    ) -> Result<(), Difference> {
        let text = self.print(other, file, process)?;
        if text.is_empty() {
            return Ok(());
        }
        let mut loose = decorate(&text, random);
        if loose.len() > LONGEST_TEXT {
            loose.clone_from(&text);
        }
        let slip = spoil(&loose, random);
        for text in [text, loose] {
            match parse(text.as_bytes()) {
                Ok(own) if own == file => self.text(other, text.as_bytes(), process)?,
                Ok(own) => return Err(Difference::new("print and parse", text.as_bytes(), &own, file)),
                Err(wrong) => {
                    return Err(Difference::new("parse", text.as_bytes(), wrong.message().as_bytes(), file))
                }
            }
        }
        self.text(other, slip.as_bytes(), process)
    }

    /// Texts made for each of the complaints, `times` for each; one in `process` goes to `write_run` too.
    pub fn complaints(&mut self, other: &mut Other, times: u64, process: u64) -> Result<(), Difference> {
        for seed in 0..times {
            for number in 1..=wrong::COMPLAINTS {
                let mut random = Random::new(seed << 8 | number as u64);
                self.text(other, wrong::text(number, &mut random).as_bytes(), seed % process == 0)?;
            }
        }
        Ok(())
    }

    /// The complaints that were never met, though something of the bench was asked.
    pub fn missed(&self) -> Vec<String> {
        let ways = [("the library", &self.by_library), ("write_run", &self.by_process)];
        let asked = ways.into_iter().filter(|(_, met)| met.0 != [0; wrong::COMPLAINTS + 1]);
        asked
            .flat_map(|(name, met)| {
                let never = (1..=wrong::COMPLAINTS).filter(|&number| met.0[number] == 0);
                never.map(move |number| format!("complaint {number} was never met by {name}"))
            })
            .collect()
    }

    /// This program's text of the file; empty if it is refused.
    fn print(&mut self, other: &mut Other, file: &[u8], process: bool) -> Result<String, Difference> {
        let own = print(file);
        let answer = own.clone().map(String::into_bytes);
        self.printed += u64::from(other.gives(Function::Print, file, &answer)?);
        let (out, err) = match own {
            Ok(text) => (text, String::new()),
            Err(refusal) => (String::new(), refusal.line()),
        };
        if process {
            self.read += u64::from(other.writes("read_run", file, (out.as_bytes(), err.as_bytes()))?);
        }
        Ok(out)
    }

    /// A text that may be good or not: the same file, or the same complaint.
    fn text(&mut self, other: &mut Other, text: &[u8], process: bool) -> Result<(), Difference> {
        let own = parse(text);
        let wrong = own.as_ref().err().copied();
        let answer = own.clone().map_err(|wrong| Refusal { number: wrong.number, k: wrong.line as u32 });
        if other.gives(Function::Parse, text, &answer)? {
            self.by_library.count(wrong);
        }
        let (out, err) = (own.unwrap_or_default(), wrong.map_or(String::new(), Wrong::message));
        if process && other.writes("write_run", text, (&out, err.as_bytes()))? {
            self.by_process.count(wrong);
        }
        Ok(())
    }

    pub fn lines(&self) -> String {
        format!(
            "texts: print {} read_run {}\nparse by library: {}\nwrite_run: {}\n",
            self.printed,
            self.read,
            self.by_library.line(),
            self.by_process.line(),
        )
    }
}

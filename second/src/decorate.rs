//! A printed text written as a person might: comments, blank lines, tabs, leading zeros; and with
//! a slip of the pen.

use crate::random::Random;

/// The same run told by another good text.
pub fn decorate(text: &str, random: &mut Random) -> String {
    let mut out = String::with_capacity(text.len() * 2);
    let mut turns = false;
    for line in text.lines() {
        if random.once_in(6) {
            out.push_str(random.pick(&["\n", "# a comment: start 5\n", " \t\r\n", "#\n"]));
        }
        for (at, word) in line.split(' ').enumerate() {
            if at > 0 || random.once_in(4) {
                out.push_str(random.pick(&[" ", "  ", "\t", " \r "]));
            }
            if random.once_in(8) && word.starts_with(|first: char| first.is_ascii_digit()) {
                out.push_str(random.pick(&["0", "000", "00000000000000000000000"]));
            }
            out.push_str(word);
            if turns && random.once_in(9) {
                out.push_str("# row\n");
            }
        }
        turns |= line == "turns";
        let same_line = line == "turns" && random.once_in(2);
        let end = random.pick(&["\n", "\n", " \r\n", "#x\n", " # 1 2 turns\n"]);
        out.push_str(if same_line { " " } else { end });
    }
    if random.once_in(2) && out.ends_with('\n') {
        out.pop();
    }
    out
}

const SLIPS: [&str; 22] = [
    "",
    "0",
    "1",
    "33",
    "4294967295",
    "4294967296",
    "99999999999999999999",
    "-1",
    "+1",
    "4x",
    "start",
    "stations",
    "turns",
    "read",
    "set",
    "swap",
    "Set",
    "sett",
    "se",
    "\n",
    "#",
    "1 2",
];

/// A text with one word changed, left out or put in, or cut short, with a final newline or without.
pub fn spoil(text: &str, random: &mut Random) -> String {
    let mut words: Vec<&str> = text.split_inclusive([' ', '\n']).collect();
    let at = random.below(words.len());
    let bare = words[at].trim_end();
    let end = &words[at][bare.len()..];
    let slip = random.pick(&SLIPS).to_owned() + random.pick(&[end, end, " ", "\n", "\0", "\u{c}"]);
    match random.below(5) {
        0 => words.truncate(at),
        1 => drop(words.remove(at)),
        2 => words.insert(at, &slip),
        _ => words[at] = &slip,
    }
    let slipped = words.concat();
    match random.below(3) {
        0 => slipped.trim_end_matches('\n').into(),
        1 => slipped + "\n",
        _ => slipped,
    }
}

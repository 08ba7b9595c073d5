//! Texts made to be wrong in each of the ten ways of docs/RUN-TEXT.md, and texts next to them that are good.

use crate::random::Random;
use crate::runfile::{MAX_CALLS, MAX_TURNS};

pub const COMPLAINTS: usize = 10;

/// Words that are no station, no value, no kind, and none of the words of a text.
const BAD: [&str; 8] = ["x", "-1", "4294967296", "99999999999999999999", "Read", "reads", "1x", "\0"];

/// A text that is most likely wrong in this way. What follows the slip is cut off or not, and a final newline
/// is there or not.
pub fn text(number: usize, random: &mut Random) -> String {
    let mut text = before(number, random);
    let tail =
        random.pick(&["", "", "\n", "\n\n", " ", "\t# end", "\n# end", "\n# end\n", " \n3 read\nturns 1\n"]);
    text.push_str(tail);
    text
}

fn before(number: usize, random: &mut Random) -> String {
    let bad = random.pick(&BAD);
    let lead = random.pick(&["", "\n", "# first\n", " \t\r\n"]);
    let n = random.pick(&[1, 2, 9, 32]);
    let head = format!("{lead}start 4\nstations {n}\n");
    let call = random.pick(&["1 read\n", "1 set 4 5\n", "1 swap 5 4\n", ""]);
    let high = format!("{}", n + 1);
    match number {
        1 => lead.to_owned() + random.pick(&["", bad, "stations 2", "turns", "Start 4", "1 read"]),
        2 => match random.below(3) {
            0 => format!("{lead}start {}", random.pick(&["", bad, "stations", "#"])),
            1 => format!("{head}{call}1 set {}", random.pick(&["", bad, "read"])),
            _ => format!("{head}{call}1 swap 0 {}", random.pick(&["", bad, "turns"])),
        },
        3 => match random.below(3) {
            0 => format!("{lead}start 4 {}", random.pick(&["5", bad, "stations"])),
            1 => format!("{lead}start 4\nstations 2 {}", random.pick(&["2", bad, "turns"])),
            _ => format!(
                "{head}1 {} {}",
                random.pick(&["read", "set 4 5", "swap 5 4"]),
                random.pick(&["1", bad])
            ),
        },
        4 => format!("{lead}start 4\n{}", random.pick(&["", bad, "start 4", "1 read", "turns", "station 1"])),
        5 => format!("{lead}start 4\nstations {}", random.pick(&["", "0", "33", "256", bad, "turns", "\t"])),
        6 => format!("{head}{call}{}", random.pick(&["0", &high, bad, "turn", "start 4", "read"])),
        7 => format!("{head}{call}1 {}", random.pick(&["", bad, "1", "turns", "Set 4 5", "writes", "rea"])),
        8 => format!("{head}{call}turns {}", random.pick(&["0", &high, bad, "1 1\n1 0", "turns", "1\nread"])),
        9 => head + &many_calls(random),
        _ => head + call + &many_turns(random),
    }
}

/// A call too many, or none; the last line may be wrong in itself.
fn many_calls(random: &mut Random) -> String {
    let before = "1 read\n".repeat(MAX_CALLS - 1);
    let good_ones = ["1 read", "1 set 4 5", "1 swap 0 0"];
    let bad_ones = ["1 set 4", "1 read 1", "1 x", "0 read", "turns 1"];
    let last = if random.once_in(3) { random.pick(&bad_ones) } else { random.pick(&good_ones) };
    before + random.pick(&["1 read\n", "1 set 4 5\n"]) + last
}

/// A turn too many, good or bad, or none.
fn many_turns(random: &mut Random) -> String {
    let turns = MAX_TURNS - random.pick(&[0, 0, 0, 0, 1]);
    let mut text = "turns\n".to_owned() + &"1 ".repeat(turns);
    text.push_str(random.pick(&["", "\n"]));
    text + random.pick(&["", "1", "1", "0", "33", "x", "turns", "1 1", "1\n1", "4294967296"])
}

//! The planted faults: document 01's "Easy to get wrong", and more.
//! A fault is a constant of the type level, so that the program without one pays nothing for them.

pub const NONE: u8 = 0;
/// max-write changes the register only if the first half grows.
pub const STRICT_MAX_WRITE: u8 = 1;
/// Place 16 goes on to 18 for every even seq.
pub const NO_COUNT_TEST: u8 = 2;
/// The point of a contest is the winner's own place 19.
pub const POINT_AT_OWN_19: u8 = 3;
/// Losers are those that read the raised seq at place 15.
pub const LOSERS_BY_SEQ: u8 = 4;
/// Losers are listed from the highest station down.
pub const LOSERS_FALLING: u8 = 5;
/// Place 12 writes nothing.
pub const NO_RESET: u8 = 6;
/// Place 16 goes on to 18 for odd seq too.
pub const NO_PARITY: u8 = 7;
/// Place 14 is a half-max of s+1.
pub const HALF_MAX_ODD: u8 = 8;
/// A loser has its point at its own last turn.
pub const LOSER_AT_OWN_TURN: u8 = 9;
/// Place 18 sets R of the station itself.
pub const R_OF_SELF: u8 = 10;
/// Place 18 sets R of the station that P names by then.
pub const R_OF_LATER_PID: u8 = 11;
/// Place 18 goes by A as it is then, and so does 19.
pub const A_READ_AGAIN: u8 = 12;
/// Place 11 takes s from V.
pub const S_AT_11: u8 = 13;
/// A swap hands back the value that V has at its last turn.
pub const SWAP_OF_LAST_TURN: u8 = 14;
/// Place 13 is a write.
pub const WRITE_AT_13: u8 = 15;
/// Place 18 is a write.
pub const WRITE_AT_18: u8 = 16;
/// Place 19 is a write.
pub const WRITE_AT_19: u8 = 17;
/// Place 13 claims with the count before.
pub const OLD_COUNT_AT_13: u8 = 18;

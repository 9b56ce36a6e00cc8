//! What the numbers of refusals and findings mean, for messages.
use crate::{set::Refused, Trouble};
use core::error::Error;
use core::fmt::{Display, Formatter, Result};

/// Each number that there is, with what it means: 1 to 8 and 10 are refusals, 20 to 22 findings.
pub const WORDS: [(u8, &str); 12] = [
    (1, "a set has an odd number of ends, or is not sorted with a gap between its intervals"),
    (2, "a set has over 16 intervals"),
    (3, "a lent slice is too short to work in"),
    (4, "the answer is longer than `out`"),
    (5, "over 256 lines, a line over 120 bytes, or the last line feed is missing"),
    (6, "the line is outside the grammar, or its LO is past its HI"),
    (7, "a number is beyond MIN..MAX"),
    (8, "an `in` behind another kind of line, or a second one for a register"),
    (10, "the set is empty"),
    (20, "a divisor may be 0, or is 0 in a run"),
    (21, "a held register may have a value outside, or has one in a run"),
    (22, "a lent number is outside its `in` line"),
];

fn words(number: u8) -> &'static str {
    WORDS.iter().find(|w| w.0 == number).map_or("unknown", |w| w.1)
}

impl Display for Trouble {
    fn fmt(&self, f: &mut Formatter) -> Result {
        write!(f, "number {} at line {}: {}", self.number, self.line, words(self.number))
    }
}

impl Display for Refused {
    fn fmt(&self, f: &mut Formatter) -> Result {
        write!(f, "refused with {}: {}", self.0, words(self.0))
    }
}

impl Error for Trouble {}
impl Error for Refused {}

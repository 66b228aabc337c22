//! Numbers as texts, and refusals and traps as errors.

use crate::types::{Refusal, Refused, Trap};
use std::error::Error;
use std::fmt::{Display, Formatter, Result};

/// The text of a number, as `gate_number_text` of `include/gate.h` gives it, without the offset that a check reports beside it.
///
/// ```
/// assert_eq!(gate_host::number_text(12), "store not allowed");
/// assert_eq!(gate_host::number_text(64), "finished");
/// assert_eq!(gate_host::number_text(200), "unknown number");
/// ```
pub fn number_text(number: u8) -> &'static str {
    match number {
        0 => "done",
        1 => "limits break a rule",
        2 => "under 8 bytes, or not SLU",
        3 => "version neither 0001 nor 0002",
        4 => "another layout rule is broken",
        5 => "marks too few",
        6 => "start not reached",
        7 => "depths disagree",
        8 => "outside the set of the version",
        9 => "the bytes end too soon",
        10 => "jump into an instruction",
        11 => "depth leaves 0 to 255, or RET above 0",
        12 => "store not allowed",
        13 => "jump leaves its routine",
        14 => "call not to an earlier routine",
        15 => "falls off its routine",
        16 => "stack area below the reported need",
        17 => "memory not 32,768 bytes",
        18 => "no such instruction",
        21 => "SP not from stack low - 1 to stack high",
        22 => "PC not in the code, or the bytes run out",
        23 => "outside the set of the version",
        24 => "SP would leave its range",
        25 => "direct store not wholly in one of the grants, or SP store outside SP + 1 to stack high",
        26 => "a record of more than two bytes, or with one at an address above 7FFF",
        34 => "saved state neither 19 bytes of SLS version 0001 nor 23 of version 0002",
        35 => "saved state not good, or PC too large to save",
        64 => "finished",
        65 => "the budget is used up",
        66 => "no turn: a jump goes to its own or a lower address",
        67 => "the turn is above 4,294,967,295",
        _ => "unknown number",
    }
}

impl Display for Refusal {
    fn fmt(&self, formatter: &mut Formatter<'_>) -> Result {
        write!(formatter, "refused with {}: {}", self.number(), number_text(self.number()))
    }
}

/// With the offset where it points at code: "refused with 12 at offset 2: store not allowed".
impl Display for Refused {
    fn fmt(&self, formatter: &mut Formatter<'_>) -> Result {
        match self.refusal.number() {
            number @ 6..=15 => write!(formatter, "refused with {number} at offset {}: {}", self.offset, number_text(number)),
            _ => self.refusal.fmt(formatter),
        }
    }
}

impl Display for Trap {
    fn fmt(&self, formatter: &mut Formatter<'_>) -> Result {
        write!(formatter, "trapped with {}: {}", self.number(), number_text(self.number()))
    }
}

// None has a source: each displays all that is known, and who prints a chain of errors would print it twice.
impl Error for Refusal {}
impl Error for Refused {}
impl Error for Trap {}

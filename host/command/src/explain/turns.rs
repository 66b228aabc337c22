//! What is accepted: the steps within which it finishes.

use super::{words, Lang};
use crate::code::{Code, Start};
use gate_host::Turn;

/// The turn of an accepted image and, where there is none, the jump that is to blame.
pub fn line(lang: Lang, code: &Code, turn: Turn) -> String {
    match turn {
        Turn::Within(steps) => words::turn_within(lang, &words::steps(lang, steps)),
        Turn::Over => words::turn_over(lang),
        Turn::None => {
            let jump = first_back(code).map(|jump| format!("{:04X} {}", jump.address, jump.text));
            words::no_turn(lang, &jump.unwrap_or_default())
        }
    }
}

/// The jump to its own or a lower address that has the lowest address itself.
pub fn first_back<'a>(code: &'a Code) -> Option<&'a Start<'a>> {
    let mut starts = code.routines.iter().flat_map(|routine| &routine.starts);
    starts.find(|start| start.flow.jump().is_some_and(|target| target <= start.address))
}

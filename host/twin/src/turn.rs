//! W-210: the turn of an image, the steps within which it finishes where no jump of it goes back.

use crate::check::check;
use crate::decode::Instruction;
use crate::image::Image;
use gate_host::{Limits, Refused, Turn};
use std::collections::HashMap;

/// The turn of an image. It is checked first, with the same refusals and marks.
pub fn turn(file: &[u8], limits: &Limits, marks: &mut [u16]) -> Result<Turn, Refused> {
    check(file, limits, marks)?;
    let image = Image::parse(file)?;
    let routines: Vec<Vec<Placed>> = image.routines().map(|(first, end)| placed(&image, first, end)).collect();
    if routines.iter().flatten().any(Placed::jumps_back) {
        return Ok(Turn::None);
    }
    // The turns of the routines so far, by their first byte's address. A call goes to one of them.
    let mut turns = HashMap::new();
    let mut main = 0;
    for routine in routines {
        // A turn can pass 64 bits by far. A sum that stays at the most that they hold is over, and so is all that it is added to.
        main = routine.iter().fold(0u64, |sum, placed| {
            let callee = placed.instruction.call_address(placed.next).map_or(0, |address| turns[&address]);
            sum.saturating_add(1).saturating_add(callee)
        });
        turns.insert(routine[0].address, main);
    }
    Ok(u32::try_from(main).map_or(Turn::Over, Turn::Within))
}

/// An instruction of accepted code, its address, and the address after it.
struct Placed {
    address: i32,
    next: i32,
    instruction: Instruction,
}

impl Placed {
    /// Whether it is a jump to its own or a lower address.
    fn jumps_back(&self) -> bool {
        self.instruction.jump_offset().is_some_and(|offset| self.next + i32::from(offset) <= self.address)
    }
}

/// The instructions of a routine, one at least, from its offsets of the first byte and of the byte after its last.
fn placed(image: &Image<'_>, first: usize, end: usize) -> Vec<Placed> {
    let address = |offset: usize| image.base as i32 + offset as i32;
    let mut instructions = Vec::new();
    let mut at = first;
    while at < end {
        let (instruction, length) = image.decode(&image.code[at..end]).expect("an instruction of accepted code");
        instructions.push(Placed { address: address(at), next: address(at + length), instruction });
        at += length;
    }
    instructions
}

//! What each routine needs of the stack, and the chain of calls that needs most.

use super::paths::Reach;
use crate::code::{Code, Routine};

/// The bytes of a return address.
pub const RETURN_ADDRESS: i32 = 2;

/// What one routine needs, beyond the address that it returns to.
#[derive(Clone, Copy, Debug, PartialEq, Eq)]
pub struct Need {
    pub bytes: i32,
    /// The number of the start where it needs so much.
    pub start: usize,
    /// The depth there, with what the instruction pushes.
    pub depth: i32,
    /// The number of the routine that is called there, if one is.
    pub calls: Option<usize>,
}

/// The need of each routine of an image that all rules for code allow.
pub fn needs(code: &Code) -> Vec<Need> {
    let mut needs = Vec::new();
    for routine in &code.routines {
        needs.push(need(code, routine, &needs));
    }
    needs
}

/// The need of a routine, by those of the routines before it.
fn need(code: &Code, routine: &Routine, earlier: &[Need]) -> Need {
    let reach = Reach::explore(code, routine);
    let mut most = Need { bytes: 0, start: 0, depth: 0, calls: None };
    for (number, start) in routine.starts.iter().enumerate() {
        let depth = reach.depth(number).unwrap_or(0) + start.pushed.max(0);
        let calls = start.flow.call().and_then(|target| callee(code, target)).filter(|&callee| callee < earlier.len());
        let bytes = depth + calls.map_or(0, |callee| RETURN_ADDRESS + earlier[callee].bytes);
        if bytes > most.bytes {
            most = Need { bytes, start: number, depth, calls };
        }
    }
    most
}

/// The number of the routine whose first byte is at an address.
pub fn callee(code: &Code, address: u16) -> Option<usize> {
    let offset = code.offset(address)?;
    code.routines.iter().position(|routine| routine.range.start == offset)
}

/// The chain that needs most: main, what it calls there, and so on, each by its number.
pub fn chain(needs: &[Need]) -> Vec<usize> {
    let main = needs.len().checked_sub(1);
    std::iter::successors(main, |&routine| needs[routine].calls).collect()
}

//! 10 and 13: jumps that go to no instruction of their routine.

use super::fault::Fault;
use super::page::{name, next_address, range, Page};
use super::{hex, words, Lang};
use crate::code::{Code, Routine, Start};

/// What is wrong with a jump.
#[derive(Clone, Copy, Debug, PartialEq, Eq)]
pub enum JumpFault {
    /// 13.
    Leaves,
    /// 10: it goes into the start of this number.
    Into(usize),
}

/// What is wrong with a start of a routine that was read to its end, if it is a jump.
pub fn fault_of(code: &Code, routine: &Routine, start: &Start) -> Option<JumpFault> {
    let target = start.flow.jump()?;
    match code.offset(target).filter(|offset| routine.range.contains(offset)) {
        None => Some(JumpFault::Leaves),
        Some(offset) if routine.start_at(offset).is_some() => None,
        Some(offset) => routine.start_over(offset).map(JumpFault::Into),
    }
}

pub fn explain(page: &mut Page, fault: &Fault) {
    let Some((_, start)) = fault.start() else { return };
    let (Some(target), Some(wrong)) = (start.flow.jump(), fault_of(fault.code, fault.routine, start)) else { return };
    let lang = page.lang;
    let to_do = match wrong {
        JumpFault::Leaves => {
            let range = range(fault.code, &fault.routine.range);
            page.why(&words::leaves_routine(lang, target, &range, &what_is_at(lang, fault.code, target)));
            words::stay_in_routine(lang)
        }
        JumpFault::Into(number) => {
            let into = &fault.routine.starts[number];
            page.why(&words::into_instruction(lang, target, into.address, into.text.as_str(), &hex(into.bytes)));
            let after = fault.routine.starts.get(number + 1);
            let choices = [Some(into), after].into_iter().flatten().filter_map(|to| {
                let byte = distance_byte(start, to)?;
                Some(words::choice(lang, byte, to.address))
            });
            match choices.collect::<Vec<_>>().join(", ") {
                none if none.is_empty() => words::another_target(lang),
                choices => words::count_anew(lang, &choices),
            }
        }
    };
    if let Some(&last) = start.bytes.last() {
        page.item(&words::distance(lang, last as i8, &next_address(start)));
    }
    page.listing(fault.routine, fault.offset, None);
    page.advise(&to_do);
}

/// What is at an address.
fn what_is_at(lang: Lang, code: &Code, address: u16) -> String {
    let Some((offset, number)) = code.offset(address).and_then(|offset| Some((offset, code.routine_of(offset)?))) else {
        return words::in_no_code(lang);
    };
    let (routine, name) = (&code.routines[number], name(lang, code, number));
    match routine.start_over(offset).map(|start| &routine.starts[start]) {
        Some(start) => words::in_instruction(lang, start.address, start.text.as_str(), &name),
        None => words::in_routine(lang, &name),
    }
}

/// The byte by which a jump goes to a start, if it is in reach.
pub fn distance_byte(jump: &Start, to: &Start) -> Option<u8> {
    let distance = i8::try_from(to.offset as isize - jump.end() as isize).ok()?;
    Some(distance as u8)
}

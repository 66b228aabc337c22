//! 6, 7 and 11: reach and depth.

use super::fault::Fault;
use super::page::Page;
use super::paths::{Path, Reach};
use super::words;
use crate::code::{Flow, Start};

/// What is wrong with a depth at a start.
#[derive(Clone, Copy, Debug, PartialEq, Eq)]
pub enum DepthFault {
    /// It is out of range before the instruction.
    Before,
    /// It is after it.
    After,
    /// RET above 0.
    Return,
}

pub fn fault_of(start: &Start, depth: i32) -> Option<DepthFault> {
    let allowed = |depth: i32| u8::try_from(depth).is_ok();
    if !allowed(depth) {
        Some(DepthFault::Before)
    } else if !allowed(depth + start.pushed) {
        Some(DepthFault::After)
    } else {
        (start.flow == Flow::Returns && depth != 0).then_some(DepthFault::Return)
    }
}

pub fn unreached(page: &mut Page, fault: &Fault) {
    let Some((number, start)) = fault.start() else { return };
    let (lang, starts) = (page.lang, &fault.routine.starts);
    page.why(&words::unreached(lang, start.address));
    if let Some(before) = number.checked_sub(1).map(|before| &starts[before]) {
        page.item(&words::does_not_go_on(lang, before.address, before.text.as_str()));
    }
    let mut jumps = starts.iter().filter(|jump| jump.flow.jump() == Some(start.address)).peekable();
    if jumps.peek().is_none() {
        page.item(&words::no_jump_there(lang));
    }
    for jump in jumps {
        page.item(&words::jump_not_reached(lang, jump.address, jump.text.as_str()));
    }
    let reach = Reach::explore(fault.code, fault.routine);
    let count = (0..starts.len()).filter(|&number| reach.depth(number).is_none()).count();
    page.item(&words::how_many_unreached(lang, count, starts.len()));
    page.listing(fault.routine, fault.offset, None);
    page.advise(&words::lead_there(lang));
}

pub fn disagree(page: &mut Page, fault: &Fault) {
    let lang = page.lang;
    let Some([one, other]) = Reach::explore(fault.code, fault.routine).disagreement() else { return };
    let Some(meeting) = one.starts.last().map(|&last| &fault.routine.starts[last]) else { return };
    page.why(&words::disagree(lang, meeting.address, meeting.text.as_str(), one.depth, other.depth));
    let to_do = if turns(&one, &other) {
        page.item(&words::turn_of_loop(lang, meeting.address, other.depth - one.depth));
        words::mend_loop(lang)
    } else {
        words::mend_paths(lang, &words::bytes(lang, one.depth.abs_diff(other.depth)))
    };
    page.line(&words::one_path(lang, one.depth));
    page.path(fault.routine, &one);
    page.line(&words::other_path(lang, other.depth));
    page.path(fault.routine, &other);
    page.listing(fault.routine, meeting.offset, None);
    page.advise(&to_do);
}

/// Whether the longer path goes on from the end of the shorter one, and back to it.
fn turns(one: &Path, other: &Path) -> bool {
    other.starts.starts_with(&one.starts)
}

pub fn depth_range(page: &mut Page, fault: &Fault) {
    let reach = Reach::explore(fault.code, fault.routine);
    let Some((number, start)) = fault.start() else { return };
    let Some(path) = reach.path(number) else { return };
    let Some(wrong) = fault_of(start, path.depth) else { return };
    let (lang, depth, after) = (page.lang, path.depth, path.depth + start.pushed);
    page.why(&match wrong {
        DepthFault::Before => words::comes_with(lang, depth),
        DepthFault::After => words::leaves_depth(lang, depth, start.pushed, after),
        DepthFault::Return => words::ret_above_0(lang, depth),
    });
    page.line(&words::path_there(lang));
    page.path(fault.routine, &path);
    page.listing(fault.routine, fault.offset, Some(&reach));
    page.advise(&match wrong {
        DepthFault::Return => words::pop_before_ret(lang, &words::bytes(lang, depth.unsigned_abs()), depth),
        _ if depth.min(after) < 0 => words::pop_less(lang),
        _ => words::push_less(lang),
    });
}

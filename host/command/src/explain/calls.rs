//! 14 and 16, and what is accepted: calls, and the stack that they need.

use super::fault::Fault;
use super::limit_rules;
use super::needs::{callee, chain, needs, Need, RETURN_ADDRESS};
use super::page::{name, range, Page};
use super::paths::Reach;
use super::{turns, words};
use crate::code::{Code, Start};
use gate_host::{Accepted, Limits, Turn};

/// What is wrong with a call. Routines go by their numbers, from 0.
#[derive(Clone, Copy, Debug, PartialEq, Eq)]
pub enum CallFault {
    Itself,
    Later(usize),
    /// It is not to the first byte of the routine.
    Inside(usize),
    NoCode,
}

/// What is wrong with a start of a routine, if it is a call.
pub fn fault_of(code: &Code, number: usize, start: &Start) -> Option<CallFault> {
    let target = start.flow.call()?;
    match callee(code, target) {
        Some(callee) if callee < number => None,
        Some(callee) if callee == number => Some(CallFault::Itself),
        Some(callee) => Some(CallFault::Later(callee)),
        None => Some(code.offset(target).and_then(|offset| code.routine_of(offset)).map_or(CallFault::NoCode, CallFault::Inside)),
    }
}

pub fn explain(page: &mut Page, fault: &Fault) {
    let Some((_, start)) = fault.start() else { return };
    let (Some(target), Some(wrong)) = (start.flow.call(), fault_of(fault.code, fault.number, start)) else { return };
    let (lang, code) = (page.lang, fault.code);
    let first = |number: usize| code.address(code.routines[number].range.start);
    let (why, to_do) = match wrong {
        CallFault::Itself => (words::calls_itself(lang, target), words::loop_instead(lang)),
        CallFault::Later(callee) => {
            (words::calls_later(lang, target, &name(lang, code, callee)), words::move_callee(lang, callee + 1, fault.number + 1))
        }
        CallFault::Inside(other) => (
            words::calls_inside(lang, target, &name(lang, code, other), &range(code, &code.routines[other].range)),
            if other < fault.number { words::call_first_byte(lang, other + 1, first(other)) } else { words::call_earlier(lang) },
        ),
        CallFault::NoCode => (words::calls_no_code(lang, target), words::mend_call(lang)),
    };
    page.why(&why);
    let earlier = (0..fault.number).map(|number| words::callee_at(lang, number + 1, first(number)));
    page.item(&match earlier.collect::<Vec<_>>().join(", ") {
        none if none.is_empty() => words::may_call_none(lang),
        list => words::may_call(lang, &list),
    });
    page.listing(fault.routine, fault.offset, Some(&Reach::explore(code, fault.routine)));
    page.advise(&to_do);
}

/// The bytes of the stack area.
fn area(limits: &Limits) -> u32 {
    u32::from(limits.stack.high) + 1 - u32::from(limits.stack.low)
}

pub fn stack(page: &mut Page, code: &Code, limits: &Limits) {
    let lang = page.lang;
    let needs = needs(code);
    let need = RETURN_ADDRESS + needs.last().map_or(0, |main| main.bytes);
    let area = area(limits) as i32;
    page.why(&words::stack_too_small(lang, need, &limit_rules::text(limits.stack), area, need - area));
    links(page, code, &needs);
    page.advise(&words::enlarge_stack(lang, &words::bytes(lang, need.unsigned_abs())));
}

pub fn accepted(page: &mut Page, code: &Code, limits: &Limits, accepted: Accepted, turn: Turn) {
    let lang = page.lang;
    let needs = needs(code);
    page.line(&words::need_of_area(lang, accepted.need, area(limits), &limit_rules::text(limits.stack)));
    page.line(&words::instructions(lang, accepted.count));
    page.line(&turns::line(lang, code, turn));
    page.line(&words::routines(lang));
    for (number, routine) in code.routines.iter().enumerate() {
        let (name, range) = (name(lang, code, number), range(code, &routine.range));
        page.item(&words::routine_need(lang, &name, &range, needs[number].bytes));
    }
    links(page, code, &needs);
}

/// The chain of calls that needs most, with what each adds, and the sum.
fn links(page: &mut Page, code: &Code, needs: &[Need]) {
    let lang = page.lang;
    page.line(&words::chain(lang));
    let mut sum = RETURN_ADDRESS;
    page.item(&format!("{RETURN_ADDRESS:>5}  {}", words::return_of_main(lang)));
    for number in chain(needs) {
        let (need, name) = (needs[number], name(lang, code, number));
        let start = &code.routines[number].starts[need.start];
        let text = start.text.as_str();
        let (adds, line) = match need.calls {
            Some(_) => {
                (need.depth + RETURN_ADDRESS, words::link_calls(lang, &name, start.address, text, need.depth, RETURN_ADDRESS))
            }
            None if need.depth == 0 => (0, words::link_keeps_nothing(lang, &name)),
            None => (need.depth, words::link_pushes(lang, &name, start.address, text)),
        };
        sum += adds;
        page.item(&format!("{adds:>5}  {line}"));
    }
    page.item(&format!("{sum:>5}  {}", words::in_all(lang)));
}

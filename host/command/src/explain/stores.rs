//! 12: stores outside the grants, or outside what the routine has pushed.

use super::fault::Fault;
use super::limit_rules;
use super::page::Page;
use super::paths::Reach;
use super::{words, Lang};
use crate::code::{Start, Store};
use gate_host::{Area, Limits};

/// The store of a start, if it is not allowed at a depth.
pub fn fault_of(start: &Start, depth: i32, limits: &Limits) -> Option<Store> {
    start.store.filter(|&store| match store {
        Store::Direct { address, bytes } => {
            let last = last(address, bytes);
            ![limits.grant, limits.second].into_iter().any(|grant| holds(grant, address.into()) && holds(grant, last))
        }
        Store::Stack { offset, bytes } => offset == 0 || i32::from(offset) + i32::from(bytes) - 1 > depth,
    })
}

/// The last address of a store, which may be 10000.
fn last(address: u16, bytes: u16) -> u32 {
    u32::from(address) + u32::from(bytes) - 1
}

fn holds(area: Area, address: u32) -> bool {
    (u32::from(area.low)..=u32::from(area.high)).contains(&address)
}

pub fn explain(page: &mut Page, fault: &Fault, limits: &Limits) {
    let reach = Reach::explore(fault.code, fault.routine);
    let Some((number, start)) = fault.start() else { return };
    let depth = reach.depth(number).unwrap_or(0);
    let lang = page.lang;
    let to_do = match fault_of(start, depth, limits) {
        Some(Store::Direct { address, bytes }) => direct(page, address, bytes, limits),
        Some(Store::Stack { offset, bytes }) => {
            page.why(&on_stack(lang, offset.into(), bytes, depth));
            words::push_first(lang)
        }
        None => return,
    };
    page.listing(fault.routine, fault.offset, Some(&reach));
    page.advise(&to_do);
}

fn direct(page: &mut Page, address: u16, bytes: u16, limits: &Limits) -> String {
    let (lang, last) = (page.lang, last(address, bytes));
    let place = if bytes == 1 { format!("{address:04X}") } else { format!("{address:04X}-{last:04X}") };
    let second = match limits.second {
        none if none.is_empty() => words::no_second(lang),
        second => words::second_is(lang, &limit_rules::text(second)),
    };
    let size = words::bytes(lang, bytes.into());
    page.why(&words::store_outside(lang, &size, &place, &limit_rules::text(limits.grant), &second));
    let granted = |address| holds(limits.grant, address) || holds(limits.second, address);
    if granted(address.into()) && granted(last) {
        page.item(&words::over_seam(lang));
    }
    if last > limit_rules::LAST.into() {
        words::store_in_memory(lang)
    } else {
        words::store_in_grant(lang, &place)
    }
}

fn on_stack(lang: Lang, first: u16, bytes: u16, depth: i32) -> String {
    let place = match bytes {
        1 => words::sp_byte(lang, first),
        _ => words::sp_word(lang, first, first + 1),
    };
    let bytes = words::bytes(lang, bytes.into());
    match depth {
        0 => words::store_on_empty_stack(lang, &bytes, &place),
        _ => words::store_on_stack(lang, &bytes, &place, depth),
    }
}

//! 8, 9 and 15: what a routine's bytes read as.

use super::fault::Fault;
use super::page::{next_address, Page, PRE_CODES};
use super::{header, hex, words};
use crate::code::CALLR;
use gate_host::decode;

/// The longest instruction has five bytes.
const LONGEST: usize = 5;

pub fn outside(page: &mut Page, fault: &Fault) {
    let Some(stuck) = fault.routine.stuck else { return };
    let lang = page.lang;
    let version = fault.code.layout.version;
    let to_do = match (decode(stuck.bytes, stuck.address), stuck.bytes) {
        (Ok(decoded), _) => {
            page.why(&words::callr(lang));
            let target = decoded.text.as_str().trim_start_matches("CALLR $").to_string();
            let address = u16::from_str_radix(&target, 16).unwrap_or(0).to_be_bytes();
            words::take_call(lang, &format!("CALL ${target}"), &hex(&[0xCD, address[0], address[1]]))
        }
        (Err(_), [CALLR, ..]) => {
            page.why(&words::callr(lang));
            words::take_any_call(lang)
        }
        (Err(_), _) => {
            page.why(&words::outside(lang, &hex(stuck.front()), version));
            words::take_of_the_set(lang)
        }
    };
    page.listing(fault.routine, fault.offset, None);
    page.advise(&to_do);
}

pub fn truncated(page: &mut Page, fault: &Fault) {
    let Some(stuck) = fault.routine.stuck else { return };
    let lang = page.lang;
    page.why(&match whole(stuck.bytes) {
        Some((mnemonic, length)) => words::truncated(lang, &mnemonic, length, stuck.bytes.len(), length - stuck.bytes.len()),
        None => words::lone_pre_code(lang, stuck.bytes[0]),
    });
    page.listing(fault.routine, fault.offset, None);
    let (number, length, offset) = length_of(fault);
    page.advise(&words::add_bytes(lang, number, length, offset));
}

/// The mnemonic and the length of an instruction that is cut short, if its op-code is there.
pub fn whole(bytes: &[u8]) -> Option<(String, usize)> {
    if matches!(bytes, [first] if PRE_CODES.contains(first)) {
        return None;
    }
    let mut whole = bytes.to_vec();
    whole.resize(LONGEST, 0);
    let decoded = decode(&whole, 0).ok()?;
    let text = decoded.text.as_str();
    Some((text.split(' ').next().unwrap_or(text).into(), decoded.length))
}

pub fn falls_off(page: &mut Page, fault: &Fault) {
    let Some((_, start)) = fault.start() else { return };
    let lang = page.lang;
    page.why(&words::falls_off(lang, &next_address(start)));
    page.listing(fault.routine, fault.offset, None);
    let (number, length, offset) = length_of(fault);
    page.advise(&words::end_by_ret(lang, number, length, offset));
}

/// A routine's number from 1, its length, and where in the image that stands.
fn length_of(fault: &Fault) -> (usize, usize, usize) {
    (fault.number + 1, fault.routine.range.len(), header::length_offset(fault.number))
}

//! Which rules limits break: refusal 1.

use super::words;
use super::Lang;
use gate_host::{Area, Limits};

/// The last address that limits may have.
pub const LAST: u16 = 0x7FFF;

/// A sentence for each rule that limits break. There is one exactly where the library refuses them.
pub fn broken(lang: Lang, limits: &Limits) -> Vec<String> {
    let Limits { grant, stack, second } = *limits;
    let named = [(grant, words::grant(lang)), (stack, words::stack(lang)), (second, words::second_grant(lang))];
    // A second grant that is empty is none, and obeys no rule.
    let named = &named[..if second.is_empty() { 2 } else { 3 }];
    let mut broken = Vec::new();
    for (area, name) in named {
        if area.is_empty() {
            broken.push(words::low_above_high(lang, name, area.low, area.high));
        } else if area.high > LAST {
            broken.push(words::above_memory(lang, name, &text(*area), area.high, LAST));
        }
    }
    if stack.low == 0 {
        broken.push(words::stack_at_0(lang, &text(stack)));
    }
    for (one, other) in [(0, 1), (0, 2), (1, 2)] {
        let (Some((one, one_name)), Some((other, other_name))) = (named.get(one), named.get(other)) else { continue };
        let common = Area { low: one.low.max(other.low), high: one.high.min(other.high) };
        if !(one.is_empty() || other.is_empty() || common.is_empty()) {
            broken.push(words::areas_meet(lang, one_name, &text(*one), other_name, &text(*other), &addresses(common)));
        }
    }
    broken
}

/// An area as people write it.
pub fn text(area: Area) -> String {
    format!("{:04X}-{:04X}", area.low, area.high)
}

/// Addresses that are one or more.
fn addresses(area: Area) -> String {
    if area.low == area.high {
        format!("{:04X}", area.low)
    } else {
        text(area)
    }
}

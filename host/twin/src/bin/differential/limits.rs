//! Limits: where the three areas lie, addresses on which something turns, and what W-205 decides on.

use crate::generator::Generator;
use crate::met::{that_hold, Meet};
use crate::program::Case;
use gate_host::{Area, Limits};
use gate_twin::Instruction;
use gate_twin::{self as twin, slu};
use std::array;

/// Document 01's limits.
const DOCUMENT_01: Limits =
    Limits { grant: Area { low: 0x0000, high: 0x00FF }, stack: Area { low: 0x0300, high: 0x03FF }, second: Area::NONE };

/// What is to be met of the second grant: where it lies, how none is written, and what comes of it.
#[derive(Clone, Copy)]
pub enum Second {
    Present,
    Absent,
    AboveGrant,
    BelowGrant,
    AtStack,
    OneByte,
    From0000,
    To7FFF,
    NoneFfff0000,
    None00050004,
    NoneAbove7FFF,
    NoneAtAnEnd,
    BreaksRule,
    RefusedOverSeam,
    TrappedOverSeam,
    ByteStored,
    WordStored,
}

impl Meet for Second {
    const ALL: &'static [(Second, &'static str)] = &[
        (Second::Present, "cases with a second grant"),
        (Second::Absent, "cases with none"),
        (Second::AboveGrant, "second grants from the byte after the first"),
        (Second::BelowGrant, "second grants up to the byte before the first"),
        (Second::AtStack, "second grants that touch the stack"),
        (Second::OneByte, "second grants of one byte"),
        (Second::From0000, "second grants from 0000"),
        (Second::To7FFF, "second grants to 7FFF"),
        (Second::NoneFfff0000, "none as FFFF-0000"),
        (Second::None00050004, "none as 0005-0004"),
        (Second::NoneAbove7FFF, "none with low one above high, above 7FFF"),
        (Second::NoneAtAnEnd, "none with low one above high, at an end of another area"),
        (Second::BreaksRule, "checks refused with 1 for the second grant alone"),
        (Second::RefusedOverSeam, "checks refused with 12 for a word over the seam"),
        (Second::TrappedOverSeam, "steps that trap 25 at a word over the seam"),
        (Second::ByteStored, "steps that store a byte in the second grant"),
        (Second::WordStored, "steps that store a word in the second grant"),
    ];

    fn number(self) -> usize {
        self as usize
    }
}

impl Second {
    /// What these limits, which are good, have of it.
    pub fn of_limits(limits: &Limits) -> impl Iterator<Item = Second> {
        let Limits { grant, stack, second } = *limits;
        let some = !second.is_empty();
        let just_none = second.low.checked_sub(1) == Some(second.high);
        let ends = [grant.low, grant.high, stack.low, stack.high];
        let at_an_end = ends.contains(&second.low) || ends.contains(&second.high);
        that_hold([
            (Second::Present, some),
            (Second::Absent, !some),
            (Second::AboveGrant, some && follows(second, grant)),
            (Second::BelowGrant, some && follows(grant, second)),
            (Second::AtStack, some && (follows(second, stack) || follows(stack, second))),
            (Second::OneByte, second.low == second.high),
            (Second::From0000, some && second.low == 0x0000),
            (Second::To7FFF, some && second.high == 0x7FFF),
            (Second::NoneFfff0000, second == Area::NONE),
            (Second::None00050004, second == NONE_LOW),
            (Second::NoneAbove7FFF, just_none && second.high > 0x7FFF),
            (Second::NoneAtAnEnd, just_none && at_an_end),
        ])
    }

    /// What a check that is refused so has of it; `refused` is the instruction that a refusal points at.
    pub fn of_refusal(limits: &Limits, number: u8, refused: Option<Instruction>) -> Option<Second> {
        match number {
            1 if twin::validate(&Limits { second: Area::NONE, ..*limits }).is_ok() => Some(Second::BreaksRule),
            12 if over_seam(limits, refused?) => Some(Second::RefusedOverSeam),
            _ => None,
        }
    }

    /// What a step that was made has of it.
    pub fn of_step(limits: &Limits, made: Instruction) -> Option<Second> {
        let (address, bytes) = made.direct_store()?;
        let word = bytes == 2;
        twin::holds(limits.second, address, bytes).then_some(if word { Second::WordStored } else { Second::ByteStored })
    }

    /// What a step that trapped 25 has of it.
    pub fn of_trap(limits: &Limits, trapped: Instruction) -> Option<Second> {
        over_seam(limits, trapped).then_some(Second::TrappedOverSeam)
    }
}

const NONE_LOW: Area = Area { low: 0x0005, high: 0x0004 };

/// Whether the upper area begins where the lower one ends.
fn follows(upper: Area, lower: Area) -> bool {
    upper.low.checked_sub(1) == Some(lower.high)
}

/// Whether an instruction stores a word each byte of which lies in a grant, but not both in the same.
fn over_seam(limits: &Limits, instruction: Instruction) -> bool {
    let Some((address, 2)) = instruction.direct_store() else { return false };
    !twin::granted(limits, address, 2) && twin::granted(limits, address, 1) && twin::granted(limits, address.wrapping_add(1), 1)
}

/// The last address of the lower of two grants that touch.
fn seam(limits: &Limits) -> Option<u16> {
    let Limits { grant, second, .. } = *limits;
    let pairs = [(second, grant), (grant, second)];
    let (_, lower) = pairs.into_iter().find(|&(upper, lower)| !second.is_empty() && follows(upper, lower))?;
    Some(lower.high)
}

impl Generator<'_> {
    pub fn limits(&mut self) -> Limits {
        if self.random.one_in(4) {
            return DOCUMENT_01;
        }
        let stack_bytes = match self.random.below(4) {
            0 => self.random.between(1, 40),
            1 => self.random.between(40, 600),
            _ => self.random.between(600, 9_000),
        };
        let mut grant_bytes = [self.grant_bytes(15_000), self.grant_bytes(4_000)];
        if self.random.one_in(2) {
            grant_bytes.reverse();
        }
        if self.random.one_in(6) {
            let [stack, grant] = self.areas([stack_bytes, grant_bytes[0]]);
            Limits { grant, stack, second: self.no_second(grant, stack) }
        } else {
            let [stack, grant, second] = self.areas([stack_bytes, grant_bytes[0], grant_bytes[1]]);
            Limits { grant, stack, second }
        }
    }

    fn grant_bytes(&mut self, most: usize) -> usize {
        match self.random.below(4) {
            0 => self.random.pick(&[1, 1, 2, 3, 4]),
            1 => self.random.between(4, 300),
            _ => self.random.between(300, most),
        }
    }

    /// Areas of so many bytes, in any order, often touching and often at an end of the memory.
    fn areas<const N: usize>(&mut self, bytes: [usize; N]) -> [Area; N] {
        let mut order: [usize; N] = array::from_fn(|number| number);
        self.random.shuffle(&mut order);
        let mut gaps: [usize; N] = array::from_fn(|_| if self.random.one_in(2) { 0 } else { self.random.below(2_000) });
        gaps[0] = 0;
        // The stack is the first that was asked for, and cannot begin at 0.
        let lowest = usize::from(order[0] == 0);
        let highest = 0x8000 - bytes.iter().sum::<usize>() - gaps.iter().sum::<usize>();
        let mut at = match self.random.below(4) {
            0 => lowest,
            1 => highest,
            _ => self.random.between(lowest, highest),
        };
        let mut areas = [Area::NONE; N];
        for (number, gap) in order.into_iter().zip(gaps) {
            let low = at + gap;
            at = low + bytes[number];
            areas[number] = Area { low: low as u16, high: (at - 1) as u16 };
        }
        areas
    }

    /// A second grant that is none, beside these areas.
    pub fn no_second(&mut self, grant: Area, stack: Area) -> Area {
        let high = match self.random.below(6) {
            0..=1 => return Area::NONE,
            2 => return NONE_LOW,
            3 => self.random.between(0x7FFF, 0xFFFE) as u16,
            4 => self.random.pick(&[grant.low, grant.high, stack.low, stack.high]).saturating_sub(self.random.below(2) as u16),
            // Far apart, so that other areas may lie between.
            _ => {
                let high = self.random.below(0xFFFF);
                return Area { low: self.random.between(high + 1, 0xFFFF) as u16, high: high as u16 };
            }
        };
        Area { low: high + 1, high }
    }

    /// An address on which something may turn.
    pub fn address(&mut self, limits: &Limits, base: u16, code: usize) -> u16 {
        let Limits { grant, stack, second } = *limits;
        let ends = [grant, stack, second].map(|area| [area.low, area.high]).concat();
        let others = [0x0000, 0x00FF, 0x7FFF, 0x8000, 0xFFFF, base, base.wrapping_add(code as u16)];
        match self.random.below(3) {
            0 => self.random.word(),
            1 => base.wrapping_add(self.random.below(code + 1) as u16),
            _ => {
                let near = if self.random.one_in(2) { self.random.pick(&ends) } else { self.random.pick(&others) };
                near.wrapping_add(self.random.between(0, 4) as u16).wrapping_sub(2)
            }
        }
    }

    /// An address where a store of a byte or a word is just allowed, or just not: at an end of a grant, or at the seam of two.
    pub fn grant_border(&mut self, limits: &Limits) -> u16 {
        if self.random.one_in(8) {
            return 0xFFFF;
        }
        if let Some(last) = seam(limits).filter(|_| self.random.one_in(3)) {
            return last;
        }
        let Area { low, high } = self.random.pick(&[limits.grant, limits.second]);
        self.random.pick(&[low.wrapping_sub(1), low, high.wrapping_sub(1), high, high.wrapping_add(1)])
    }

    /// An address up to `most` at which so many bytes lie in one of the grants, often at its ends.
    pub fn granted(&mut self, limits: &Limits, bytes: u16, most: u16) -> Option<u16> {
        let room = |grant: Area| {
            let highest = grant.high.checked_sub(bytes - 1)?.min(most);
            (grant.low <= highest).then_some((grant.low, highest))
        };
        let rooms: Vec<(u16, u16)> = [limits.grant, limits.second].into_iter().filter_map(room).collect();
        let (lowest, highest) = self.random.pick_if_any(&rooms)?;
        Some(match self.random.below(4) {
            0 => lowest,
            1 => highest,
            _ => self.random.between(lowest.into(), highest.into()) as u16,
        })
    }

    /// An image of a few direct stores, half of them of words, at the borders of the grants.
    pub fn bordering(&mut self) -> Case {
        let limits = self.limits();
        let mut code = Vec::new();
        for _ in 0..self.random.between(1, 4) {
            // LD $..,A; INC $..; LDW $..,X; LDW $..,Y
            code.extend(self.random.pick(&[&[0xC7][..], &[0x72, 0x5C], &[0xCF], &[0x90, 0xCF]]));
            code.extend(self.grant_border(&limits).to_be_bytes());
        }
        code.push(0x81);
        let image = slu::image_of(self.version, 0x8000, &[&code]);
        Case { image, limits, marks: code.len(), known: None, shapes: Vec::new() }
    }
}

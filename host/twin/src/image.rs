//! Limits and the layout of an SLU image: refusals 1 to 4, which instructions its version has, and where a direct store may go.

use crate::decode::{decode, Instruction, Undecodable};
use gate_host::{Area, Limits, Refusal};

const HEADER: usize = 8;
const CODE_AT_MOST: usize = 4_096;
const ADDRESSES: usize = 0x1_0000;
/// The op-code that version 0002 leaves out of the set.
const CALLR: u8 = 0xAD;

/// An image whose layout is right.
#[derive(Clone, Copy, Debug)]
pub struct Image<'a> {
    /// 1 or 2.
    pub version: u16,
    /// The address of the first code byte.
    pub base: u32,
    pub code: &'a [u8],
    lengths: &'a [u8],
}

impl<'a> Image<'a> {
    /// Takes the file apart, or gives 2, 3 or 4.
    pub fn parse(file: &'a [u8]) -> Result<Image<'a>, Refusal> {
        if file.len() < HEADER || !file.starts_with(b"SLU") {
            return Err(Refusal::NotSlu);
        }
        let version = u16::from_be_bytes([file[3], file[4]]);
        if !matches!(version, 1 | 2) {
            return Err(Refusal::UnknownVersion);
        }
        let base = usize::from(u16::from_be_bytes([file[5], file[6]]));
        let count = usize::from(file[7]);
        let (lengths, code) = file[HEADER..].split_at_checked(2 * count).ok_or(Refusal::Layout)?;
        let total: usize = routine_lengths(lengths).sum();
        let good = (1..=32).contains(&count)
            && routine_lengths(lengths).all(|length| length >= 1)
            && total <= CODE_AT_MOST
            && base >= 0x8000
            && base + total <= ADDRESSES
            && code.len() == total;
        if good {
            Ok(Image { version, base: base as u32, code, lengths })
        } else {
            Err(Refusal::Layout)
        }
    }

    /// The instruction at the front of `bytes`, which are of its code, and its length, by the set of its version.
    ///
    /// What is outside the set has no length, so bytes that end after the op-code of CALLR do not end too soon in version 0002.
    #[inline]
    pub fn decode(&self, bytes: &[u8]) -> Result<(Instruction, usize), Undecodable> {
        if self.version == 2 && bytes.first() == Some(&CALLR) {
            return Err(Undecodable::Outside);
        }
        decode(bytes)
    }

    /// The routines in table order: the offsets of their first byte and of the byte after their last.
    pub fn routines(&self) -> impl Iterator<Item = (usize, usize)> + 'a {
        routine_lengths(self.lengths).scan(0, |end, length| {
            let first = *end;
            *end += length;
            Some((first, *end))
        })
    }

    /// The offset of main, the last routine.
    pub fn main(&self) -> usize {
        self.routines().last().map_or(0, |(first, _)| first)
    }
}

fn routine_lengths(table: &[u8]) -> impl Iterator<Item = usize> + '_ {
    table.chunks_exact(2).map(|pair| usize::from(u16::from_be_bytes([pair[0], pair[1]])))
}

/// Refusal 1: each area lies in the memory, stack low is at least 1, and no address is in two of them. A second grant that is
/// empty is none, and obeys no rule.
pub fn validate(limits: &Limits) -> Result<(), Refusal> {
    let Limits { grant, stack, second } = *limits;
    let first_two = in_memory(grant) && in_memory(stack) && stack.low >= 1 && apart(grant, stack);
    if first_two && (second.is_empty() || in_memory(second) && apart(second, grant) && apart(second, stack)) {
        Ok(())
    } else {
        Err(Refusal::Limits)
    }
}

fn in_memory(area: Area) -> bool {
    area.low <= area.high && area.high <= 0x7FFF
}

/// Whether two areas that are not empty have no address in common.
fn apart(one: Area, other: Area) -> bool {
    one.high < other.low || other.high < one.low
}

/// Whether so many bytes from `address` on, one at least, lie in an area. In an empty area none do.
#[inline]
pub fn holds(area: Area, address: u16, bytes: u32) -> bool {
    area.low <= address && u32::from(address) + bytes - 1 <= area.high.into()
}

/// Whether a direct store of so many bytes may go to `address`: it lies wholly in one of the grants, which may touch.
#[inline]
pub fn granted(limits: &Limits, address: u16, bytes: u32) -> bool {
    holds(limits.grant, address, bytes) || holds(limits.second, address, bytes)
}

//! What is no saved state: one of either version whose length, mark or version was made wrong.

use crate::met::Meet;
use crate::random::Random;
use crate::versions;

/// What is to be met of each version: the faults that are refused with 34.
#[derive(Clone, Copy)]
pub enum NotSls {
    EachLength,
    OtherLength,
    LengthIn8Bits,
    LengthIn16Bits,
    Mark,
    MarkOfImage,
    OtherVersion,
    Version0000,
    Version0003,
    VersionExchanged,
    VersionHighByte,
    VersionFfff,
    VersionAny,
}

impl Meet for NotSls {
    const ALL: &'static [(NotSls, &'static str)] = &[
        (NotSls::EachLength, "every other length up to 30"),
        (NotSls::OtherLength, "the length of the other version"),
        (NotSls::LengthIn8Bits, "a length that is right in 8 bits"),
        (NotSls::LengthIn16Bits, "a length that is right in 16 bits"),
        (NotSls::Mark, "another mark"),
        (NotSls::MarkOfImage, "the mark of an image"),
        (NotSls::OtherVersion, "the other version's number"),
        (NotSls::Version0000, "version 0000"),
        (NotSls::Version0003, "version 0003"),
        (NotSls::VersionExchanged, "versions 0100 and 0200"),
        (NotSls::VersionHighByte, "versions 0101, 0102, 0201 and 0202"),
        (NotSls::VersionFfff, "version FFFF"),
        (NotSls::VersionAny, "any other version"),
    ];

    fn number(self) -> usize {
        self as usize
    }
}

impl NotSls {
    /// One of the faults.
    pub fn any(random: &mut Random) -> NotSls {
        random.pick(NotSls::ALL).0
    }

    /// Bytes that have this fault, made from a saved state of either version.
    pub fn made_from(self, right: &[u8], random: &mut Random) -> Vec<Vec<u8>> {
        let length = right.len();
        match self {
            NotSls::EachLength => lengths(right, (0..=30).filter(|&other| other != length), random),
            NotSls::OtherLength => lengths(right, [other_length(length)], random),
            NotSls::LengthIn8Bits => lengths(right, [length + 0x100, length + 0x300], random),
            NotSls::LengthIn16Bits => lengths(right, [length + 0x1_0000], random),
            NotSls::Mark => {
                let (at, bits) = (random.below(3), random.between(1, 255) as u8);
                vec![changed(right, |saved| saved[at] ^= bits)]
            }
            NotSls::MarkOfImage => vec![changed(right, |saved| saved[2] = b'U')],
            NotSls::OtherVersion => vec![changed(right, |saved| saved[4] ^= 0x03)],
            NotSls::Version0000 => numbered(right, &[0x0000]),
            NotSls::Version0003 => numbered(right, &[0x0003]),
            NotSls::VersionExchanged => numbered(right, &[0x0100, 0x0200]),
            NotSls::VersionHighByte => numbered(right, &[0x0101, 0x0102, 0x0201, 0x0202]),
            NotSls::VersionFfff => numbered(right, &[0xFFFF]),
            NotSls::VersionAny => numbered(right, &[random.between(0x0003, 0xFFFF) as u16]),
        }
    }
}

/// Version 0002's length for that of 0001, and the other way round.
fn other_length(length: usize) -> usize {
    19 + 23 - length
}

/// Of other lengths: cut short, or with zeros or any byte after it.
fn lengths(right: &[u8], lengths: impl IntoIterator<Item = usize>, random: &mut Random) -> Vec<Vec<u8>> {
    let resized = |length| {
        let byte = if random.one_in(2) { 0 } else { random.byte() };
        changed(right, |saved| saved.resize(length, byte))
    };
    lengths.into_iter().map(resized).collect()
}

/// With other versions.
fn numbered(right: &[u8], numbers: &[u16]) -> Vec<Vec<u8>> {
    numbers.iter().map(|&number| changed(right, |saved| versions::set_version(saved, number))).collect()
}

fn changed(right: &[u8], change: impl FnOnce(&mut Vec<u8>)) -> Vec<u8> {
    let mut saved = right.to_vec();
    change(&mut saved);
    saved
}

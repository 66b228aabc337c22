//! The two versions: what W-212 decides on, and images that have CALLR, or its op-code's byte elsewhere.

use crate::generator::Generator;
use crate::met::Meet;
use crate::program::{Case, Program, Routine};
use crate::shape::Shape;
use gate_host::cells::OK;
use gate_host::{Step, Trap};
use gate_twin::{self as twin, slu};

/// The op-code that version 0002 leaves out of the set.
pub const CALLR: u8 = 0xAD;

/// What is to be met of the versions: which a case has, and what comes of it where CALLR is.
#[derive(Clone, Copy)]
pub enum Versions {
    Case0001,
    Case0002,
    Refused0003,
    RefusedExchanged,
    RefusedHighByte,
    RefusedOther,
    AcceptedCallr,
    AcceptedOperand,
    RefusedCallr,
    RefusedLastByte,
    TruncatedLastByte,
    MadeCallr,
    TrappedCallr,
    TrappedLastByte,
    TrappedTruncated,
    TrappedPrecode,
    ChecksAlike,
    ChecksAlikeBefore,
    AcceptedIn0001,
    OtherwiseRefusedIn0001,
    StepsAlike,
    StepsApart,
    RunsAlike,
    RunsStopped,
}

impl Meet for Versions {
    const ALL: &'static [(Versions, &'static str)] = &[
        (Versions::Case0001, "cases of version 0001"),
        (Versions::Case0002, "cases of version 0002"),
        (Versions::Refused0003, "checks refused with 3 for version 0003"),
        (Versions::RefusedExchanged, "checks refused with 3 for version 0100 or 0200"),
        (Versions::RefusedHighByte, "checks refused with 3 for a version whose low byte alone is 01 or 02"),
        (Versions::RefusedOther, "checks refused with 3 for another version"),
        (Versions::AcceptedCallr, "checks that accept CALLR in version 0001"),
        (Versions::AcceptedOperand, "checks that accept AD as an operand in version 0002"),
        (Versions::RefusedCallr, "checks refused with 8 for CALLR in version 0002"),
        (Versions::RefusedLastByte, "checks refused with 8 for AD as a routine's last byte in version 0002"),
        (Versions::TruncatedLastByte, "checks refused with 9 for AD as a routine's last byte in version 0001"),
        (Versions::MadeCallr, "steps that make CALLR in version 0001"),
        (Versions::TrappedCallr, "steps that trap 23 at CALLR in version 0002"),
        (Versions::TrappedLastByte, "steps that trap 23 at AD as the last code byte in version 0002"),
        (Versions::TrappedTruncated, "steps that trap 22 at AD as the last code byte in version 0001"),
        (Versions::TrappedPrecode, "steps that trap 23 at 72 AD or 90 AD in version 0002"),
        (Versions::ChecksAlike, "images without CALLR, checked alike in both versions"),
        (Versions::ChecksAlikeBefore, "images refused alike in both versions before the routine with CALLR"),
        (Versions::AcceptedIn0001, "images accepted in version 0001, or refused with 16, and refused with 8 in 0002"),
        (Versions::OtherwiseRefusedIn0001, "images refused with 6 to 15 in version 0001, and with 8 for CALLR in 0002"),
        (Versions::StepsAlike, "steps alike in both versions"),
        (Versions::StepsApart, "steps at AD that are made or trap 22 or 24 in version 0001, and trap 23 in 0002"),
        (Versions::RunsAlike, "runs alike in both versions"),
        (Versions::RunsStopped, "runs that stop at AD in version 0002, and are the same up to there in 0001"),
    ];

    fn number(self) -> usize {
        self as usize
    }
}

impl Versions {
    /// The version of a case whose image has one of the two.
    pub fn of_case(case: &Case) -> Option<Versions> {
        match version(&case.image)? {
            1 => Some(Versions::Case0001),
            2 => Some(Versions::Case0002),
            _ => None,
        }
    }

    /// What a check that answered so, with these marks, has of it.
    pub fn of_check(image: &[u8], number: u8, offset: u16, marks: &[u16]) -> Option<Versions> {
        if number == 3 {
            return Some(Versions::of_refused(version(image)?));
        }
        let image = twin::Image::parse(image).ok()?;
        let bytes = || image.code.iter().zip(marks).filter(|&(&byte, _)| byte == CALLR);
        let (refused, last) = (image.code[usize::from(offset)], image.routines().any(|(_, end)| end == usize::from(offset) + 1));
        match (image.version, number) {
            (1, OK) if bytes().any(|(_, &mark)| mark != 0) => Some(Versions::AcceptedCallr),
            (2, OK) if bytes().any(|(_, &mark)| mark == 0) => Some(Versions::AcceptedOperand),
            (1, 9) if refused == CALLR => Some(Versions::TruncatedLastByte),
            (2, 8) if refused == CALLR && last => Some(Versions::RefusedLastByte),
            (2, 8) if refused == CALLR => Some(Versions::RefusedCallr),
            _ => None,
        }
    }

    /// A version that is refused with 3.
    fn of_refused(version: u16) -> Versions {
        match version.to_be_bytes() {
            [0, 3] => Versions::Refused0003,
            [1 | 2, 0] => Versions::RefusedExchanged,
            [_, 1 | 2] => Versions::RefusedHighByte,
            _ => Versions::RefusedOther,
        }
    }

    /// What a step at these bytes of the code has of it.
    pub fn of_step(image: &[u8], bytes: &[u8], answer: Step) -> Option<Versions> {
        match (version(image)?, bytes, answer) {
            (1, [CALLR, _, ..], Step::Made { .. }) => Some(Versions::MadeCallr),
            (1, [CALLR], Step::Trapped(Trap::Pc)) => Some(Versions::TrappedTruncated),
            (2, [CALLR, _, ..], Step::Trapped(Trap::Outside)) => Some(Versions::TrappedCallr),
            (2, [CALLR], Step::Trapped(Trap::Outside)) => Some(Versions::TrappedLastByte),
            (2, [0x72 | 0x90, CALLR, ..], Step::Trapped(Trap::Outside)) => Some(Versions::TrappedPrecode),
            _ => None,
        }
    }
}

/// The version that an image says, if it is long enough to say one.
fn version(image: &[u8]) -> Option<u16> {
    let bytes = image.get(3..5)?;
    Some(u16::from_be_bytes([bytes[0], bytes[1]]))
}

/// Puts another version in an image, or in a saved state, which has it at the same place, if it is long enough to say one.
pub fn set_version(file: &mut [u8], version: u16) {
    if let Some(bytes) = file.get_mut(3..5) {
        bytes.copy_from_slice(&version.to_be_bytes());
    }
}

impl Generator<'_> {
    /// Ends a routine with CALLR, which falls off it, or with the op-code alone, which is cut short.
    pub fn last_callr(&mut self, program: &mut Program, routine: &mut Routine) {
        let bytes = [CALLR, self.random.byte()];
        if self.random.one_in(2) {
            routine.add_last(program, &bytes, Shape::CallrFallsOff);
        } else {
            routine.add_last(program, &bytes[..1], Shape::CallrCutShort);
        }
    }

    /// An image of a few instructions that are CALLR, or have the byte AD elsewhere. Each routine ends with RET, with CALLR or
    /// with the op-code alone.
    pub fn relative(&mut self) -> Case {
        let limits = self.limits();
        let mut code = Vec::new();
        let mut lengths = Vec::new();
        for _ in 0..self.random.between(1, 3) {
            let first = code.len();
            for _ in 0..self.random.below(4) {
                let to_first = (code.len() as u8 + 2).wrapping_neg();
                code.extend(self.with_callr_byte(to_first));
            }
            code.extend(self.random.pick(&[&[0x81][..], &[0x81], &[CALLR, 0xFE], &[CALLR]]));
            lengths.push(code.len() - first);
        }
        let base = self.random.pick(&[0x8000, 0x1_0000 - code.len()]) as u16;
        let image = slu::image(self.version, base, &lengths, &code);
        Case { image, limits, marks: code.len(), known: None, shapes: Vec::new() }
    }

    /// CALLR, an instruction that has AD for an operand, or AD after a pre-code, which is outside the set.
    fn with_callr_byte(&mut self, offset: u8) -> Vec<u8> {
        match self.random.below(10) {
            0..=2 => vec![CALLR, offset],
            3 => vec![CALLR, self.random.byte()],
            4 => vec![self.random.pick(&[0x72, 0x90]), CALLR],
            5 => vec![0xA6, CALLR],
            6 => vec![0xC6, CALLR, CALLR],
            7 => vec![0xAE, CALLR, CALLR],
            8 => vec![0x90, 0xA3, CALLR, CALLR],
            _ => vec![0x72, 0x00, CALLR, CALLR, 0x00],
        }
    }

    /// A version that is neither of the two, often one that some bits of it would take for one of them.
    pub fn neither_version(&mut self) -> u16 {
        if self.random.one_in(4) {
            self.random.between(0x0003, 0xFFFF) as u16
        } else {
            self.random.pick(&[0x0000, 0x0003, 0x0003, 0x0100, 0x0200, 0x0101, 0x0102, 0x0201, 0x8002, 0xFFFF])
        }
    }
}

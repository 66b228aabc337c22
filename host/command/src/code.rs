//! The code of an image as the check reads it: each routine from its first byte, instruction after instruction, up to its end.
//!
//! What an instruction is comes from the library's decoder; where it goes, what it pushes and where it stores are read from its text.

use gate_host::{decode, layout, Layout, Refusal, Text};
use std::ops::Range;

/// The op-code that version 0002 leaves out of the set, though loose bytes are decoded by the whole set.
pub const CALLR: u8 = 0xAD;

/// The code of an image whose layout is right.
#[derive(Clone, Debug)]
pub struct Code<'a> {
    pub layout: Layout<'a>,
    /// In table order, main last.
    pub routines: Vec<Routine<'a>>,
}

#[derive(Clone, Debug)]
pub struct Routine<'a> {
    /// Its bytes, as offsets from the first code byte.
    pub range: Range<usize>,
    /// Where its instructions begin, rising.
    pub starts: Vec<Start<'a>>,
    /// What ends the reading before the routine ends.
    pub stuck: Option<Stuck<'a>>,
}

/// An instruction, where it begins.
#[derive(Clone, Copy, Debug)]
pub struct Start<'a> {
    /// From the first code byte.
    pub offset: usize,
    pub address: u16,
    pub bytes: &'a [u8],
    pub text: Text,
    pub flow: Flow,
    /// What it adds to the depth: above 0 what it pushes, below 0 what it pops. Calls and returns leave the depth.
    pub pushed: i32,
    pub store: Option<Store>,
}

/// Bytes that are no instruction of the image's set, up to the end of their routine.
#[derive(Clone, Copy, Debug)]
pub struct Stuck<'a> {
    /// From the first code byte.
    pub offset: usize,
    pub address: u16,
    pub bytes: &'a [u8],
    /// 8 or 9.
    pub refusal: Refusal,
}

/// Where an instruction goes. Targets are addresses, whatever is there.
#[derive(Clone, Copy, Debug, PartialEq, Eq)]
pub enum Flow {
    /// To the next one.
    Falls,
    /// To the target or to the next one.
    Branches(u16),
    /// To the target.
    Jumps(u16),
    /// To the target and, once that has returned, to the next one.
    Calls(u16),
    Returns,
}

/// Where an instruction stores, and how many bytes. What is pushed is no store.
#[derive(Clone, Copy, Debug, PartialEq, Eq)]
pub enum Store {
    Direct {
        address: u16,
        bytes: u16,
    },
    /// At SP plus the offset.
    Stack {
        offset: u8,
        bytes: u16,
    },
}

impl<'a> Code<'a> {
    /// The code of an image, or the refusal 2, 3 or 4.
    pub fn read(image: &'a [u8]) -> Result<Code<'a>, Refusal> {
        let layout = layout(image)?;
        let routines = layout.routines().map(|range| Routine::read(&layout, range)).collect();
        Ok(Code { layout, routines })
    }

    /// The number, from 0, of the routine that a code byte belongs to.
    pub fn routine_of(&self, offset: usize) -> Option<usize> {
        self.routines.iter().position(|routine| routine.range.contains(&offset))
    }

    /// The offset of a code byte by its address.
    pub fn offset(&self, address: u16) -> Option<usize> {
        let offset = usize::from(address.checked_sub(self.layout.base)?);
        (offset < self.layout.code.len()).then_some(offset)
    }

    /// The address of a code byte, which there is.
    pub fn address(&self, offset: usize) -> u16 {
        self.layout.base.wrapping_add(offset as u16)
    }
}

impl<'a> Routine<'a> {
    fn read(layout: &Layout<'a>, range: Range<usize>) -> Routine<'a> {
        let mut routine = Routine { range: range.clone(), starts: Vec::new(), stuck: None };
        let mut offset = range.start;
        while offset < range.end {
            let bytes = &layout.code[offset..range.end];
            let address = layout.base.wrapping_add(offset as u16);
            match Start::read(layout.version, offset, address, bytes) {
                Ok(start) => {
                    offset += start.bytes.len();
                    routine.starts.push(start);
                }
                Err(refusal) => {
                    routine.stuck = Some(Stuck { offset, address, bytes, refusal });
                    break;
                }
            }
        }
        routine
    }

    /// The number of the start at an offset, if one is there.
    pub fn start_at(&self, offset: usize) -> Option<usize> {
        self.starts.binary_search_by_key(&offset, |start| start.offset).ok()
    }

    /// The number of the start whose instruction has a byte at an offset.
    pub fn start_over(&self, offset: usize) -> Option<usize> {
        self.starts.iter().position(|start| (start.offset..start.end()).contains(&offset))
    }
}

impl<'a> Start<'a> {
    fn read(version: u16, offset: usize, address: u16, bytes: &'a [u8]) -> Result<Start<'a>, Refusal> {
        if version == 2 && bytes.first() == Some(&CALLR) {
            return Err(Refusal::Outside);
        }
        let decoded = decode(bytes, address)?;
        let (mnemonic, operands) = split(decoded.text.as_str());
        Ok(Start {
            offset,
            address,
            bytes: &bytes[..decoded.length],
            text: decoded.text,
            flow: flow(mnemonic, operands),
            pushed: pushed(mnemonic, operands),
            store: store(mnemonic, operands),
        })
    }

    /// The offset after it.
    pub fn end(&self) -> usize {
        self.offset + self.bytes.len()
    }
}

impl Flow {
    /// Whether it goes on to the next instruction, after a call too.
    pub fn falls(self) -> bool {
        !matches!(self, Flow::Jumps(_) | Flow::Returns)
    }

    /// The target of a jump, of one that may be taken too.
    pub fn jump(self) -> Option<u16> {
        match self {
            Flow::Branches(target) | Flow::Jumps(target) => Some(target),
            Flow::Falls | Flow::Calls(_) | Flow::Returns => None,
        }
    }

    pub fn call(self) -> Option<u16> {
        match self {
            Flow::Calls(target) => Some(target),
            Flow::Falls | Flow::Branches(_) | Flow::Jumps(_) | Flow::Returns => None,
        }
    }
}

/// A text's mnemonic and operands, such as `BTJT` and `$0010,#0,$8000`.
fn split(text: &str) -> (&str, &str) {
    text.split_once(' ').unwrap_or((text, ""))
}

fn flow(mnemonic: &str, operands: &str) -> Flow {
    let target = || operands.rsplit(',').next().and_then(number).unwrap_or(0);
    match mnemonic {
        "RET" => Flow::Returns,
        "JRA" => Flow::Jumps(target()),
        "CALL" | "CALLR" => Flow::Calls(target()),
        _ if mnemonic.starts_with("JR") || mnemonic.starts_with("BTJ") => Flow::Branches(target()),
        _ => Flow::Falls,
    }
}

fn pushed(mnemonic: &str, operands: &str) -> i32 {
    let bytes = || operands.strip_prefix("SP,#").and_then(number).map_or(0, i32::from);
    match mnemonic {
        "PUSH" => 1,
        "PUSHW" => 2,
        "POP" => -1,
        "POPW" => -2,
        "SUB" => bytes(),
        "ADDW" => -bytes(),
        _ => 0,
    }
}

fn store(mnemonic: &str, operands: &str) -> Option<Store> {
    let bytes = match mnemonic {
        "LDW" => 2,
        "LD" | "MOV" | "POP" | "BSET" | "BRES" | "BCPL" | "BCCM" => 1,
        "INC" | "DEC" | "CLR" | "NEG" | "CPL" | "SWAP" | "SLL" | "SRL" | "SRA" | "RLC" | "RRC" => 1,
        _ => return None,
    };
    // What is stored to comes first in every text.
    match operands.strip_prefix('(').and_then(|place| place.split_once(",SP),")) {
        Some((offset, _)) => Some(Store::Stack { offset: number(offset)? as u8, bytes }),
        None => Some(Store::Direct { address: operands.split(',').next().and_then(number)?, bytes }),
    }
}

/// A number as texts have it, such as `$800F`.
fn number(text: &str) -> Option<u16> {
    u16::from_str_radix(text.strip_prefix('$')?, 16).ok()
}

#[cfg(test)]
#[path = "code_tests.rs"]
mod tests;

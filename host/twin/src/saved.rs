//! W-208 and W-209: registers and steps as a saved state, and running on from one. Written is version 0002, of 23 bytes; version
//! 0001, of 19, is read as well.

use crate::check::check;
use crate::image::Image;
use crate::machine::{lent, run};
use gate_host::{Ending, Limits, Refusal, Refused, Registers, SAVED_BYTES};
use std::collections::HashMap;

/// The version that is written.
const WRITTEN: u16 = 0x0002;
/// The bytes before the steps, which all versions have alike: mark, version and registers.
const HEAD_BYTES: usize = 15;
/// The most steps that a resumed run comes to in all.
const CEILING: u64 = u64::MAX;

/// What a resumed run comes to.
#[derive(Clone, Copy, Debug, PartialEq, Eq)]
pub struct Resumed {
    pub ending: Ending,
    pub registers: Registers,
    /// The saved state's and those made now.
    pub steps: u64,
    /// Those of the steps made now.
    pub cycles: u64,
}

/// Saves registers and steps. 35 where PC has no room.
pub fn save(registers: &Registers, steps: u64) -> Result<[u8; SAVED_BYTES], Refusal> {
    let Registers { a, x, y, cc, sp, pc } = *registers;
    let Ok(pc) = u16::try_from(pc) else { return Err(Refusal::NotGood) };
    let words = |words: [u16; 2]| words.map(u16::to_be_bytes).concat();
    let parts = [b"SLS", &WRITTEN.to_be_bytes()[..], &words([pc, sp]), &[a], &words([x, y]), &[cc], &steps.to_be_bytes()];
    let mut saved = [0; SAVED_BYTES];
    saved.copy_from_slice(&parts.concat());
    Ok(saved)
}

/// The bytes of the steps in a version, if it is one of a saved state.
fn step_bytes(version: u16) -> Option<usize> {
    match version {
        0x0001 => Some(4),
        0x0002 => Some(8),
        _ => None,
    }
}

/// Registers and steps of a saved state of either version, or 34.
fn read(saved: &[u8]) -> Result<(Registers, u64), Refusal> {
    let (head, steps) = saved.split_first_chunk::<HEAD_BYTES>().ok_or(Refusal::NotSls)?;
    let word = |at: usize| u16::from_be_bytes([head[at], head[at + 1]]);
    if !head.starts_with(b"SLS") || step_bytes(word(3)) != Some(steps.len()) {
        return Err(Refusal::NotSls);
    }
    let registers = Registers { pc: word(5).into(), sp: word(7), a: head[9], x: word(10), y: word(12), cc: head[14] };
    Ok((registers, steps.iter().fold(0, |sum, &byte| sum << 8 | u64::from(byte))))
}

/// Runs on from a saved state: 17, the whole check, 34 and 35 are tested before.
pub fn resume(
    file: &[u8],
    limits: &Limits,
    marks: &mut [u16],
    memory: &mut [u8],
    saved: &[u8],
    budget: u32,
) -> Result<Resumed, Refused> {
    lent(memory)?;
    check(file, limits, marks)?;
    let (mut registers, before) = read(saved)?;
    let image = Image::parse(file)?;
    // The marks past the code are the caller's.
    let frames = Frames { image, depths: &marks[..image.code.len()], memory, top: limits.stack.high };
    if !frames.good(&registers) {
        return Err(Refusal::NotGood.into());
    }
    // Never more than the budget, so 32 bits hold it.
    let left = u64::from(budget).min(CEILING - before) as u32;
    let run = run(file, limits, memory, &mut registers, left)?;
    Ok(Resumed { ending: run.ending, registers, steps: before + u64::from(run.steps), cycles: run.cycles })
}

/// An accepted image, and the stack whose frames are looked at.
struct Frames<'a> {
    image: Image<'a>,
    /// The marks of the code: depth + 1 at each start, else 0.
    depths: &'a [u16],
    memory: &'a [u8],
    /// Stack high.
    top: u16,
}

/// A routine, by the address of its first byte, and how many bytes it has on the stack.
#[derive(Clone, Copy)]
struct Place {
    routine: u32,
    depth: u16,
}

impl Frames<'_> {
    /// Whether main has returned; or PC is at a start, and the stack has the way back from there to main, and main's 00 00 at its
    /// very top.
    fn good(&self, registers: &Registers) -> bool {
        if registers.pc == 0 {
            return registers.sp == self.top;
        }
        let Some(mut place) = self.place(registers.pc) else { return false };
        let (calls, main) = (self.calls(), self.image.base + self.image.main() as u32);
        // Who calls stands later in the table than who is called, so this comes to main.
        let mut below = u32::from(registers.sp);
        loop {
            let low_byte = below + u32::from(place.depth) + 2;
            if low_byte > self.top.into() {
                return false;
            }
            let address = self.word(low_byte as usize - 1);
            if place.routine == main {
                return address == 0 && low_byte == self.top.into();
            }
            match calls.get(&address) {
                Some(&(callee, caller)) if callee == place.routine => place = caller,
                _ => return false,
            }
            below = low_byte;
        }
    }

    /// The place of a start.
    fn place(&self, address: u32) -> Option<Place> {
        let at = address.checked_sub(self.image.base)? as usize;
        let depth = self.depths.get(at)?.checked_sub(1)?;
        let (first, _) = self.image.routines().find(|&(_, end)| at < end)?;
        Some(Place { routine: self.image.base + first as u32, depth })
    }

    /// The calls of the image by the address after each: the routine that is called, and where from.
    fn calls(&self) -> HashMap<u16, (u32, Place)> {
        let Image { base, code, .. } = self.image;
        let call = |at: usize| {
            let caller = self.place(base + at as u32)?;
            let (instruction, length) = self.image.decode(&code[at..]).ok()?;
            let next = base + (at + length) as u32;
            let callee = instruction.call_address(next as i32)?;
            Some((next as u16, (callee as u32, caller)))
        };
        (0..code.len()).filter_map(call).collect()
    }

    fn word(&self, at: usize) -> u16 {
        u16::from_be_bytes([self.memory[at], self.memory[at + 1]])
    }
}

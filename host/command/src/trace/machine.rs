//! The routine as it runs, forth and back.

use super::begin::{Begun, How};
use gate_host::{decode, save, step, step_back, Layout, Limits, Record, Refusal, Registers, SavedState, Step, Text, TEXT_BYTES};
use std::collections::VecDeque;

/// The largest total of steps: a saved state holds no more, and a resumed run is spent there.
pub const MOST_STEPS: u64 = u64::MAX;

/// The steps made so far, those gone back over taken off.
#[derive(Clone, Copy, Debug)]
pub struct Totals {
    /// Since the start, those before the saved state too.
    pub steps: u64,
    /// Those of this trace alone.
    pub cycles: u64,
    /// The steps of the saved state, where the trace is resumed from one.
    pub resumed: Option<u64>,
}

impl Totals {
    /// The steps of this trace alone.
    pub fn made(&self) -> u64 {
        self.steps - self.resumed.unwrap_or(0)
    }
}

/// A step, or the way back over one.
pub struct Move {
    /// The instruction's.
    pub address: u32,
    pub text: Text,
    pub from: Registers,
    pub to: Registers,
    /// The bytes that the step overwrote, or that going back restored.
    pub bytes: Vec<Byte>,
    pub cycles: u64,
    /// Those after it.
    pub totals: Totals,
}

pub struct Byte {
    pub address: u32,
    pub before: u8,
    pub after: u8,
}

/// What it takes to go back over a step.
struct Past {
    record: Record,
    cycles: u64,
}

pub struct Machine<'a> {
    image: &'a [u8],
    limits: &'a Limits,
    layout: Layout<'a>,
    memory: Vec<u8>,
    pub registers: Registers,
    pub totals: Totals,
    past: VecDeque<Past>,
    /// How many steps can be gone back over: older ones are forgotten, for a routine may never end.
    kept: u64,
}

impl<'a> Machine<'a> {
    /// One as a start or a saved state has it.
    pub fn new(
        image: &'a [u8],
        limits: &'a Limits,
        layout: Layout<'a>,
        memory: Vec<u8>,
        begun: &Begun,
        kept: u64,
    ) -> Machine<'a> {
        let resumed = match begun.how {
            How::Started(_) => None,
            How::Resumed(steps) => Some(steps),
        };
        let totals = Totals { steps: resumed.unwrap_or(0), cycles: 0, resumed };
        Machine { image, limits, layout, memory, registers: begun.registers, totals, past: VecDeque::new(), kept }
    }

    pub fn memory(&self) -> &[u8] {
        &self.memory
    }

    /// Where it stands, as a saved state.
    pub fn saved(&self) -> Result<SavedState, Refusal> {
        save(&self.registers, self.totals.steps)
    }

    /// Makes a step, or gives the library's answer in words where it makes none.
    pub fn step(&mut self) -> Result<Move, String> {
        let text = self.text(self.registers.pc);
        let (answer, record) = step(self.image, self.limits, &mut self.memory, &mut self.registers);
        let cycles = match answer {
            Ok(Step::Made { cycles }) => cycles,
            Ok(Step::Trapped(trap)) => return Err(trap.to_string()),
            Ok(Step::Finished) => return Err(gate_host::number_text(gate_host::cells::FINISHED).into()),
            Err(refusal) => return Err(refusal.to_string()),
        };
        self.totals.steps += 1;
        self.totals.cycles += cycles;
        let bytes = overwritten(&record).map(|(address, before)| Byte { address, before, after: self.byte(address) }).collect();
        self.keep(Past { record, cycles });
        let (from, to, totals) = (record.registers, self.registers, self.totals);
        Ok(Move { address: from.pc, text, from, to, bytes, cycles, totals })
    }

    /// Goes back over the last step that is kept, if one is. The record of a step that was made is never refused.
    pub fn back(&mut self) -> Option<Move> {
        let Past { record, cycles } = self.past.pop_back()?;
        let from = self.registers;
        let mut bytes: Vec<Byte> =
            overwritten(&record).map(|(address, _)| Byte { address, before: self.byte(address), after: 0 }).collect();
        step_back(&record, &mut self.memory, &mut self.registers).ok()?;
        for byte in &mut bytes {
            byte.after = self.byte(byte.address);
        }
        self.totals.steps -= 1;
        self.totals.cycles -= cycles;
        let to = self.registers;
        Some(Move { address: to.pc, text: self.text(to.pc), from, to, bytes, cycles, totals: self.totals })
    }

    fn keep(&mut self, past: Past) {
        if self.kept > 0 {
            if self.past.len() as u64 == self.kept {
                self.past.pop_front();
            }
            self.past.push_back(past);
        }
    }

    /// The text of the instruction at an address; none where there is no instruction.
    fn text(&self, address: u32) -> Text {
        let offset = address.checked_sub(self.layout.base.into()).map(|offset| offset as usize);
        let bytes = offset.and_then(|offset| self.layout.code.get(offset..)).unwrap_or(&[]);
        decode(bytes, address as u16).map_or(Text([0; TEXT_BYTES]), |decoded| decoded.text)
    }

    fn byte(&self, address: u32) -> u8 {
        self.memory.get(address as usize).copied().unwrap_or(0)
    }
}

/// Address and value before of each byte that a step overwrote.
fn overwritten(record: &Record) -> impl Iterator<Item = (u32, u8)> + '_ {
    record.bytes.iter().take(record.count as usize).map(|byte| (byte.address, byte.value))
}

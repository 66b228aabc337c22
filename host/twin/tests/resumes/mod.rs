//! Saving and resuming, by the library and by the twin, with one answer for both.

use gate_host::{cells, Ending, Limits, Refused, Registers, SAVED_BYTES};
use gate_twin::{self as twin, Resumed};

/// What saving leaves: the number, and the bytes.
pub type Saved = (u8, [u8; SAVED_BYTES]);

/// What resuming leaves but for marks and memory.
#[derive(Clone, Copy, Debug, PartialEq, Eq)]
pub struct Answer {
    pub number: u8,
    pub offset: u16,
    pub registers: Registers,
    /// The saved state's and those made now.
    pub steps: u64,
    pub cycles: u64,
}

pub fn library_save(registers: &Registers, steps: u64) -> Saved {
    let mut saved = [0xA5; SAVED_BYTES];
    let number = cells::save(&registers.to_cells(), steps, &mut saved);
    (number, saved)
}

pub fn twin_save(registers: &Registers, steps: u64) -> Saved {
    match twin::save(registers, steps) {
        Ok(saved) => (cells::OK, saved),
        Err(refusal) => (refusal.number(), [0; SAVED_BYTES]),
    }
}

pub fn library_resume(image: &[u8], limits: &Limits, marks: &mut [u16], memory: &mut [u8], saved: &[u8], budget: u32) -> Answer {
    let (mut registers, mut steps, mut cycles, mut offset) = ([0xA5A5_A5A5; 6], [0xA5A5], [0xA5A5], [0xA5A5]);
    let number = cells::resume(image, limits, marks, memory, saved, budget, &mut registers, &mut steps, &mut cycles, &mut offset);
    let registers = Registers::from_cells(&registers);
    Answer { number, offset: offset[0], registers, steps: steps[0], cycles: cycles[0] }
}

pub fn twin_resume(image: &[u8], limits: &Limits, marks: &mut [u16], memory: &mut [u8], saved: &[u8], budget: u32) -> Answer {
    match twin::resume(image, limits, marks, memory, saved, budget) {
        Ok(Resumed { ending, registers, steps, cycles }) => {
            let number = match ending {
                Ending::Finished => cells::FINISHED,
                Ending::Spent => cells::SPENT,
                Ending::Trapped(trap) => trap.number(),
            };
            Answer { number, offset: 0, registers, steps, cycles }
        }
        Err(Refused { refusal, offset }) => {
            Answer { number: refusal.number(), offset, registers: Registers::default(), steps: 0, cycles: 0 }
        }
    }
}

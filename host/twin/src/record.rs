//! W-201: what a step overwrites, and giving it back.

use crate::machine::lent;
use gate_host::{Overwritten, Record, Refusal, Registers, MEMORY_BYTES};

/// Who is told of bytes just before they are overwritten.
pub trait Witness {
    fn overwritten(&mut self, address: usize, bytes: &[u8]);
}

/// A run makes no records, and so spends no time on them.
impl Witness for () {
    #[inline]
    fn overwritten(&mut self, _: usize, _: &[u8]) {}
}

impl Witness for &mut Record {
    #[inline]
    fn overwritten(&mut self, address: usize, bytes: &[u8]) {
        for (address, &value) in (address as u32..).zip(bytes) {
            self.bytes[self.count as usize] = Overwritten { address, value };
            self.count += 1;
        }
    }
}

/// Steps back by a record. 17 and then 26 are tested before the first byte is written; registers are the record's all the same.
pub fn step_back(record: &Record, memory: &mut [u8], registers: &mut Registers) -> Result<(), Refusal> {
    *registers = record.registers;
    let memory = lent(memory)?;
    let counted = record.bytes.get(..record.count as usize).ok_or(Refusal::Record)?;
    if counted.iter().any(|byte| byte.address as usize >= MEMORY_BYTES) {
        return Err(Refusal::Record);
    }
    for byte in counted {
        memory[byte.address as usize] = byte.value;
    }
    Ok(())
}

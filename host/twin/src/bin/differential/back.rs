//! Stepping back, by the library and by the twin: over every step, over lists of steps, and by records made by hand.

use crate::compare::{as_expected, same, Compared, Stepped, Tally};
use crate::memories::{Memories, BLANK};
use crate::records::Records;
use gate_host::cells::{self, RecordCells, RegisterCells, OK};
use gate_host::{Record, Registers, MEMORY_BYTES};
use gate_twin as twin;

/// A step that is to be undone: the registers before it, as they were given, and what it answered.
pub struct Undo {
    pub given: RegisterCells,
    pub step: Stepped,
}

impl Undo {
    /// Steps back over the step: that is refused only where the step was refused with 17, and gives the registers before it.
    pub fn undo(&self, memories: &mut Memories, lent: usize, tally: &mut Tally) -> Compared<()> {
        let answer = step_back(&self.step.record, memories, lent, tally)?;
        let expected = if self.step.number == 17 { 17 } else { OK };
        let before = Registers::from_cells(&self.given).to_cells();
        as_expected("step back over a step: number, registers", &(expected, before), &answer)
    }
}

/// Steps back by a record, and gives the number and the registers that both answered.
fn step_back(record: &RecordCells, memories: &mut Memories, lent: usize, tally: &mut Tally) -> Compared<(u8, RegisterCells)> {
    let mut registers = [u32::from_ne_bytes([BLANK; 4]); 6];
    let mut twin_registers = Registers::from_cells(&registers);
    let number = cells::step_back(record, &mut memories.library[..lent], &mut registers);
    let answer = twin::step_back(&Record::from_cells(record), &mut memories.twin[..lent], &mut twin_registers);
    let expected = (answer.map_or_else(|refusal| refusal.number(), |()| OK), twin_registers.to_cells());
    same("step back: number, registers", &(number, registers), &expected)?;
    tally.step_back.add(number);
    Ok((number, registers))
}

/// Steps back over steps, the last one first, to the registers before each and to the memory before all of them.
pub fn list(steps: &[Undo], before: Vec<u8>, memories: &mut Memories, tally: &mut Tally) -> Compared<()> {
    for step in steps.iter().rev() {
        step.undo(memories, MEMORY_BYTES, tally)?;
    }
    memories.come_back(before)?;
    tally.records.note((steps.len() >= 2).then_some(Records::List));
    Ok(())
}

/// Steps back by a record made by hand, which writes what it says or is refused and writes nothing.
pub fn by_hand(record: &RecordCells, memories: &mut Memories, lent: usize, tally: &mut Tally) -> Compared<()> {
    let (number, _) = step_back(record, memories, lent, tally)?;
    tally.records.note(Records::by_hand(record, number));
    if number == OK {
        memories.write(record);
    }
    memories.same()?;
    memories.as_told()
}

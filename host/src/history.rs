//! Stepping back over more than one step.

use crate::types::{Limits, Record, Refusal, Registers, Step};

/// The records of the steps made so far, so that a panel can go back over them, the last one first.
///
/// Between a step and the step back over it nothing but steps and steps back through this history may write the memory. Where
/// something else does, such as a run or a start, which make no records, [`History::clear`] it: to go back would mix bytes of two
/// times. Registers may be changed, for going back restores all of them.
#[derive(Clone, Debug, Default, PartialEq, Eq)]
pub struct History {
    records: Vec<Record>,
}

impl History {
    /// One without a step.
    ///
    /// ```
    /// assert!(gate_host::History::new().is_empty());
    /// ```
    pub const fn new() -> History {
        History { records: Vec::new() }
    }

    /// Makes one step as [`crate::step`] does, and keeps its record if it was made. One that was not made changed nothing, so there is
    /// nothing to go back over.
    ///
    /// ```
    /// # use gate_host::{Area, History, Limits, Registers, Step, MEMORY_BYTES};
    /// # let area = |low, high| Area { low, high };
    /// # let limits = Limits { grant: area(0x0000, 0x00FF), stack: area(0x0300, 0x03FF), second: Area::NONE };
    /// # let image = b"SLU\x00\x01\x80\x00\x01\x00\x05\xA6\x05\xB7\x10\x81";
    /// # let (mut memory, mut history) = (vec![0; MEMORY_BYTES], History::new());
    /// # let mut registers = Registers { sp: 0x03FD, pc: 0x8000, ..Registers::default() };
    /// assert_eq!(history.step(image, &limits, &mut memory, &mut registers)?, Step::Made { cycles: 1 });
    /// assert_eq!((registers.a, registers.pc, history.len()), (0x05, 0x8002, 1));
    /// # Ok::<(), gate_host::Refusal>(())
    /// ```
    pub fn step(&mut self, image: &[u8], limits: &Limits, memory: &mut [u8], registers: &mut Registers) -> Result<Step, Refusal> {
        let (answer, record) = crate::step(image, limits, memory, registers);
        if matches!(answer, Ok(Step::Made { .. })) {
            self.records.push(record);
        }
        answer
    }

    /// Goes back over the last step that is left, and says whether there was one. If none was, registers and memory stay as they are.
    ///
    /// Refused with 17, it is still the last one, and registers are already those before it: the same call with the right memory
    /// goes back.
    ///
    /// ```
    /// # use gate_host::{Area, History, Limits, Registers, Step, MEMORY_BYTES};
    /// # let area = |low, high| Area { low, high };
    /// # let limits = Limits { grant: area(0x0000, 0x00FF), stack: area(0x0300, 0x03FF), second: Area::NONE };
    /// # let image = b"SLU\x00\x01\x80\x00\x01\x00\x05\xA6\x05\xB7\x10\x81";
    /// # let (mut memory, mut history) = (vec![0; MEMORY_BYTES], History::new());
    /// # let mut registers = Registers { sp: 0x03FD, pc: 0x8000, ..Registers::default() };
    /// for _ in 0..3 {
    ///     history.step(image, &limits, &mut memory, &mut registers)?;
    /// }
    /// assert_eq!((registers.pc, memory[0x0010]), (0, 0x05)); // finished
    /// while history.step_back(&mut memory, &mut registers)? {}
    /// assert_eq!((registers.pc, memory[0x0010]), (0x8000, 0x00));
    /// # Ok::<(), gate_host::Refusal>(())
    /// ```
    pub fn step_back(&mut self, memory: &mut [u8], registers: &mut Registers) -> Result<bool, Refusal> {
        let Some(last) = self.records.last() else { return Ok(false) };
        crate::step_back(last, memory, registers)?;
        self.records.pop();
        Ok(true)
    }

    /// How many steps can be gone back over.
    ///
    /// ```
    /// assert_eq!(gate_host::History::new().len(), 0);
    /// ```
    pub fn len(&self) -> usize {
        self.records.len()
    }

    /// Whether there is no step to go back over.
    ///
    /// ```
    /// # use gate_host::{Area, History, Limits, Registers, Step, MEMORY_BYTES};
    /// # let area = |low, high| Area { low, high };
    /// # let limits = Limits { grant: area(0x0000, 0x00FF), stack: area(0x0300, 0x03FF), second: Area::NONE };
    /// # let image = b"SLU\x00\x01\x80\x00\x01\x00\x05\xA6\x05\xB7\x10\x81";
    /// # let (mut memory, mut history) = (vec![0; MEMORY_BYTES], History::new());
    /// # let mut registers = Registers { sp: 0x03FD, pc: 0x8000, ..Registers::default() };
    /// history.step(image, &limits, &mut memory, &mut registers)?;
    /// assert!(!history.is_empty());
    /// # Ok::<(), gate_host::Refusal>(())
    /// ```
    pub fn is_empty(&self) -> bool {
        self.records.is_empty()
    }

    /// Forgets every step, as is due after a run or a start.
    ///
    /// ```
    /// # use gate_host::{Area, History, Limits, Registers, Step, MEMORY_BYTES};
    /// # let area = |low, high| Area { low, high };
    /// # let limits = Limits { grant: area(0x0000, 0x00FF), stack: area(0x0300, 0x03FF), second: Area::NONE };
    /// # let image = b"SLU\x00\x01\x80\x00\x01\x00\x05\xA6\x05\xB7\x10\x81";
    /// # let (mut memory, mut history) = (vec![0; MEMORY_BYTES], History::new());
    /// # let mut registers = Registers { sp: 0x03FD, pc: 0x8000, ..Registers::default() };
    /// history.step(image, &limits, &mut memory, &mut registers)?;
    /// gate_host::run(image, &limits, &mut memory, &mut registers, 100)?;
    /// history.clear();
    /// assert_eq!(history.step_back(&mut memory, &mut registers), Ok(false));
    /// # Ok::<(), gate_host::Refusal>(())
    /// ```
    pub fn clear(&mut self) {
        self.records.clear();
    }
}

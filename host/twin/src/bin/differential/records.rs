//! Records: what W-201 decides on, and records made by hand.

use crate::compare::Stepped;
use crate::generator::Generator;
use crate::memories::Memories;
use crate::met::{that_hold, Meet};
use gate_host::cells::{RecordCells, FINISHED, OK};
use gate_host::{Record, MEMORY_BYTES};

/// What is to be met of the records: those of steps, and what comes of those made by hand.
#[derive(Clone, Copy)]
pub enum Records {
    OfNoByte,
    OfOneByte,
    OfTwoBytes,
    NothingChanged,
    OneOfTwoChanged,
    OfFinished,
    OfTrapped,
    OfRefused,
    List,
    WroteNone,
    WroteOne,
    WroteTwo,
    At7FFF,
    HigherFirst,
    OneAddress,
    UnusedAbove7FFF,
    WideValue,
    WideRegister,
    Memory,
    MemoryFirst,
    Count,
    CountAbove16Bits,
    FirstAddress,
    SecondAddress,
    AddressAbove16Bits,
}

impl Meet for Records {
    const ALL: &'static [(Records, &'static str)] = &[
        (Records::OfNoByte, "records of made steps, of no byte"),
        (Records::OfOneByte, "records of made steps, of one byte"),
        (Records::OfTwoBytes, "records of made steps, of two bytes, the lower address first"),
        (Records::NothingChanged, "records of made steps, of bytes whose values did not change"),
        (Records::OneOfTwoChanged, "records of made steps, of two bytes of which one changed"),
        (Records::OfFinished, "records of finished steps"),
        (Records::OfTrapped, "records of trapped steps"),
        (Records::OfRefused, "records of refused steps"),
        (Records::List, "lists of two steps and more, undone from the last one"),
        (Records::WroteNone, "records by hand that write no byte"),
        (Records::WroteOne, "records by hand that write one byte"),
        (Records::WroteTwo, "records by hand that write two bytes"),
        (Records::At7FFF, "records by hand that write at 7FFF"),
        (Records::HigherFirst, "records by hand that write the higher address first"),
        (Records::OneAddress, "records by hand that write two values at one address"),
        (Records::UnusedAbove7FFF, "records by hand with an unused address above 7FFF, not refused"),
        (Records::WideValue, "records by hand that write a value above 255 by its low 8 bits"),
        (Records::WideRegister, "records by hand with a register above its width"),
        (Records::Memory, "records refused with 17"),
        (Records::MemoryFirst, "records refused with 17 that have a reason for 26"),
        (Records::Count, "records refused with 26 for their count"),
        (Records::CountAbove16Bits, "records refused with 26 for a count that is at most 2 in 8 or 16 bits"),
        (Records::FirstAddress, "records refused with 26 for the first address"),
        (Records::SecondAddress, "records refused with 26 for the second address alone"),
        (Records::AddressAbove16Bits, "records refused with 26 for an address that is at most 7FFF in 16 bits"),
    ];

    fn number(self) -> usize {
        self as usize
    }
}

impl Records {
    /// What the record of a step has of it, with the memory after the step.
    pub fn of_step(step: &Stepped, memories: &Memories) -> impl Iterator<Item = Records> {
        let Record { count, bytes, .. } = Record::from_cells(&step.record);
        let changed = |number: usize| memories.library[bytes[number].address as usize] != bytes[number].value;
        let [kind, change] = match (step.number, count) {
            (OK, 0) => [Some(Records::OfNoByte), None],
            (OK, 1) => [Some(Records::OfOneByte), (!changed(0)).then_some(Records::NothingChanged)],
            (OK, 2) if bytes[0].address < bytes[1].address => [
                Some(Records::OfTwoBytes),
                match (changed(0), changed(1)) {
                    (false, false) => Some(Records::NothingChanged),
                    (true, true) => None,
                    _ => Some(Records::OneOfTwoChanged),
                },
            ],
            (FINISHED, 0) => [Some(Records::OfFinished), None],
            (21..=25, 0) => [Some(Records::OfTrapped), None],
            (1..=17, 0) => [Some(Records::OfRefused), None],
            _ => [None, None],
        };
        kind.into_iter().chain(change)
    }

    /// What a record made by hand that was answered so has of it.
    pub fn by_hand(cells: &RecordCells, number: u8) -> impl Iterator<Item = Records> {
        let record = Record::from_cells(cells);
        let Record { count, bytes: [first, second], .. } = record;
        let [above, second_above] = [first, second].map(|byte| byte.address > 0x7FFF);
        let counted = |number: u32| number < count;
        let bad = count > 2 || counted(0) && above || counted(1) && second_above;
        let two = number == OK && count == 2;
        let low = |address: u32| address > 0xFFFF && address as u16 <= 0x7FFF;
        let wide = |number: usize| counted(number as u32) && cells.bytes[number][1] > 0xFF;
        that_hold([
            (Records::WroteNone, number == OK && count == 0),
            (Records::WroteOne, number == OK && count == 1),
            (Records::WroteTwo, two),
            (Records::At7FFF, number == OK && (counted(0) && first.address == 0x7FFF || counted(1) && second.address == 0x7FFF)),
            (Records::HigherFirst, two && first.address > second.address),
            (Records::OneAddress, two && first.address == second.address && first.value != second.value),
            (Records::UnusedAbove7FFF, number == OK && (!counted(0) && above || !counted(1) && second_above)),
            (Records::WideValue, number == OK && (wide(0) || wide(1))),
            (Records::WideRegister, record.registers.to_cells() != cells.registers),
            (Records::Memory, number == 17),
            (Records::MemoryFirst, number == 17 && bad),
            (Records::Count, number == 26 && count > 2),
            (Records::CountAbove16Bits, number == 26 && count > 2 && (count as u8 <= 2 || count as u16 <= 2)),
            (Records::FirstAddress, number == 26 && matches!(count, 1 | 2) && above),
            (Records::SecondAddress, number == 26 && count == 2 && !above && second_above),
            (Records::AddressAbove16Bits, number == 26 && count == 1 && low(first.address)),
        ])
    }
}

impl Generator<'_> {
    /// A record made by hand: that of a step or one of any cells, and often some of its cells changed.
    pub fn record(&mut self, of_step: RecordCells) -> RecordCells {
        let mut record = if self.random.one_in(2) { of_step } else { self.any_record() };
        for _ in 0..self.random.below(4) {
            self.damage_record(&mut record);
        }
        record
    }

    fn any_record(&mut self) -> RecordCells {
        let bytes = [0, 1].map(|_| [self.record_address(), self.random.byte().into()]);
        RecordCells { registers: [0; 6].map(|_: u32| self.random.next() as u32), count: self.random.pick(&[0, 1, 2, 2]), bytes }
    }

    fn damage_record(&mut self, record: &mut RecordCells) {
        let number = self.random.below(2);
        match self.random.below(6) {
            0 => record.count = self.record_count(),
            1 => record.count = self.random.pick(&[1, 2]),
            2 => record.bytes[number][0] = self.record_address(),
            3 => record.bytes[number][0] = record.bytes[1 - number][0],
            4 => record.bytes[number][1] = self.random.next() as u32,
            _ => record.registers[self.random.below(6)] = self.random.next() as u32,
        }
    }

    /// A count, often one that some bits of it would take for one of two at most.
    fn record_count(&mut self) -> u32 {
        let counts = [0, 1, 2, 3, 3, 4, 255, 256, 257, 258, 0x1_0000, 0x1_0001, 0x1_0002, 0x8000_0002, u32::MAX];
        self.random.pick(&counts)
    }

    /// An address, often beside the last of the memory, or one that 16 bits would take for one of it.
    fn record_address(&mut self) -> u32 {
        let borders =
            [0x0000, 0x7FFE, 0x7FFF, 0x7FFF, 0x8000, 0x8001, 0xFFFF, 0x1_0000, 0x1_0001, 0x1_7FFF, 0x8000_0000, u32::MAX];
        match self.random.below(6) {
            0 => self.random.next() as u32,
            1..=2 => self.random.pick(&borders),
            _ => self.random.below(MEMORY_BYTES) as u32,
        }
    }
}

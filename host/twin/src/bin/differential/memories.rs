//! The memory as the library has it, as the twin has it, and as the records tell it.

use crate::compare::{as_expected, same_cells, Compared};
use crate::random::Random;
use gate_host::cells::RecordCells;
use gate_host::{Overwritten, Record, MEMORY_BYTES};

/// Contents of a lent cell before a call, to see whether it was written.
pub const BLANK: u8 = 0xA5;

/// The memory three times. The three are equal between calls.
#[derive(Clone)]
pub struct Memories {
    pub library: Vec<u8>,
    pub twin: Vec<u8>,
    /// It follows a step at the bytes of its record alone, so it differs from then on where a step writes a byte that it does not list.
    told: Vec<u8>,
}

impl Memories {
    /// More than is ever rightly lent: its size and the right one are alike in 16 bits.
    pub const CELLS: usize = MEMORY_BYTES + 0x1_0000;

    pub fn new(random: &mut Random) -> Memories {
        let mut memory = vec![BLANK; Memories::CELLS];
        random.fill(&mut memory[..MEMORY_BYTES]);
        Memories { told: memory[..MEMORY_BYTES].to_vec(), library: memory.clone(), twin: memory }
    }

    /// All that is rightly lent, and a little more, is the same in library and twin.
    pub fn same(&self) -> Compared<()> {
        let most = MEMORY_BYTES + 8;
        same_cells("memory at", &self.library[..most], &self.twin[..most])
    }

    pub fn same_everywhere(&self) -> Compared<()> {
        same_cells("memory at", &self.library, &self.twin)
    }

    /// Every byte is as it is told: what steps left is what their records say. The twin's bytes are left to `same`.
    pub fn as_told(&self) -> Compared<()> {
        as_before("library", &self.library, &self.told)
    }

    /// Two memories are the same in the library, and so in the twin too.
    pub fn is_same_as(&self, other: &Memories) -> bool {
        self.library[..MEMORY_BYTES] == other.library[..MEMORY_BYTES]
    }

    /// What a record says that a step overwrote is what the memory held before it, and what library and twin hold after stepping
    /// back.
    pub fn has_back(&self, record: &RecordCells) -> Compared<()> {
        for Overwritten { address, value } in counted(record) {
            let at = address as usize;
            as_expected("the byte of a record: its address and value", &(address, self.told[at]), &(address, value))?;
            as_expected("step back: a byte of the library", &(address, value), &(address, self.library[at]))?;
            as_expected("step back: a byte of the twin", &(address, value), &(address, self.twin[at]))?;
        }
        Ok(())
    }

    /// Takes over what a step wrote to the bytes of its record.
    pub fn follow(&mut self, record: &RecordCells) {
        for Overwritten { address, .. } in counted(record) {
            self.told[address as usize] = self.library[address as usize];
        }
    }

    /// Writes what a record says, in its order.
    pub fn write(&mut self, record: &RecordCells) {
        for Overwritten { address, value } in counted(record) {
            self.told[address as usize] = value;
        }
    }

    /// Takes over all that a start or a run wrote, for these make no records.
    pub fn follow_all(&mut self) {
        self.told.copy_from_slice(&self.library[..MEMORY_BYTES]);
    }

    /// Others write two bytes.
    pub fn put(&mut self, address: u16, bytes: [u8; 2]) {
        let at = usize::from(address);
        for memory in [&mut self.library, &mut self.twin, &mut self.told] {
            memory[at..at + 2].copy_from_slice(&bytes);
        }
    }

    /// Two bytes as they are.
    pub fn get(&self, address: u16) -> [u8; 2] {
        let at = usize::from(address);
        [self.library[at], self.library[at + 1]]
    }

    /// The memory as it is now.
    pub fn kept(&self) -> Vec<u8> {
        self.told.clone()
    }

    /// Library and twin have come back to every byte that was kept.
    pub fn come_back(&mut self, kept: Vec<u8>) -> Compared<()> {
        as_before("library", &self.library, &kept)?;
        as_before("twin", &self.twin, &kept)?;
        self.told = kept;
        Ok(())
    }
}

fn as_before(whose: &str, memory: &[u8], before: &[u8]) -> Compared<()> {
    let memory = &memory[..MEMORY_BYTES];
    if memory == before {
        return Ok(());
    }
    let at = memory.iter().zip(before).position(|(now, then)| now != then).unwrap_or(0);
    as_expected(&format!("memory of the {whose} at {at:04X}"), &before[at], &memory[at])
}

/// The bytes that a record of at most two counts.
fn counted(record: &RecordCells) -> impl Iterator<Item = Overwritten> {
    let Record { count, bytes, .. } = Record::from_cells(record);
    bytes.into_iter().take(count as usize)
}

//! Saving and resuming, by the library and by the twin: every cell compared.

use crate::compare::{as_expected, same, same_cells, Compared, Tally};
use crate::memories::{Memories, BLANK};
use crate::program::Case;
use crate::resumes::Resumes;
use crate::totals::Totals;
use gate_host::cells::{self, RegisterCells, OK};
use gate_host::{Ending, Refused, Registers, SAVED_BYTES};
use gate_twin as twin;

pub type SavedCells = [u8; SAVED_BYTES];

/// Where the steps begin, in either version.
pub const STEPS_AT: usize = 15;

const BLANK_LONG: u64 = u64::from_ne_bytes([BLANK; 8]);

/// Saves registers and steps, and gives the number and the bytes that both left.
pub fn save(given: RegisterCells, steps: u64, tally: &mut Tally) -> Compared<(u8, SavedCells)> {
    let mut saved = [BLANK; SAVED_BYTES];
    let number = cells::save(&given, steps, &mut saved);
    let expected = match twin::save(&Registers::from_cells(&given), steps) {
        Ok(saved) => (OK, saved),
        Err(refusal) => (refusal.number(), [0; SAVED_BYTES]),
    };
    same("save: number, bytes", &(number, saved), &expected)
        .map_err(|why| format!("{why}\n  of registers {given:04X?}, steps {steps}"))?;
    tally.save.add(number);
    tally.resumes.note(Resumes::of_save(given, number));
    tally.totals.note(Totals::of_save(steps, number));
    Ok((number, saved))
}

/// The same registers and steps in version 0001, by hand, if that is a saved state of version 0002 and its steps have room there.
pub fn in_version_0001(saved: &[u8]) -> Option<Vec<u8>> {
    let saved: &SavedCells = saved.try_into().ok()?;
    let (head, steps) = saved.split_at(STEPS_AT);
    let fits = head.starts_with(b"SLS\x00\x02") && steps.starts_with(&[0; 4]);
    fits.then(|| [b"SLS\x00\x01", &head[5..], &steps[4..]].concat())
}

/// What resuming answered.
#[derive(Clone, Copy, Debug, PartialEq)]
pub struct Resumed {
    pub number: u8,
    pub offset: u16,
    pub registers: RegisterCells,
    pub steps: u64,
    pub cycles: u64,
}

impl Resumed {
    fn refused(number: u8, offset: u16) -> Resumed {
        Resumed { number, offset, registers: [0; 6], steps: 0, cycles: 0 }
    }
}

/// What resuming is given besides the memory.
#[derive(Clone, Copy)]
pub struct Given<'a> {
    pub case: &'a Case,
    pub marks: &'a [u16],
    pub saved: &'a [u8],
    pub budget: u32,
}

impl Given<'_> {
    /// Resumes, and gives what both answered. From the same saved state in version 0001, where it has room, all is the same.
    pub fn resume(&self, memories: &mut Memories, lent: usize, tally: &mut Tally) -> Compared<Resumed> {
        let in_0001 = in_version_0001(self.saved).map(|saved| (saved, memories.clone()));
        let (resumed, marks) = self.in_its_version(memories, lent, tally)?;
        let Some((saved, mut other)) = in_0001 else { return Ok(resumed) };
        let (again, other_marks) = Given { saved: &saved, ..*self }.in_its_version(&mut other, lent, tally)?;
        let same = (marks == other_marks, memories.is_same_as(&other));
        as_expected("resume in version 0001, by that in 0002", &resumed, &again)
            .and_then(|()| as_expected("resume in version 0001, by that in 0002: the same marks, memory", &(true, true), &same))
            .map_err(|why| self.described(&why))?;
        tally.totals.note([Totals::of_alike(resumed.number)]);
        Ok(resumed)
    }

    /// Resumes, and gives what both answered, and the marks. Refused, it wrote no memory.
    fn in_its_version(&self, memories: &mut Memories, lent: usize, tally: &mut Tally) -> Compared<(Resumed, Vec<u16>)> {
        memories.as_told()?;
        let (resumed, marks) = self.resume_once(memories, lent).map_err(|why| self.described(&why))?;
        match resumed.number {
            cells::FINISHED | cells::SPENT => memories.follow_all(),
            _ => memories.as_told().map_err(|why| self.described(&why))?,
        }
        tally.resume.add(resumed.number);
        tally.totals.note(Totals::of_total(self.saved, self.budget, &resumed));
        Ok((resumed, marks))
    }

    fn resume_once(&self, memories: &mut Memories, lent: usize) -> Compared<(Resumed, Vec<u16>)> {
        let Given { case: Case { image, limits, .. }, marks, saved, budget } = *self;
        let (mut library, mut other) = (marks.to_vec(), marks.to_vec());
        let (mut registers, mut steps, mut cycles) = ([u32::from_ne_bytes([BLANK; 4]); 6], [BLANK_LONG], [BLANK_LONG]);
        let mut offset = [u16::from_ne_bytes([BLANK; 2])];
        let memory = &mut memories.library[..lent];
        let number = cells::resume(
            image,
            limits,
            &mut library,
            memory,
            saved,
            budget,
            &mut registers,
            &mut steps,
            &mut cycles,
            &mut offset,
        );
        let answer = twin::resume(image, limits, &mut other, &mut memories.twin[..lent], saved, budget);
        let resumed = Resumed { number, offset: offset[0], registers, steps: steps[0], cycles: cycles[0] };
        same("resume", &resumed, &resumed_cells(answer))?;
        same_cells("resume: mark", &library, &other)?;
        memories.same()?;
        Ok((resumed, library))
    }

    fn described(&self, why: &str) -> String {
        format!("{why}\n  saved state {:02X?}, budget {}", self.saved, self.budget)
    }
}

/// An answer of the twin.
fn resumed_cells(answer: Result<twin::Resumed, Refused>) -> Resumed {
    match answer {
        Ok(twin::Resumed { ending, registers, steps, cycles }) => {
            let number = match ending {
                Ending::Finished => cells::FINISHED,
                Ending::Spent => cells::SPENT,
                Ending::Trapped(trap) => trap.number(),
            };
            Resumed { number, offset: 0, registers: registers.to_cells(), steps, cycles }
        }
        Err(Refused { refusal, offset }) => Resumed::refused(refusal.number(), offset),
    }
}

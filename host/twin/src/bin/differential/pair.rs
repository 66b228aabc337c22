//! One image in version 0001 and in 0002, from the same marks, registers and memory: only what comes to CALLR may differ.

use crate::compare::{self, Compared, Ran, Stepped, Tally};
use crate::memories::Memories;
use crate::program::Case;
use crate::versions::{self, Versions, CALLR};
use gate_host::cells::{RecordCells, RegisterCells, OK, SPENT};
use gate_host::{Registers, MEMORY_BYTES};
use gate_twin as twin;
use std::fmt::Debug;

/// A case in either version, and a memory for each. The memories are equal between calls.
pub struct Pair {
    cases: [Case; 2],
    memories: [Memories; 2],
}

impl Pair {
    pub fn new(case: &Case, memories: &Memories) -> Pair {
        Pair { cases: [1, 2].map(|version| in_version(case, version)), memories: [memories.clone(), memories.clone()] }
    }

    /// Checks. Where that in version 0001 comes to CALLR, that in 0002 is refused with 8 there; else the two are alike. In a version
    /// that is neither, 3 comes unless 1 or 2 does. Says whether it came to CALLR.
    pub fn check(&self, neither: u16, marks: &[u16], tally: &mut Tally) -> Compared<bool> {
        let [one, other] = &self.cases;
        let (first, second) = (compare::check(one, marks, tally)?, compare::check(other, marks, tally)?);
        let (callr, what) = first_callr(&one.image, first.number, first.report[0]);
        tally.versions.note([what]);
        let expected = callr.map_or((first.number, first.report), |at| (8, [at, 0, 0]));
        alike("check: number, report", &expected, &(second.number, second.report))?;
        if callr.is_none() && first.marks != second.marks {
            return Err("check: the marks of versions 0001 and 0002 differ".into());
        }
        let third = compare::check(&in_version(one, neither), marks, tally)?;
        let expected = if matches!(first.number, 1 | 2) { first.number } else { 3 };
        alike(&format!("check in version {neither:04X}: number"), &expected, &third.number)?;
        Ok(callr.is_some())
    }

    /// Starts. Where the check comes to CALLR, that in version 0002 is refused with 8; else the two are alike. Gives the registers
    /// of that in 0001, if it was accepted.
    pub fn start(
        &mut self,
        callr: bool,
        marks: &[u16],
        given: RegisterCells,
        tally: &mut Tally,
    ) -> Compared<Option<RegisterCells>> {
        let [one, other] = &self.cases;
        let [memory, other_memory] = &mut self.memories;
        let first = compare::start(one, marks, memory, MEMORY_BYTES, given, tally)?;
        let second = compare::start(other, marks, other_memory, MEMORY_BYTES, given, tally)?;
        let expected = if callr { (8, [0; 6]) } else { first };
        alike("start: number, registers", &expected, &second)?;
        if callr {
            other_memory.clone_from(memory);
        }
        self.same_memory("start")?;
        Ok((first.0 == OK).then_some(first.1))
    }

    /// Makes a step. Where that in version 0001 comes to CALLR, that in 0002 traps 23; else the two are alike. Gives what that in
    /// 0001 answered.
    pub fn step(&mut self, given: RegisterCells, tally: &mut Tally) -> Compared<Stepped> {
        let [one, other] = &self.cases;
        let [memory, other_memory] = &mut self.memories;
        let first = compare::step(&one.image, &one.limits, memory, MEMORY_BYTES, given, tally)?;
        let second = compare::step(&other.image, &other.limits, other_memory, MEMORY_BYTES, given, tally)?;
        // A call is made, or its operand or the address after it runs out, or SP would leave its range.
        let callr = matches!(first.number, OK | 22 | 24) && is_at_callr(&one.image, given);
        tally.versions.note([if callr { Versions::StepsApart } else { Versions::StepsAlike }]);
        let registers = Registers::from_cells(&given).to_cells();
        let record = RecordCells { registers, ..RecordCells::default() };
        let trapped = Stepped { number: 23, registers, cycles: 0, record };
        alike("step", if callr { &trapped } else { &first }, &second)?;
        if callr {
            other_memory.clone_from(memory);
        }
        self.same_memory("step")?;
        Ok(first)
    }

    /// Runs. Where that in version 0002 stops at CALLR, that in 0001 with so many steps is spent there; else the two are alike.
    pub fn run(&mut self, given: RegisterCells, budget: u32, tally: &mut Tally) -> Compared<()> {
        let [one, other] = &self.cases;
        let [memory, other_memory] = &mut self.memories;
        let second = compare::run(&other.image, &other.limits, other_memory, MEMORY_BYTES, given, budget, tally)?;
        let stopped = second.number == 23 && is_at_callr(&other.image, second.registers);
        let budget = if stopped { second.steps } else { budget };
        let first = compare::run(&one.image, &one.limits, memory, MEMORY_BYTES, given, budget, tally)?;
        let second = if stopped { Ran { number: SPENT, ..second } } else { second };
        tally.versions.note([if stopped { Versions::RunsStopped } else { Versions::RunsAlike }]);
        alike("run", &first, &second)?;
        self.same_memory("run")
    }

    fn same_memory(&self, what: &str) -> Compared<()> {
        if self.memories[0].is_same_as(&self.memories[1]) {
            Ok(())
        } else {
            Err(format!("{what}: the memories of versions 0001 and 0002 differ"))
        }
    }
}

fn in_version(case: &Case, version: u16) -> Case {
    let mut case = Case { known: None, shapes: Vec::new(), ..case.clone() };
    versions::set_version(&mut case.image, version);
    case
}

/// The second is what the first, which version 0001 answered, says.
fn alike<T: PartialEq + Debug>(what: &str, first: &T, second: &T) -> Compared<()> {
    if first == second {
        Ok(())
    } else {
        Err(format!("{what}\n  by version 0001 {first:?}\n  answered        {second:?}"))
    }
}

/// Where a check that answers so in version 0001 comes to CALLR first, if it does, and what was met by that.
///
/// It goes on to a routine unless one before is refused, and over a routine's starts, rising, as far as they are instructions;
/// the op-code is refused with 8 before its operand can be missed.
fn first_callr(image: &[u8], number: u8, offset: u16) -> (Option<u16>, Versions) {
    let found = twin::Image::parse(image).ok().filter(|_| !matches!(number, 1..=5)).and_then(|image| callr_start(&image));
    match (number, found) {
        (_, None) => (None, Versions::ChecksAlike),
        (OK | 16, Some((_, at))) => (Some(at as u16), Versions::AcceptedIn0001),
        (_, Some((routine, _))) if usize::from(offset) < routine => (None, Versions::ChecksAlikeBefore),
        (_, Some((_, at))) => (Some(at as u16), Versions::OtherwiseRefusedIn0001),
    }
}

/// The first byte of the first routine with a start of CALLR, cut short or not, and the lowest such start of it.
fn callr_start(image: &twin::Image) -> Option<(usize, usize)> {
    for (first, end) in image.routines() {
        let mut at = first;
        while at < end {
            if image.code[at] == CALLR {
                return Some((first, at));
            }
            let Ok((_, length)) = twin::decode(&image.code[at..end]) else { break };
            at += length;
        }
    }
    None
}

/// Whether PC is at the op-code of CALLR, in the code of a good image.
fn is_at_callr(image: &[u8], registers: RegisterCells) -> bool {
    compare::bytes_at(image, registers).is_some_and(|bytes| bytes[0] == CALLR)
}

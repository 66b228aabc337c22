//! One case from end to end: what it is made of, and the calls that are compared.

use crate::back::{self, Undo};
use crate::compare::{self, Compared, Stepped, Tally};
use crate::generator::{Generator, Template};
use crate::limits::Second;
use crate::memories::Memories;
use crate::pair::Pair;
use crate::pauses::Pauses;
use crate::program::{Case, Jumps};
use crate::random::Random;
use crate::stretch::Stretch;
use crate::turns::Started;
use crate::versions::{Versions, CALLR};
use gate_host::cells::{RegisterCells, OK};
use gate_host::{Area, Turn, MEMORY_BYTES};

/// One case: an image, checks of it and of damaged copies, and a start, steps and runs of it.
pub struct Trial<'a> {
    make: Generator<'a>,
    tally: &'a mut Tally,
    memories: Memories,
    pub case: Case,
    /// The last call's other inputs, for the description of a difference.
    pub call: String,
}

impl<'a> Trial<'a> {
    pub fn new(random: &'a mut Random, templates: &'a [Template], tally: &'a mut Tally) -> Trial<'a> {
        let memories = Memories::new(random);
        let version = random.pick(&[1, 2]);
        let mut make = Generator { random, templates, version };
        let case = match make.random.below(26) {
            0 => make.border(),
            1 => make.bordering(),
            2 => make.relative(),
            3..=5 => make.noise(),
            6..=7 => make.tangle(),
            8..=10 => make.flawed(),
            11 => make.accepted(Jumps::Forward),
            12 => make.accepted(Jumps::None),
            13..=14 => make.nested(),
            15 => make.deep(),
            _ => make.accepted(Jumps::Any),
        };
        Trial { make, tally, memories, case, call: String::new() }
    }

    pub fn whole(&mut self) -> Compared<()> {
        let need = self.check()?;
        self.tally.note_shapes(&self.case);
        self.tally.second.note(Second::of_limits(&self.case.limits));
        self.tally.versions.note(Versions::of_case(&self.case));
        if let Some(need) = need {
            self.cut_stack(need)?;
        }
        self.started()?;
        self.within_turn()?;
        self.saved_states()?;
        self.anywhere(30)?;
        self.both_versions()?;
        let sound = self.case.clone();
        for _ in 0..8 {
            self.make.damage(&mut self.case);
            self.check()?;
            if self.make.random.one_in(4) {
                self.started()?;
                self.within_turn()?;
                self.saved_states()?;
            }
            self.anywhere(6)?;
            if self.make.random.one_in(8) {
                self.both_versions()?;
            }
            self.case = sound.clone();
        }
        self.by_hand()?;
        self.memories.same_everywhere()?;
        self.memories.as_told()?;
        self.decodes()
    }

    fn marks(&mut self) -> Vec<u16> {
        (0..self.case.marks).map(|_| self.make.random.word()).collect()
    }

    fn check(&mut self) -> Compared<Option<u16>> {
        let marks = self.marks();
        let checked = compare::check(&self.case, &marks, self.tally)?;
        Ok((checked.number == OK).then_some(checked.report[1]))
    }

    /// The stack area is cut to one byte less than the need, which is refused, and to the need, which is accepted.
    fn cut_stack(&mut self, need: u16) -> Compared<()> {
        let Area { low, high } = self.case.limits.stack;
        self.case.limits.stack.low = high - (need - 2);
        let short = self.check()?;
        self.case.limits.stack.low = high - (need - 1);
        let exact = self.check()?;
        if short.is_some() || exact != Some(need) {
            return Err(format!("check: need {need}, but {short:?} with one byte less and {exact:?} with exactly that"));
        }
        if self.make.random.one_in(2) {
            self.case.limits.stack.low = low;
        }
        Ok(())
    }

    /// A start with any registers; where it is accepted, steps and runs go on from what it answers.
    fn started(&mut self) -> Compared<()> {
        let marks = self.marks();
        let lent = self.lent();
        let given = self.registers();
        self.call = format!("start with {lent} bytes of memory, registers {given:04X?}");
        let (number, mut registers) = compare::start(&self.case, &marks, &mut self.memories, lent, given, self.tally)?;
        if number != OK {
            return Ok(());
        }
        for _ in 0..self.make.random.between(1, 3) {
            let most = self.make.random.between(1, 40);
            registers = self.steps(MEMORY_BYTES, registers, most)?;
            registers = self.run(MEMORY_BYTES, registers)?;
        }
        Ok(())
    }

    /// Where no jump goes back, a start with any registers, and runs within the turn.
    fn within_turn(&mut self) -> Compared<()> {
        let marks = self.marks();
        let turn = compare::check(&self.case, &marks, self.tally)?.turn;
        let Some(turn) = turn.filter(|&turn| turn != Turn::None) else { return Ok(()) };
        let given = self.registers();
        self.call = format!("runs within {turn:?} after a start with registers {given:04X?}");
        let (_, registers) = compare::start(&self.case, &marks, &mut self.memories, MEMORY_BYTES, given, self.tally)?;
        let started = Started { case: &self.case, registers, memories: &self.memories };
        started.within(turn, self.make.random, self.tally)
    }

    /// Saved states of it, good ones and others, after a start with any registers and by hand.
    fn saved_states(&mut self) -> Compared<()> {
        let (marks, given, wrong_size) = (self.marks(), self.registers(), self.wrong_size());
        self.call = format!("saved states, registers {given:04X?}");
        let Trial { make, tally, memories, case, .. } = self;
        Pauses { make, tally, memories, case, marks }.whole(given, wrong_size)
    }

    /// Single steps from any registers, and a run.
    fn anywhere(&mut self, steps: usize) -> Compared<()> {
        for _ in 0..steps {
            let (lent, registers) = (self.lent(), self.registers());
            self.steps(lent, registers, 4)?;
        }
        let (lent, registers) = (self.lent(), self.registers());
        self.run(lent, registers)?;
        Ok(())
    }

    /// Up to so many steps, each from where the last one came to, until one is not made. Now and then all of them are undone. Gives
    /// the registers then.
    fn steps(&mut self, lent: usize, given: RegisterCells, most: usize) -> Compared<RegisterCells> {
        let before = (lent == MEMORY_BYTES && self.make.random.one_in(8)).then(|| self.memories.kept());
        let mut registers = given;
        let mut steps = Vec::new();
        for _ in 0..most {
            let step = self.step(lent, registers)?;
            steps.push(Undo { given: registers, step });
            registers = step.registers;
            if step.number != OK {
                break;
            }
        }
        let Some(before) = before else { return Ok(registers) };
        self.call = format!("{} steps undone, from registers {given:04X?}", steps.len());
        back::list(&steps, before, &mut self.memories, self.tally)?;
        Ok(given)
    }

    /// Records made by hand, some of them from that of a step.
    fn by_hand(&mut self) -> Compared<()> {
        let registers = self.registers();
        let of_step = self.step(MEMORY_BYTES, registers)?.record;
        for _ in 0..8 {
            let record = self.make.record(of_step);
            let lent = if self.make.random.one_in(8) { self.wrong_size() } else { MEMORY_BYTES };
            self.call = format!("step back with {lent} bytes of memory by {record:04X?}");
            back::by_hand(&record, &mut self.memories, lent, self.tally)?;
        }
        Ok(())
    }

    /// The image in either version: a start, and a few steps and a run from what it answers and from any registers.
    fn both_versions(&mut self) -> Compared<()> {
        let mut pair = Pair::new(&self.case, &self.memories);
        let (marks, given) = (self.marks(), self.registers());
        self.call = format!("in either version, registers {given:04X?}");
        let callr = pair.check(self.make.neither_version(), &marks, self.tally)?;
        let started = pair.start(callr, &marks, given, self.tally)?;
        let anywhere = [self.registers(), self.registers()];
        for mut registers in started.into_iter().chain(anywhere) {
            self.call = format!("in either version, registers {registers:04X?}");
            for _ in 0..self.make.random.between(1, 4) {
                let step = pair.step(registers, self.tally)?;
                registers = step.registers;
                if step.number != OK {
                    break;
                }
            }
            pair.run(registers, self.make.random.between(0, 1_000) as u32, self.tally)?;
        }
        Ok(())
    }

    fn step(&mut self, lent: usize, registers: RegisterCells) -> Compared<Stepped> {
        self.call = format!("step with {lent} bytes of memory, registers {registers:04X?}");
        compare::step(&self.case.image, &self.case.limits, &mut self.memories, lent, registers, self.tally)
    }

    /// A run, and now and then its steps once more in other ways. Gives the registers after it.
    fn run(&mut self, lent: usize, given: RegisterCells) -> Compared<RegisterCells> {
        let budget = self.budget();
        self.call = format!("run of {budget} with {lent} bytes of memory, registers {given:04X?}");
        let before = self.make.random.one_in(8).then(|| self.memories.clone());
        let Case { image, limits, .. } = &self.case;
        let whole = compare::run(image, limits, &mut self.memories, lent, given, budget, self.tally)?;
        // Of long runs there would be too many single steps.
        if let Some(before) = before.filter(|_| (1..=1_000).contains(&whole.steps)) {
            let stretch = Stretch { case: &self.case, lent, budget, given, before, whole, after: &self.memories };
            self.tally.timing.note([stretch.one_by_one()?]);
            let first = self.make.random.between(0, whole.steps as usize);
            self.tally.timing.note(stretch.in_two_runs(first as u32)?);
        }
        Ok(whole.registers)
    }

    fn budget(&mut self) -> u32 {
        let budget = match self.make.random.below(40) {
            0 => self.make.random.between(10_000, 100_000),
            1..=10 => self.make.random.between(0, 3),
            11..=20 => self.make.random.between(3, 100),
            _ => self.make.random.between(100, 1_000),
        };
        budget as u32
    }

    fn decodes(&mut self) -> Compared<()> {
        for _ in 0..8 {
            let length = self.make.random.below(7);
            let bytes: Vec<u8> = (0..length).map(|_| self.make.random.byte()).collect();
            let address = self.make.random.word();
            compare::decode(&bytes, address, self.tally)?;
        }
        Ok(())
    }

    /// The size of the lent memory: now and then another than the right one, which 16 bits may not tell from it.
    fn lent(&mut self) -> usize {
        if self.make.random.one_in(100) {
            self.wrong_size()
        } else {
            MEMORY_BYTES
        }
    }

    fn wrong_size(&mut self) -> usize {
        self.make.random.pick(&[0, 100, MEMORY_BYTES - 1, MEMORY_BYTES + 1, Memories::CELLS])
    }

    /// Any registers, often with SP and PC where something happens; the cells' unused bits may be set.
    fn registers(&mut self) -> RegisterCells {
        let Case { image, limits, .. } = &self.case;
        let limits = *limits;
        let code = image.len().saturating_sub(8 + 2 * usize::from(*image.get(7).unwrap_or(&0)));
        let base = match image.get(5..7) {
            Some(base) => u16::from_be_bytes([base[0], base[1]]),
            None => 0x8000,
        };
        let x = self.make.address(&limits, base, code);
        let y = self.make.address(&limits, base, code);
        let (sp, pc) = (self.sp(limits.stack), self.pc(base, code));
        let random = &mut *self.make.random;
        let mut cells = [random.byte().into(), x.into(), y.into(), random.byte().into(), sp.into(), pc];
        if random.one_in(8) {
            for (cell, width) in cells.iter_mut().zip([8, 16, 16, 8, 16]) {
                *cell |= (random.next() as u32) << width;
            }
        }
        cells
    }

    fn sp(&mut self, stack: Area) -> u16 {
        let Area { low, high } = stack;
        let random = &mut *self.make.random;
        match random.below(20) {
            0 => random.word(),
            1 => random.pick(&[low.wrapping_sub(2), low.wrapping_sub(1), low, low.wrapping_add(1)]),
            2 => high.wrapping_sub(random.below(4) as u16).wrapping_add(1),
            3..=5 => high.saturating_sub(random.below(12) as u16),
            _ => low.wrapping_add(random.between(0, high.saturating_sub(low).into()) as u16),
        }
    }

    /// A PC, most often in the code, which is the image's last `code` bytes.
    fn pc(&mut self, base: u16, code: usize) -> u32 {
        let bytes = &self.case.image[self.case.image.len() - code..];
        let random = &mut *self.make.random;
        let offset = if random.one_in(4) { code.saturating_sub(random.below(6)) } else { random.below(code + 1) };
        let pc = match random.below(30) {
            0 => 0,
            1 => random.next() as u32,
            2 => u32::from(random.word()),
            3 => u32::from(base) + random.pick(&[0, code, code + 1]) as u32,
            4..=5 => {
                let callrs: Vec<usize> = (0..code).filter(|&at| bytes[at] == CALLR).collect();
                u32::from(base) + random.pick_if_any(&callrs).unwrap_or(offset) as u32
            }
            _ => u32::from(base) + offset as u32,
        };
        // Now and then a bit above the sixteenth, which takes PC out of the code.
        if random.one_in(20) {
            pc ^ 1 << random.between(16, 31)
        } else {
            pc
        }
    }
}

//! Pausing: runs from a start that go on from saved states as if they had not stopped, good states made by hand, and states,
//! images and memories that are refused.

use crate::compare::{self, as_expected, Compared, Ran, Tally};
use crate::frames::{Calls, Damaged, Sound, State};
use crate::generator::Generator;
use crate::memories::Memories;
use crate::met::that_hold;
use crate::not_sls::NotSls;
use crate::program::Case;
use crate::resumes::Resumes;
use crate::saved::{self, Given, Resumed, SavedCells};
use crate::totals::{Totals, BIT_63, CEILING, MOST_IN_0001};
use crate::turns;
use gate_host::cells::{RegisterCells, FINISHED, OK, SPENT};
use gate_host::{Limits, Refused, MEMORY_BYTES};
use gate_twin as twin;

/// A case whose runs are paused. What is lent holds anything.
pub struct Pauses<'a, 'b> {
    pub make: &'a mut Generator<'b>,
    pub tally: &'a mut Tally,
    pub memories: &'a mut Memories,
    pub case: &'a Case,
    pub marks: Vec<u16>,
}

/// A run from a start, and what a longer one comes to.
struct Pausing<'a> {
    calls: &'a Calls<'a>,
    /// So far.
    now: Ran,
    budget: u32,
    /// The run with the budget, and the memory after it.
    whole: Ran,
    after: Memories,
}

impl Pauses<'_, '_> {
    /// With any registers, and a size of memory that is not the right one.
    pub fn whole(&mut self, given: RegisterCells, wrong_size: usize) -> Compared<()> {
        self.saves(given)?;
        self.wrong_memory(given, wrong_size)?;
        let mut marks = self.marks.clone();
        let Case { image, limits, .. } = self.case;
        let need = match twin::check(image, limits, &mut marks) {
            Ok(accepted) => accepted.need,
            Err(refused) => return self.refused(refused, given),
        };
        let calls = Calls::new(image, &marks);
        self.paused(&calls, given)?;
        for _ in 0..2 {
            self.by_hand(&calls, given, need)?;
        }
        self.returned(given)
    }

    fn resume(&mut self, saved: &[u8], budget: u32, lent: usize) -> Compared<Resumed> {
        let given = Given { case: self.case, marks: &self.marks, saved, budget };
        given.resume(self.memories, lent, self.tally)
    }

    /// Saves registers that have room.
    fn saved(&mut self, registers: RegisterCells, steps: u64) -> Compared<SavedCells> {
        let (number, saved) = saved::save(registers, steps, self.tally)?;
        as_expected("save: number", &OK, &number)?;
        Ok(saved)
    }

    // Saving, and what comes before 34.

    /// Saves any registers and steps, often with a PC that has just room, or just none, and with steps at a border.
    fn saves(&mut self, mut given: RegisterCells) -> Compared<()> {
        for _ in 0..3 {
            let random = &mut *self.make.random;
            if random.one_in(2) {
                given[5] = random.pick(&[0, 0x8000, 0xFFFF, 0x1_0000, 0x1_8000, 0xFF_0000, 0x8000_0000, u32::MAX]);
            }
            let small = u64::from(random.word());
            let border = random.pick(&[MOST_IN_0001, MOST_IN_0001 + 1, BIT_63 - 1, BIT_63, CEILING]);
            let any = random.next();
            let steps = random.pick(&[small, border, border, border ^ small, any]);
            saved::save(given, steps, self.tally)?;
        }
        Ok(())
    }

    /// What saving leaves of such registers, often cut short; and whether it is.
    fn any_saved(&mut self, given: RegisterCells) -> Compared<(bool, Vec<u8>)> {
        let registers = [given[0], given[1], given[2], given[3], given[4], given[5] & 0xFFFF];
        let mut saved = self.saved(registers, 7)?.to_vec();
        let wrong = self.make.random.one_in(2);
        if wrong {
            saved.truncate(self.make.random.below(saved.len()));
        }
        Ok((wrong, saved))
    }

    fn wrong_memory(&mut self, given: RegisterCells, lent: usize) -> Compared<()> {
        let (wrong, saved) = self.any_saved(given)?;
        let resumed = self.resume(&saved, 9, lent)?;
        as_expected("resume with another size of memory: number", &17, &resumed.number)?;
        let Case { image, limits, .. } = self.case;
        let refused = twin::check(image, limits, &mut self.marks.clone()).is_err();
        self.tally.resumes.note((refused || wrong).then_some(Resumes::MemoryFirst));
        Ok(())
    }

    /// What a check refuses is refused so, whatever the saved state.
    fn refused(&mut self, refused: Refused, given: RegisterCells) -> Compared<()> {
        let (wrong, saved) = self.any_saved(given)?;
        let resumed = self.resume(&saved, 9, MEMORY_BYTES)?;
        let expected = (refused.refusal.number(), refused.offset);
        as_expected("resume, by the check: number and offset of a refusal", &expected, &(resumed.number, resumed.offset))?;
        self.tally.resumes.note([if wrong { Resumes::CheckNotSls } else { Resumes::CheckSls }]);
        Ok(())
    }

    // Pauses.

    /// A run from the start, paused after each of some steps.
    fn paused(&mut self, calls: &Calls, given: RegisterCells) -> Compared<()> {
        let (_, registers) = compare::start(self.case, &self.marks, self.memories, MEMORY_BYTES, given, self.tally)?;
        let budget = self.budget();
        let start = Ran { number: SPENT, steps: 0, cycles: 0, registers };
        let before = self.memories.clone();
        let whole = self.run_on(&start, budget)?;
        let after = std::mem::replace(self.memories, before);
        let skipped = if self.make.random.one_in(4) { self.make.random.below(whole.steps as usize + 1) } else { 0 };
        let now = self.run_on(&start, skipped as u32)?;
        let mut pausing = Pausing { calls, now, budget, whole, after };
        // Each time the image is checked.
        let most = (10_000 / self.case.image.len()).clamp(2, 30);
        for _ in 0..most {
            self.pause(&pausing)?;
            if pausing.now.steps == whole.steps {
                break;
            }
            pausing.now = self.run_on(&pausing.now, 1)?;
        }
        Ok(())
    }

    fn budget(&mut self) -> u32 {
        let (least, most) = self.make.random.pick(&[(0, 3), (3, 60), (3, 60), (60, 1_000)]);
        self.make.random.between(least, most) as u32
    }

    /// A run goes on.
    fn run_on(&mut self, from: &Ran, budget: u32) -> Compared<Ran> {
        let Case { image, limits, .. } = self.case;
        let ran = compare::run(image, limits, self.memories, MEMORY_BYTES, from.registers, budget, self.tally)?;
        Ok(Ran { steps: from.steps + ran.steps, cycles: from.cycles + ran.cycles, ..ran })
    }

    /// Saves what a run has come to. Resumed with no budget it stands there, and goes on to what the longer run came to.
    fn pause(&mut self, pausing: &Pausing) -> Compared<()> {
        let Ran { registers, steps, .. } = pausing.now;
        let saved = self.saved(registers, steps.into())?;
        let finished = registers[5] == 0;
        if finished {
            self.tally.resumes.note([Resumes::PausedFinished]);
        } else {
            let (pc, sp) = (registers[5] as u16, registers[4] as u16);
            let state = pausing.calls.state(pc, sp, &self.memories.library, self.case.limits.stack);
            self.note_paused(&state.ok_or("a run from the start stands where no calls lead to")?);
        }
        let number = if finished { FINISHED } else { SPENT };
        let stands = Resumed { number, offset: 0, registers, steps: steps.into(), cycles: 0 };
        as_expected("resume with no budget", &stands, &self.resume(&saved, 0, MEMORY_BYTES)?)?;
        let Pausing { now, budget, whole, after, .. } = pausing;
        let (left, cycles) = (budget - steps, whole.cycles - now.cycles);
        let rest = Resumed { number: whole.number, offset: 0, registers: whole.registers, steps: whole.steps.into(), cycles };
        if self.make.random.one_in(3) {
            self.goes_on(saved, &[left], &rest, after)?;
            self.tally.resumes.note([Resumes::AtOnce]);
        }
        if self.make.random.one_in(3) {
            let pieces = turns::pieces(left, self.make.random);
            self.goes_on(saved, &pieces, &rest, after)?;
            self.tally.resumes.note((pieces.len() >= 2).then_some(Resumes::InPieces));
            self.tally.resumes.note((pieces.len() >= 10).then_some(Resumes::InManyPieces));
        }
        Ok(())
    }

    fn note_paused(&mut self, state: &State) {
        let facts = [
            (Resumes::Paused, true),
            (Resumes::PausedThreeFrames, state.is_of_three_frames()),
            (Resumes::PausedCallerPushed, state.has_a_caller_pushed()),
        ];
        self.tally.resumes.note(that_hold(facts));
        self.tally.resumes.note(state.kinds());
    }

    /// Resumed runs one after another, each from what the one before left, in version 0002 as it is saved or in 0001, come to what
    /// one run does.
    fn goes_on(&mut self, mut saved: SavedCells, pieces: &[u32], whole: &Resumed, whole_after: &Memories) -> Compared<()> {
        let before = self.memories.clone();
        let (mut cycles, mut last, mut in_0001) = (0, None, Vec::new());
        for &piece in pieces {
            let older = saved::in_version_0001(&saved).filter(|_| self.make.random.one_in(2));
            in_0001.push(older.is_some());
            let resumed = self.resume(older.as_deref().unwrap_or(&saved), piece, MEMORY_BYTES)?;
            cycles += resumed.cycles;
            saved = self.saved(resumed.registers, resumed.steps)?;
            last = Some(resumed);
        }
        let after = std::mem::replace(self.memories, before);
        let Some(last) = last else { return Ok(()) };
        self.tally.totals.note(Totals::of_versions(&in_0001));
        as_expected("a run that was paused", whole, &Resumed { cycles, ..last })?;
        as_expected("a run that was paused: the same memory", &true, &after.is_same_as(whole_after))
    }

    // States by hand.

    /// A good state, whether or not a run comes to it, and what makes it not good.
    fn by_hand(&mut self, calls: &Calls, given: RegisterCells, need: u16) -> Compared<()> {
        let (state, stack) = (self.make.good_state(calls), self.case.limits.stack);
        let sp = stack.high - state.size();
        let registers = [given[0], given[1], given[2], given[3], sp.into(), state.start.address.into()];
        let (steps, budget) = self.total();
        let saved = self.saved(registers, steps)?;
        // A mark past the code tells nothing, even one that would fit there.
        self.marks[calls.code_bytes()..].fill(state.start.depth + 1);
        let sound = Sound { calls, state, sp, saved, stack, marks: self.marks.len() };
        self.put(&sound.frames(sp));
        self.tally.resumes.note(sound.state.kinds());
        self.tally.resumes.note((sp + 1 == stack.low).then_some(Resumes::StackFull));
        self.tally.resumes.note((stack.high == 0x7FFF).then_some(Resumes::To7FFF));
        self.not_sls(registers)?;
        for _ in 0..5 {
            if let Some(damaged) = sound.damaged(self.make.random) {
                self.is_refused(&damaged)?;
            }
        }
        for _ in 0..4 {
            self.elsewhere(&sound, registers)?;
        }
        self.other_limits(&saved)?;
        self.runs_from(&sound, registers, (steps, budget), need)
    }

    /// The steps of a saved state, and a budget that often comes just to a border from there, or beside it; or the greatest
    /// budget, which the ceiling cuts short.
    fn total(&mut self) -> (u64, u32) {
        let budget = self.budget();
        let random = &mut *self.make.random;
        let (any, of_32_bits) = (random.next(), random.next() >> 32);
        let border = random.pick(&[CEILING, CEILING, CEILING, MOST_IN_0001, MOST_IN_0001, BIT_63, any | MOST_IN_0001]);
        let steps = match random.below(8) {
            0..=1 => random.between(0, 1_000) as u64,
            2 => random.pick(&[any, of_32_bits]),
            3 => border,
            4..=5 => border - random.below(10) as u64,
            _ => (border - 1 - u64::from(budget)).saturating_add(random.below(3) as u64),
        };
        let near = CEILING - steps <= 1_000;
        (steps, if near && random.one_in(4) { u32::MAX } else { budget })
    }

    fn put(&mut self, bytes: &[(u16, [u8; 2])]) {
        bytes.iter().for_each(|&(address, bytes)| self.memories.put(address, bytes));
    }

    /// What is made wrong from a saved state of either version is refused with 34, also where PC 0 would be with 35.
    fn not_sls(&mut self, registers: RegisterCells) -> Compared<()> {
        let steps = self.make.random.next() >> 32;
        let in_0002 = self.saved(registers, steps)?;
        let in_0001 = saved::in_version_0001(&in_0002).ok_or("steps of 32 bits have no room in version 0001")?;
        for (version, right) in [&in_0001[..], &in_0002].into_iter().enumerate() {
            let fault = NotSls::any(self.make.random);
            for mut wrong in fault.made_from(right, self.make.random) {
                if let Some(pc) = wrong.get_mut(5..7).filter(|_| self.make.random.one_in(4)) {
                    pc.fill(0);
                    self.tally.resumes.note([Resumes::NotSlsFirst]);
                }
                let budget = self.budget();
                let resumed = self.resume(&wrong, budget, MEMORY_BYTES)?;
                as_expected("resume of what is no saved state: number", &34, &resumed.number)?;
            }
            self.tally.not_sls[version].note([fault]);
        }
        Ok(())
    }

    /// Refused, and with its own bytes put back.
    fn is_refused(&mut self, damaged: &Damaged) -> Compared<()> {
        let before: Vec<(u16, [u8; 2])> = damaged.bytes.iter().map(|&(at, _)| (at, self.memories.get(at))).collect();
        self.put(&damaged.bytes);
        let budget = self.budget();
        let resumed = self.resume(&damaged.saved, budget, MEMORY_BYTES)?;
        as_expected("resume of what is made not to be good: number", &35, &resumed.number)?;
        self.tally.resumes.note([damaged.met]);
        before.iter().rev().for_each(|&(address, bytes)| self.memories.put(address, bytes));
        Ok(())
    }

    /// PC or SP is another: it is good if calls lead there with this stack.
    fn elsewhere(&mut self, sound: &Sound, right: RegisterCells) -> Compared<()> {
        let (pc, sp) = sound.elsewhere(self.make.random);
        let good = sound.calls.state(pc, sp, &self.memories.library, sound.stack).is_some();
        let saved = self.saved([right[0], right[1], right[2], right[3], sp.into(), pc.into()], 7)?;
        let resumed = self.resume(&saved, 0, MEMORY_BYTES)?;
        as_expected("resume with another PC or SP: number", &if good { SPENT } else { 35 }, &resumed.number)?;
        let (moved, stayed) = (u32::from(pc) != right[5], sp == sound.sp);
        self.tally.resumes.note(match (moved, stayed, good) {
            (true, _, true) => Some(Resumes::OtherStart),
            (true, _, false) => Some(Resumes::OtherStartNotGood),
            (false, false, false) => Some(Resumes::OtherSpNotGood),
            _ => None,
        });
        Ok(())
    }

    /// With another stack high the frames do not end there, unless the limits or the area are refused before.
    fn other_limits(&mut self, saved: &[u8]) -> Compared<()> {
        let mut case = self.case.clone();
        let high = &mut case.limits.stack.high;
        *high = if self.make.random.one_in(2) { *high + 1 } else { *high - 1 };
        let given = Given { case: &case, marks: &self.marks, saved, budget: 9 };
        let resumed = given.resume(self.memories, MEMORY_BYTES, self.tally)?;
        as_expected("resume with another stack high: 1, 16 or 35", &true, &matches!(resumed.number, 1 | 16 | 35))?;
        self.tally.resumes.note((resumed.number == 35).then_some(Resumes::OtherLimits));
        Ok(())
    }

    /// A good state goes on as a run from its registers, at once and in pieces, never traps, and changes no byte outside the grants
    /// and the need.
    fn runs_from(&mut self, sound: &Sound, registers: RegisterCells, (steps, budget): (u64, u32), need: u16) -> Compared<()> {
        let (before, kept) = (self.memories.clone(), self.memories.kept());
        let left = (CEILING - steps).min(budget.into()) as u32;
        let run = self.run_on(&Ran { number: SPENT, steps: 0, cycles: 0, registers }, left)?;
        let after = std::mem::replace(self.memories, before);
        let total = steps + u64::from(run.steps);
        let expected = Resumed { number: run.number, offset: 0, registers: run.registers, steps: total, cycles: run.cycles };
        if self.make.random.one_in(3) {
            let pieces = turns::pieces(budget, self.make.random);
            self.goes_on(sound.saved, &pieces, &expected, &after)?;
            let met = (pieces.len() >= 2).then(|| Totals::of_pieces(steps, &expected));
            self.tally.totals.note(met.into_iter().flatten());
        }
        let resumed = self.resume(&sound.saved, budget, MEMORY_BYTES)?;
        as_expected("resume of a good state, by a run from there", &expected, &resumed)?;
        as_expected("resume of a good state: the same memory", &true, &self.memories.is_same_as(&after))?;
        outside_unchanged(&kept, &self.memories.library, &self.case.limits, need)?;
        let kind = self.ends_well(sound, &resumed)?;
        self.tally.resumes.note((run.steps > 0).then_some(kind).into_iter().chain([Resumes::ByHand]));
        Ok(())
    }

    /// A good state has finished, or is spent where it is good too.
    fn ends_well(&self, sound: &Sound, resumed: &Resumed) -> Compared<Resumes> {
        match resumed.number {
            FINISHED => Ok(Resumes::ByHandFinished),
            SPENT => {
                let (pc, sp) = (resumed.registers[5] as u16, resumed.registers[4] as u16);
                let state = sound.calls.state(pc, sp, &self.memories.library, sound.stack);
                as_expected("resume of a good state: it is good then too", &true, &state.is_some())?;
                Ok(Resumes::ByHandSpent)
            }
            number => Err(format!("resume of a good state: {number}")),
        }
    }

    /// PC 0 with SP at stack high is finished, whatever main's bytes are.
    fn returned(&mut self, given: RegisterCells) -> Compared<()> {
        let high = self.case.limits.stack.high;
        let registers = [given[0], given[1], given[2], given[3], high.into(), 0];
        let steps = self.make.random.pick(&[0, 1, MOST_IN_0001, MOST_IN_0001 + 1, CEILING - 1, CEILING]);
        let (saved, budget) = (self.saved(registers, steps)?, self.budget());
        let mains = self.make.random.word().to_be_bytes();
        self.memories.put(high - 1, mains);
        let resumed = self.resume(&saved, budget, MEMORY_BYTES)?;
        as_expected(
            "resume at PC 0: number, steps, cycles",
            &(FINISHED, steps, 0),
            &(resumed.number, resumed.steps, resumed.cycles),
        )?;
        as_expected("resume at PC 0: main's bytes", &mains, &self.memories.get(high - 1))?;
        self.tally.resumes.note((mains != [0, 0]).then_some(Resumes::Returned));
        Ok(())
    }
}

/// Every byte outside the grants and the top `need` bytes of the stack area is what it was.
fn outside_unchanged(before: &[u8], after: &[u8], limits: &Limits, need: u16) -> Compared<()> {
    let Limits { grant, stack, second } = *limits;
    let inside = |address: u16| {
        let top = address <= stack.high && address > stack.high - need;
        top || (grant.low..=grant.high).contains(&address) || (second.low..=second.high).contains(&address)
    };
    let changed = (0..MEMORY_BYTES as u16).find(|&at| before[usize::from(at)] != after[usize::from(at)] && !inside(at));
    as_expected("resume of a good state: a byte outside that changed", &None, &changed)
}

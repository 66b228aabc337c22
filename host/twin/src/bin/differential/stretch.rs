//! The steps of a run, made once more: one by one, and by two runs. Registers, memory and the sum of the cycles come out alike.
//! These calls go into no tally, since their steps were counted as the run's.

use crate::compare::{self, Compared, Ran, Tally};
use crate::cycles::Timing;
use crate::memories::Memories;
use crate::program::Case;
use gate_host::cells::{RegisterCells, OK, SPENT};

/// A run that made a step at least.
pub struct Stretch<'a> {
    pub case: &'a Case,
    pub lent: usize,
    pub budget: u32,
    /// Before the run.
    pub given: RegisterCells,
    pub before: Memories,
    /// What it answered, and the memory after it.
    pub whole: Ran,
    pub after: &'a Memories,
}

impl Stretch<'_> {
    /// Makes as many single steps, each of which is made, and one more where the run finished or trapped, which takes no cycles.
    pub fn one_by_one(&self) -> Compared<Timing> {
        let Case { image, limits, .. } = self.case;
        let (mut memories, mut registers, mut cycles) = (self.before.clone(), self.given, 0);
        let mut tally = Tally::new();
        let ending = Some(self.whole.number).filter(|&number| number != SPENT);
        for expected in (0..self.whole.steps).map(|_| OK).chain(ending) {
            let step = compare::step(image, limits, &mut memories, self.lent, registers, &mut tally)?;
            if step.number != expected {
                return Err(format!("run, one by one: a step answers {} where the run has {expected}", step.number));
            }
            registers = step.registers;
            cycles += step.cycles;
        }
        self.comes_to("one by one", &Ran { cycles, registers, ..self.whole }, &memories)?;
        Ok(Timing::OneByOne)
    }

    /// Runs so many steps, and then what is left of the budget.
    pub fn in_two_runs(&self, first: u32) -> Compared<Option<Timing>> {
        let Case { image, limits, .. } = self.case;
        let (mut memories, mut tally) = (self.before.clone(), Tally::new());
        let one = compare::run(image, limits, &mut memories, self.lent, self.given, first, &mut tally)?;
        let left = self.budget - one.steps;
        let other = compare::run(image, limits, &mut memories, self.lent, one.registers, left, &mut tally)?;
        let sum = Ran { steps: one.steps + other.steps, cycles: one.cycles + other.cycles, ..other };
        self.comes_to("in two runs", &sum, &memories)?;
        Ok((one.steps > 0 && other.steps > 0).then_some(Timing::InTwoRuns))
    }

    fn comes_to(&self, how: &str, sum: &Ran, memories: &Memories) -> Compared<()> {
        if *sum != self.whole {
            return Err(format!("run, {how}\n  at once {:?}\n  so      {sum:?}", self.whole));
        }
        if !memories.is_same_as(self.after) {
            return Err(format!("run, {how}: the memory is another"));
        }
        Ok(())
    }
}

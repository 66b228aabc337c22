//! Cycles: what W-206 decides on, and what PC tells of those of a jump.

use crate::compare::{Compared, Ran, Stepped};
use crate::met::Meet;
use gate_host::cells::{CycleCells, FINISHED, OK, SPENT};
use gate_twin::{self as twin, Instruction};

/// What is to be met of the cycles: each figure, jumps either way, what takes none, and sums.
#[derive(Clone, Copy)]
pub enum Timing {
    DecodedOne,
    DecodedTwo,
    DecodedFour,
    DecodedOneOrTwo,
    DecodedTwoOrThree,
    DecodedNone,
    MadeInOne,
    MadeInTwo,
    MadeInThree,
    MadeInFour,
    Untaken,
    Taken,
    TakenToNext,
    Jra,
    Jrf,
    JrfToNext,
    BtjtUntaken,
    BtjtTaken,
    BtjfUntaken,
    BtjfTaken,
    BitTakenToNext,
    StepFinished,
    StepTrapped,
    StepRefused,
    RunFinished,
    RunSpent,
    RunTrapped,
    RunTrappedAtOnce,
    RunOfNone,
    RunRefused,
    OneByOne,
    InTwoRuns,
}

impl Meet for Timing {
    const ALL: &'static [(Timing, &'static str)] = &[
        (Timing::DecodedOne, "decoded with cycles 1"),
        (Timing::DecodedTwo, "decoded with cycles 2"),
        (Timing::DecodedFour, "decoded with cycles 4"),
        (Timing::DecodedOneOrTwo, "decoded with cycles 1/2"),
        (Timing::DecodedTwoOrThree, "decoded with cycles 2/3"),
        (Timing::DecodedNone, "not decoded, cycles 0"),
        (Timing::MadeInOne, "steps made in 1 cycle"),
        (Timing::MadeInTwo, "steps made in 2 cycles"),
        (Timing::MadeInThree, "steps made in 3 cycles"),
        (Timing::MadeInFour, "steps made in 4 cycles"),
        (Timing::Untaken, "steps of a jump on flags, not taken"),
        (Timing::Taken, "steps of a jump on flags, taken"),
        (Timing::TakenToNext, "steps of a jump on flags, taken to the next address"),
        (Timing::Jra, "steps of JRA"),
        (Timing::Jrf, "steps of JRF"),
        (Timing::JrfToNext, "steps of JRF with offset 0"),
        (Timing::BtjtUntaken, "steps of BTJT, not taken"),
        (Timing::BtjtTaken, "steps of BTJT, taken"),
        (Timing::BtjfUntaken, "steps of BTJF, not taken"),
        (Timing::BtjfTaken, "steps of BTJF, taken"),
        (Timing::BitTakenToNext, "steps of BTJT or BTJF, taken to the next address"),
        (Timing::StepFinished, "finished steps, cycles 0"),
        (Timing::StepTrapped, "trapped steps, cycles 0"),
        (Timing::StepRefused, "refused steps, cycles 0"),
        (Timing::RunFinished, "runs that finished, with the sum of their cycles"),
        (Timing::RunSpent, "runs that were spent, with the sum of their cycles"),
        (Timing::RunTrapped, "runs that trapped, with the sum of their cycles"),
        (Timing::RunTrappedAtOnce, "runs that trapped at their first step, cycles 0"),
        (Timing::RunOfNone, "runs that made no step and are finished or spent, cycles 0"),
        (Timing::RunRefused, "refused runs, cycles 0"),
        (Timing::OneByOne, "runs whose steps were made once more one by one"),
        (Timing::InTwoRuns, "runs whose steps were made once more by two runs"),
    ];

    fn number(self) -> usize {
        self as usize
    }
}

impl Timing {
    /// What a decoding with these cycles has of it.
    pub fn of_decode(cycles: CycleCells) -> Option<Timing> {
        match cycles {
            [1, 1] => Some(Timing::DecodedOne),
            [2, 2] => Some(Timing::DecodedTwo),
            [4, 4] => Some(Timing::DecodedFour),
            [1, 2] => Some(Timing::DecodedOneOrTwo),
            [2, 3] => Some(Timing::DecodedTwoOrThree),
            [0, 0] => Some(Timing::DecodedNone),
            _ => None,
        }
    }

    /// What a step at this instruction, if PC is at one, has of it.
    pub fn of_step(step: &Stepped, instruction: Option<Instruction>) -> impl Iterator<Item = Timing> {
        let [cost, jump, to_next] = match (step.number, instruction) {
            (OK, Some(made)) => {
                let taken = step.cycles == twin::when(made.cycles(), true);
                [Timing::of_cost(step.cycles), Timing::of_jump(made, taken), Timing::of_jump_to_next(made, taken)]
            }
            _ => [Timing::of_none(step), None, None],
        };
        cost.into_iter().chain(jump).chain(to_next)
    }

    fn of_cost(cycles: u64) -> Option<Timing> {
        match cycles {
            1 => Some(Timing::MadeInOne),
            2 => Some(Timing::MadeInTwo),
            3 => Some(Timing::MadeInThree),
            4 => Some(Timing::MadeInFour),
            _ => None,
        }
    }

    /// A step that was not made.
    fn of_none(step: &Stepped) -> Option<Timing> {
        match (step.number, step.cycles) {
            (FINISHED, 0) => Some(Timing::StepFinished),
            (21..=25, 0) => Some(Timing::StepTrapped),
            (1..=17, 0) => Some(Timing::StepRefused),
            _ => None,
        }
    }

    fn of_jump(made: Instruction, taken: bool) -> Option<Timing> {
        Some(match (made, taken) {
            (Instruction::Jump(0, _), _) => Timing::Jra,
            (Instruction::Jump(1, _), _) => Timing::Jrf,
            (Instruction::Jump(..), false) => Timing::Untaken,
            (Instruction::Jump(..), true) => Timing::Taken,
            (Instruction::BitJump { jump_if: true, .. }, false) => Timing::BtjtUntaken,
            (Instruction::BitJump { jump_if: true, .. }, true) => Timing::BtjtTaken,
            (Instruction::BitJump { jump_if: false, .. }, false) => Timing::BtjfUntaken,
            (Instruction::BitJump { jump_if: false, .. }, true) => Timing::BtjfTaken,
            _ => return None,
        })
    }

    fn of_jump_to_next(made: Instruction, taken: bool) -> Option<Timing> {
        match (made, taken) {
            (Instruction::Jump(1, 0), _) => Some(Timing::JrfToNext),
            (Instruction::Jump(2.., 0), true) => Some(Timing::TakenToNext),
            (Instruction::BitJump { offset: 0, .. }, true) => Some(Timing::BitTakenToNext),
            _ => None,
        }
    }

    /// What a run has of it.
    pub fn of_run(run: &Ran) -> Option<Timing> {
        match (run.number, run.steps, run.cycles) {
            (FINISHED | SPENT, 0, 0) => Some(Timing::RunOfNone),
            (FINISHED, 1.., 1..) => Some(Timing::RunFinished),
            (SPENT, 1.., 1..) => Some(Timing::RunSpent),
            (21..=25, 0, 0) => Some(Timing::RunTrappedAtOnce),
            (21..=25, 1.., 1..) => Some(Timing::RunTrapped),
            (1..=17, 0, 0) => Some(Timing::RunRefused),
            _ => None,
        }
    }
}

/// A step that was made at these bytes and PC takes the figure that PC after it tells, unless a jump goes to the next instruction.
pub fn as_pc_tells(step: &Stepped, bytes: &[u8], pc: u32) -> Compared<()> {
    let Ok((instruction, length)) = twin::decode(bytes) else { return Err(format!("step: made at {bytes:02X?}")) };
    if matches!(instruction, Instruction::Jump(_, 0) | Instruction::BitJump { offset: 0, .. }) {
        return Ok(());
    }
    let expected = twin::when(instruction.cycles(), step.registers[5] != pc + length as u32);
    if step.cycles == expected {
        Ok(())
    } else {
        Err(format!("step: {} cycles of {instruction:?}, and by PC {expected}", step.cycles))
    }
}

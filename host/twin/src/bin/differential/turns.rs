//! Turns: what W-210 decides on, and runs that finish within them.

use crate::compare::{self, as_expected, Compared, Ran, Tally};
use crate::damage::sweep;
use crate::memories::Memories;
use crate::met::{that_hold, Meet};
use crate::program::{Case, KnownTurn};
use crate::random::Random;
use gate_host::cells::{RegisterCells, FINISHED, SPENT};
use gate_host::{Turn, MEMORY_BYTES};
use gate_twin::{self as twin, Instruction};

/// What is to be met of the turns: why there is none, sums on which something turns, and runs.
#[derive(Clone, Copy)]
pub enum Turns {
    BackToItself,
    BackToLower,
    BackByJrf,
    BackOnBit,
    BackWhereNobodyCalls,
    BackThoughOver,
    Greatest,
    OverByOne,
    OverSmallIn32Bits,
    OverBeyond64Bits,
    OverSmallIn64Bits,
    OverButNotMain,
    FinishedSooner,
    FinishedJustThen,
    StraightWithCalls,
    SpentOneBefore,
    FinishedInPieces,
    OverFinished,
}

impl Meet for Turns {
    const ALL: &'static [(Turns, &'static str)] = &[
        (Turns::BackToItself, "no turn for jumps to their own addresses alone"),
        (Turns::BackToLower, "no turn for jumps to lower addresses alone"),
        (Turns::BackByJrf, "no turn for JRF alone"),
        (Turns::BackOnBit, "no turn for BTJT or BTJF alone"),
        (Turns::BackWhereNobodyCalls, "no turn for routines that nobody calls alone"),
        (Turns::BackThoughOver, "no turn where it would be over"),
        (Turns::Greatest, "turns of 4,294,967,295"),
        (Turns::OverByOne, "turns of 4,294,967,296, over"),
        (Turns::OverSmallIn32Bits, "turns over of which 32 bits are 65,535 at most"),
        (Turns::OverBeyond64Bits, "turns over beyond 64 bits"),
        (Turns::OverSmallIn64Bits, "turns over beyond 64 bits of which these are 65,535 at most"),
        (Turns::OverButNotMain, "turns within where another routine's is over"),
        (Turns::FinishedSooner, "runs that finish sooner than the turn, with it and with one more"),
        (Turns::FinishedJustThen, "runs that take just the turn, with it and with one more"),
        (Turns::StraightWithCalls, "runs of straight code with calls, which take just the turn"),
        (Turns::SpentOneBefore, "runs of straight code with one less than the turn, spent"),
        (Turns::FinishedInPieces, "runs in pieces that add up to the turn, finished"),
        (Turns::OverFinished, "runs that finish though the turn is over"),
    ];

    fn number(self) -> usize {
        self as usize
    }
}

impl Turns {
    /// What an accepted image that was made so has of it.
    pub fn of_known(known: &KnownTurn) -> impl Iterator<Item = Turns> {
        let KnownTurn { back, main, greatest } = *known;
        let most = u128::from(u32::MAX);
        let over = main > most;
        that_hold([
            (Turns::BackThoughOver, back && over),
            (Turns::Greatest, !back && main == most),
            (Turns::OverByOne, !back && main == most + 1),
            (Turns::OverSmallIn32Bits, !back && over && main as u32 <= 0xFFFF),
            (Turns::OverBeyond64Bits, !back && main > u64::MAX.into()),
            (Turns::OverSmallIn64Bits, !back && main > u64::MAX.into() && main as u64 <= 0xFFFF),
            (Turns::OverButNotMain, !back && !over && greatest > most),
        ])
    }

    /// Why an accepted image with jumps back has no turn: what all of these jumps have in common.
    pub fn of_jumps_back(file: &[u8]) -> impl Iterator<Item = Turns> {
        let back = jumps_back(&twin::Image::parse(file).expect("an accepted image"));
        let all = |holds: fn(&JumpBack) -> bool| back.iter().all(holds);
        that_hold([
            (Turns::BackToItself, all(|jump| jump.to_itself)),
            (Turns::BackToLower, all(|jump| !jump.to_itself)),
            (Turns::BackByJrf, all(|jump| matches!(jump.instruction, Instruction::Jump(1, _)))),
            (Turns::BackOnBit, all(|jump| matches!(jump.instruction, Instruction::BitJump { .. }))),
            (Turns::BackWhereNobodyCalls, all(|jump| jump.nobody_calls)),
        ])
    }
}

/// A jump to its own or a lower address.
struct JumpBack {
    instruction: Instruction,
    to_itself: bool,
    /// Whether it is in a routine that is not main and that no instruction calls.
    nobody_calls: bool,
}

/// Those of an accepted image.
fn jumps_back(image: &twin::Image) -> Vec<JumpBack> {
    let instructions = sweep(image.code);
    let address = |offset: usize| image.base as i32 + offset as i32;
    let calls = instructions.iter().filter_map(|&(_, instruction, next)| instruction.call_address(address(next)));
    let mut called: Vec<i32> = calls.collect();
    called.push(address(image.main()));
    let nobody_calls = |at: usize| {
        let routine = image.routines().find(|&(_, end)| at < end);
        routine.is_some_and(|(first, _)| !called.contains(&address(first)))
    };
    let jump_back = |&(at, instruction, next): &(usize, Instruction, usize)| {
        let target = next as isize + isize::from(instruction.jump_offset()?);
        let back = JumpBack { instruction, to_itself: target == at as isize, nobody_calls: nobody_calls(at) };
        (target <= at as isize).then_some(back)
    };
    instructions.iter().filter_map(jump_back).collect()
}

/// A routine without jumps back, as a start left it.
pub struct Started<'a> {
    pub case: &'a Case,
    pub registers: RegisterCells,
    pub memories: &'a Memories,
}

/// The most steps that are made to see a routine finish.
const LONGEST: u32 = 100_000;

impl Started<'_> {
    /// Within the turn it finishes; where that is too long to see, it finishes or is spent before.
    pub fn within(&self, turn: Turn, random: &mut Random, tally: &mut Tally) -> Compared<()> {
        if let Turn::Within(turn @ ..=LONGEST) = turn {
            return self.finishes(turn, &pieces(turn, random), tally);
        }
        let number = self.run(LONGEST, tally)?.number;
        tally.turns.note((turn == Turn::Over && number == FINISHED).then_some(Turns::OverFinished));
        as_expected("run of a long turn: finished or spent", &true, &matches!(number, FINISHED | SPENT))
    }

    fn run(&self, budget: u32, tally: &mut Tally) -> Compared<Ran> {
        self.in_pieces(&[budget], tally)
    }

    /// Runs one after another: what they come to.
    fn in_pieces(&self, pieces: &[u32], tally: &mut Tally) -> Compared<Ran> {
        let Case { image, limits, .. } = self.case;
        let mut memories = self.memories.clone();
        let mut sum = Ran { number: SPENT, steps: 0, cycles: 0, registers: self.registers };
        for &piece in pieces {
            let ran = compare::run(image, limits, &mut memories, MEMORY_BYTES, sum.registers, piece, tally)?;
            sum = Ran { steps: sum.steps + ran.steps, cycles: sum.cycles + ran.cycles, ..ran };
        }
        Ok(sum)
    }

    /// It finishes by one run with the turn, and by runs in pieces that add up to it; one more in the budget changes nothing.
    fn finishes(&self, turn: u32, pieces: &[u32], tally: &mut Tally) -> Compared<()> {
        let whole = self.run(turn, tally)?;
        as_expected("run with the turn: number", &FINISHED, &whole.number)?;
        as_expected("run with one more than the turn", &whole, &self.run(turn + 1, tally)?)?;
        as_expected("runs in pieces of the turn", &whole, &self.in_pieces(pieces, tally)?)?;
        let when = if whole.steps < turn { Turns::FinishedSooner } else { Turns::FinishedJustThen };
        tally.turns.note([when, Turns::FinishedInPieces]);
        self.takes_just_the_turn(turn, &whole, tally)
    }

    /// Where it has no jumps at all, the run took just the turn, and one with one less is spent.
    fn takes_just_the_turn(&self, turn: u32, whole: &Ran, tally: &mut Tally) -> Compared<()> {
        let image = twin::Image::parse(&self.case.image).expect("an accepted image");
        let instructions = sweep(image.code);
        if instructions.iter().any(|(_, instruction, _)| instruction.jump_offset().is_some()) {
            return Ok(());
        }
        as_expected("run of straight code with the turn: steps", &turn, &whole.steps)?;
        let less = self.run(turn - 1, tally)?;
        as_expected("run of straight code with one less: number, steps", &(SPENT, turn - 1), &(less.number, less.steps))?;
        let calls = instructions.iter().any(|(_, instruction, _)| instruction.call_address(0).is_some());
        tally.turns.note(calls.then_some(Turns::StraightWithCalls));
        tally.turns.note([Turns::SpentOneBefore]);
        Ok(())
    }
}

/// Budgets that add up to `turn`, some of them 0, and not too many.
pub fn pieces(turn: u32, random: &mut Random) -> Vec<u32> {
    let most = (turn as usize / 16).max(random.between(1, 7));
    let mut pieces = Vec::new();
    let mut left = turn as usize;
    while left > 0 {
        let piece = random.between(0, most.min(left));
        pieces.push(piece as u32);
        left -= piece;
    }
    pieces
}

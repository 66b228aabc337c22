//! Steps of saved states in either version, and the totals of resumed runs: what W-209 decides on.

use crate::met::{that_hold, Meet};
use crate::saved::{Resumed, STEPS_AT};
use gate_host::cells::{FINISHED, OK, SPENT};

/// The most steps that a resumed run comes to in all.
pub const CEILING: u64 = 18_446_744_073_709_551_615;
/// The most steps that a saved state of version 0001 holds.
pub const MOST_IN_0001: u64 = 4_294_967_295;
/// What signed numbers of 64 bits have no room for.
pub const BIT_63: u64 = 9_223_372_036_854_775_808;

/// What is to be met of steps and totals: what is saved, what is alike in either version, borders that a total passes, and the
/// ceiling.
#[derive(Clone, Copy)]
pub enum Totals {
    SavedMostIn0001,
    SavedOneMore,
    SavedSmallIn32Bits,
    SavedBit63,
    SavedCeiling,
    Unsaved,
    AlikeFinished,
    AlikeSpent,
    AlikeNotGood,
    AlikeRefused,
    PausedIn0001,
    PausedInEither,
    In0002Alone,
    MostIn0001,
    MostIn0001Finished,
    From0001OneMore,
    From0001Spent,
    From0001Finished,
    From0001InPieces,
    Carried,
    ToBit63,
    LeftSmallIn32Bits,
    CeilingByBudget,
    CeilingBeforeBudget,
    CeilingBeforeGreatest,
    CeilingAtOnce,
    CeilingInPieces,
    BelowCeiling,
    FinishedAtCeiling,
    FinishedBefore,
}

impl Meet for Totals {
    const ALL: &'static [(Totals, &'static str)] = &[
        (Totals::SavedMostIn0001, "saved with 4,294,967,295 steps"),
        (Totals::SavedOneMore, "saved with 4,294,967,296 steps"),
        (Totals::SavedSmallIn32Bits, "saved with steps above 4,294,967,295 of which 32 bits are 65,535 at most"),
        (Totals::SavedBit63, "saved with 9,223,372,036,854,775,808 steps"),
        (Totals::SavedCeiling, "saved with 18,446,744,073,709,551,615 steps"),
        (Totals::Unsaved, "not saved for PC, with steps above 4,294,967,295"),
        (Totals::AlikeFinished, "finished alike from versions 0001 and 0002"),
        (Totals::AlikeSpent, "spent alike from versions 0001 and 0002"),
        (Totals::AlikeNotGood, "refused with 35 alike in versions 0001 and 0002"),
        (Totals::AlikeRefused, "refused with 17, or by the check, alike in versions 0001 and 0002"),
        (Totals::PausedIn0001, "paused runs that go on from version 0001 alone"),
        (Totals::PausedInEither, "paused runs that go on from version 0001 and from 0002"),
        (Totals::In0002Alone, "steps made from more than version 0001 holds"),
        (Totals::MostIn0001, "from version 0001 spent at 4,294,967,295"),
        (Totals::MostIn0001Finished, "from version 0001 finished at 4,294,967,295, no step made"),
        (Totals::From0001OneMore, "from version 0001 with 4,294,967,295 steps, one step made"),
        (Totals::From0001Spent, "from version 0001 spent above 4,294,967,295"),
        (Totals::From0001Finished, "from version 0001 finished above 4,294,967,295"),
        (Totals::From0001InPieces, "from version 0001 in pieces to a total above 4,294,967,295"),
        (Totals::Carried, "steps made over a multiple of 4,294,967,296 that is not the first"),
        (Totals::ToBit63, "steps made over 9,223,372,036,854,775,807"),
        (Totals::LeftSmallIn32Bits, "more steps made than 32 bits tell of those left to the ceiling"),
        (Totals::CeilingByBudget, "spent at the ceiling, by just the budget"),
        (Totals::CeilingBeforeBudget, "spent at the ceiling, before the budget"),
        (Totals::CeilingBeforeGreatest, "spent at the ceiling, before the greatest budget"),
        (Totals::CeilingAtOnce, "spent at the ceiling, no step made"),
        (Totals::CeilingInPieces, "spent at the ceiling, in pieces"),
        (Totals::BelowCeiling, "spent one below the ceiling"),
        (Totals::FinishedAtCeiling, "finished by the step to the ceiling"),
        (Totals::FinishedBefore, "finished at the ceiling, no step made"),
    ];

    fn number(self) -> usize {
        self as usize
    }
}

impl Totals {
    /// What saving that was answered so has of it.
    pub fn of_save(steps: u64, number: u8) -> impl Iterator<Item = Totals> {
        let (saved, more) = (number == OK, steps > MOST_IN_0001);
        that_hold([
            (Totals::SavedMostIn0001, saved && steps == MOST_IN_0001),
            (Totals::SavedOneMore, saved && steps == MOST_IN_0001 + 1),
            (Totals::SavedSmallIn32Bits, saved && more && steps as u32 <= 0xFFFF),
            (Totals::SavedBit63, saved && steps == BIT_63),
            (Totals::SavedCeiling, saved && steps == CEILING),
            (Totals::Unsaved, !saved && more),
        ])
    }

    /// An answer that is alike in either version.
    pub fn of_alike(number: u8) -> Totals {
        match number {
            FINISHED => Totals::AlikeFinished,
            SPENT => Totals::AlikeSpent,
            35 => Totals::AlikeNotGood,
            _ => Totals::AlikeRefused,
        }
    }

    /// The versions of the saved states from which a paused run went on: for each, whether it was 0001.
    pub fn of_versions(in_0001: &[bool]) -> impl Iterator<Item = Totals> {
        let [one, other] = [true, false].map(|version| in_0001.contains(&version));
        that_hold([(Totals::PausedIn0001, one && !other), (Totals::PausedInEither, one && other)])
    }

    /// What the total has of it, where a resumed run was not refused.
    pub fn of_total(saved: &[u8], budget: u32, resumed: &Resumed) -> impl Iterator<Item = Totals> {
        let (spent, finished, total) = (resumed.number == SPENT, resumed.number == FINISHED, resumed.steps);
        let (before, in_0001, budget) = (steps(saved), saved.len() == 19, u64::from(budget));
        // Where it was refused, the total is 0.
        let (made, left) = (total.saturating_sub(before), CEILING - before);
        let to_ceiling = spent && made > 0 && total == CEILING;
        that_hold([
            (Totals::In0002Alone, made > 0 && before > MOST_IN_0001),
            (Totals::MostIn0001, in_0001 && spent && made > 0 && total == MOST_IN_0001),
            (Totals::MostIn0001Finished, in_0001 && finished && before == MOST_IN_0001),
            (Totals::From0001OneMore, in_0001 && before == MOST_IN_0001 && made == 1),
            (Totals::From0001Spent, in_0001 && spent && total > MOST_IN_0001),
            (Totals::From0001Finished, in_0001 && finished && total > MOST_IN_0001),
            (Totals::Carried, made > 0 && before > MOST_IN_0001 && before >> 32 != total >> 32),
            (Totals::ToBit63, made > 0 && before < BIT_63 && total >= BIT_63),
            (Totals::LeftSmallIn32Bits, left > u64::from(u32::MAX) && made > u64::from(left as u32)),
            (Totals::CeilingByBudget, to_ceiling && budget == left),
            (Totals::CeilingBeforeBudget, to_ceiling && budget > left),
            (Totals::CeilingBeforeGreatest, to_ceiling && budget == u64::from(u32::MAX)),
            (Totals::CeilingAtOnce, spent && before == CEILING && budget > 0),
            (Totals::BelowCeiling, spent && made > 0 && total == CEILING - 1),
            (Totals::FinishedAtCeiling, finished && made > 0 && total == CEILING),
            (Totals::FinishedBefore, finished && before == CEILING),
        ])
    }

    /// What a resumed run has of it that went on in pieces from so many steps, and came to this.
    pub fn of_pieces(before: u64, resumed: &Resumed) -> impl Iterator<Item = Totals> {
        let (spent, total) = (resumed.number == SPENT, resumed.steps);
        that_hold([
            (Totals::From0001InPieces, before <= MOST_IN_0001 && total > MOST_IN_0001),
            (Totals::CeilingInPieces, spent && before < CEILING && total == CEILING),
        ])
    }
}

/// The steps of a saved state in either version.
fn steps(saved: &[u8]) -> u64 {
    saved.iter().skip(STEPS_AT).fold(0, |sum, &byte| sum << 8 | u64::from(byte))
}

//! Saved states: what W-208 decides on.

use crate::met::{that_hold, Meet};
use gate_host::cells::{RegisterCells, OK};
use gate_host::Registers;

/// What is to be met of saved states: what is saved and what is not, where a good one stands, how it goes on, and why one is
/// refused.
#[derive(Clone, Copy)]
pub enum Resumes {
    SavedAtFfff,
    SavedWide,
    UnsavedPc,
    UnsavedPcSmall,
    Paused,
    PausedThreeFrames,
    PausedCallerPushed,
    PausedFinished,
    AtOnce,
    InPieces,
    InManyPieces,
    ByHand,
    ByHandFinished,
    ByHandSpent,
    Returned,
    StackFull,
    To7FFF,
    InMain,
    InMainPushed,
    InCallee,
    InCalleePushed,
    CallerPushed,
    ThreeFrames,
    TenFrames,
    ByCallr,
    ByBoth,
    NotSlsFirst,
    Pc0,
    Pc0Above,
    PcInside,
    PcBelow,
    PcPast,
    PcPastMarked,
    NobodyCalls,
    SpAbove,
    SpWraps,
    BelowTop,
    AboveTop,
    MainReturns,
    AfterOtherCall,
    AfterNoCall,
    OneBit,
    Exchanged,
    Returns0000,
    OtherStart,
    OtherStartNotGood,
    OtherSpNotGood,
    OtherLimits,
    MemoryFirst,
    CheckNotSls,
    CheckSls,
}

impl Meet for Resumes {
    const ALL: &'static [(Resumes, &'static str)] = &[
        (Resumes::SavedAtFfff, "saved with PC FFFF"),
        (Resumes::SavedWide, "saved with a register above its width"),
        (Resumes::UnsavedPc, "not saved for PC above FFFF"),
        (Resumes::UnsavedPcSmall, "not saved for a PC of which 16 bits are 0"),
        (Resumes::Paused, "runs from a start paused before they finish"),
        (Resumes::PausedThreeFrames, "runs from a start paused in three frames and more"),
        (Resumes::PausedCallerPushed, "runs from a start paused with bytes that a caller pushed"),
        (Resumes::PausedFinished, "runs from a start paused where they have finished"),
        (Resumes::AtOnce, "paused runs that go on at once"),
        (Resumes::InPieces, "paused runs that go on in pieces"),
        (Resumes::InManyPieces, "paused runs that go on in ten pieces and more"),
        (Resumes::ByHand, "good states by hand, resumed as a run from there"),
        (Resumes::ByHandFinished, "good states by hand that finish after some steps"),
        (Resumes::ByHandSpent, "good states by hand that are spent after some steps, and good then too"),
        (Resumes::Returned, "good states by hand with PC 0, main's bytes not 0000"),
        (Resumes::StackFull, "good states by hand that fill the stack area"),
        (Resumes::To7FFF, "good states by hand with stack high 7FFF"),
        (Resumes::InMain, "good states in main"),
        (Resumes::InMainPushed, "good states in main, with bytes pushed"),
        (Resumes::InCallee, "good states in a routine that is called"),
        (Resumes::InCalleePushed, "good states in a routine that is called, with bytes pushed"),
        (Resumes::CallerPushed, "good states with bytes that a caller pushed"),
        (Resumes::ThreeFrames, "good states of three frames and more"),
        (Resumes::TenFrames, "good states of ten frames and more"),
        (Resumes::ByCallr, "good states with a frame of CALLR"),
        (Resumes::ByBoth, "good states with frames of CALL and of CALLR"),
        (Resumes::NotSlsFirst, "refused with 34 that have a reason for 35"),
        (Resumes::Pc0, "refused with 35 for PC 0 with SP below stack high"),
        (Resumes::Pc0Above, "refused with 35 for PC 0 with SP above stack high"),
        (Resumes::PcInside, "refused with 35 for PC inside an instruction"),
        (Resumes::PcBelow, "refused with 35 for PC below the code"),
        (Resumes::PcPast, "refused with 35 for PC past the code"),
        (Resumes::PcPastMarked, "refused with 35 for PC just past the code, where a mark is lent that would make it a start"),
        (Resumes::NobodyCalls, "refused with 35 for PC in a routine that no calls lead to"),
        (Resumes::SpAbove, "refused with 35 for a frame above stack high"),
        (Resumes::SpWraps, "refused with 35 for a frame above FFFF"),
        (Resumes::BelowTop, "refused with 35 for frames that end below stack high"),
        (Resumes::AboveTop, "refused with 35 for frames that end above stack high"),
        (Resumes::MainReturns, "refused with 35 for main's bytes not 0000"),
        (Resumes::AfterOtherCall, "refused with 35 for an address after a call to another routine"),
        (Resumes::AfterNoCall, "refused with 35 for a start after no call"),
        (Resumes::OneBit, "refused with 35 for one bit of a return address"),
        (Resumes::Exchanged, "refused with 35 for a return address low byte first"),
        (Resumes::Returns0000, "refused with 35 for 0000 above a routine that is not main"),
        (Resumes::OtherStart, "good states whose PC is moved to another start, good there too"),
        (Resumes::OtherStartNotGood, "good states whose PC is moved to another start, refused with 35 there"),
        (Resumes::OtherSpNotGood, "good states whose SP is moved a little, refused with 35 there"),
        (Resumes::OtherLimits, "refused with 35 for another stack high"),
        (Resumes::MemoryFirst, "refused with 17 that have a reason for another number"),
        (Resumes::CheckNotSls, "refused by the check though the saved state is not SLS"),
        (Resumes::CheckSls, "refused by the check where the saved state is SLS"),
    ];

    fn number(self) -> usize {
        self as usize
    }
}

impl Resumes {
    /// What saving that was answered so has of it.
    pub fn of_save(given: RegisterCells, number: u8) -> impl Iterator<Item = Resumes> {
        let (saved, pc) = (number == OK, given[5]);
        that_hold([
            (Resumes::SavedAtFfff, saved && pc == 0xFFFF),
            (Resumes::SavedWide, saved && Registers::from_cells(&given).to_cells() != given),
            (Resumes::UnsavedPc, !saved),
            (Resumes::UnsavedPcSmall, !saved && pc as u16 == 0),
        ])
    }
}

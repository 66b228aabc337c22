//! The cy column of the manual's instruction pages, in their order.
//!
//! The pages decide over the summary table and the pipeline examples, which print other figures for INCW, SUB SP, JRF, CALL and a
//! few more. SWAP has lost its page, and takes 1 cycle like its eleven peers.

use crate::decode::{Alu, Bit, Instruction, Modify, WordOp};
use gate_host::Cycles;

impl Instruction {
    /// Its cycles, as its page prints them. Those of JRF are two, though it never jumps.
    #[inline]
    pub fn cycles(self) -> Cycles {
        use Instruction::*;
        match self {
            Accumulate(Alu::Adc | Alu::Add, _) => one(1),
            WordArithmetic(WordOp::Addw, ..) | AddSp(_) => one(2),
            Accumulate(Alu::And, _) | Bit(self::Bit::CopyCarry, ..) | Accumulate(Alu::Bcp, _) => one(1),
            Bit(self::Bit::Complement | self::Bit::Reset | self::Bit::Set, ..) => one(1),
            // BTJF, BTJT
            BitJump { .. } => two(2, 3),
            Call(_) | CallRelative(_) => one(4),
            ComplementCarry | Modify(self::Modify::Clr, _) | Clrw(_) | Accumulate(Alu::Cp, _) => one(1),
            WordArithmetic(WordOp::Cpw, ..) => one(2),
            Modify(self::Modify::Cpl | self::Modify::Dec, _) | Decw(_) => one(1),
            Exgw => one(1),
            Modify(self::Modify::Inc, _) | Incw(_) => one(1),
            // JRA has a page of its own; the other fifteen share that of JRxx.
            Jump(0, _) => one(2),
            Jump(..) => two(1, 2),
            Accumulate(Alu::Ld, _) | StoreA(_) | HalfFromA(..) | AFromHalf(..) => one(1),
            LoadWord(..) | StoreWord(..) => one(2),
            CopyIndex(_) => one(1),
            MoveImmediate { .. } | MoveShort { .. } | MoveLong { .. } => one(1),
            Mul(_) => one(4),
            Modify(self::Modify::Neg, _) | Nop | Accumulate(Alu::Or, _) | PopA | PopLong(_) => one(1),
            Popw(_) => one(2),
            PushA | PushImmediate(_) | PushLong(_) => one(1),
            Pushw(_) => one(2),
            ResetCarry => one(1),
            Ret => one(4),
            Modify(self::Modify::Rlc | self::Modify::Rrc, _) | ResetOverflow | Accumulate(Alu::Sbc, _) | SetCarry => one(1),
            Modify(self::Modify::Sll | self::Modify::Sra | self::Modify::Srl, _) => one(1),
            Accumulate(Alu::Sub, _) | SubSp(_) => one(1),
            WordArithmetic(WordOp::Subw, ..) => one(2),
            Modify(self::Modify::Swap | self::Modify::Tnz, _) | Accumulate(Alu::Xor, _) => one(1),
        }
    }
}

/// A page that prints one figure.
const fn one(figure: u8) -> Cycles {
    Cycles { untaken: figure, taken: figure }
}

/// A page that prints two, as 1/2.
const fn two(untaken: u8, taken: u8) -> Cycles {
    Cycles { untaken, taken }
}

/// Those of a step.
#[inline]
pub fn when(cycles: Cycles, taken: bool) -> u64 {
    u64::from(if taken { cycles.taken } else { cycles.untaken })
}

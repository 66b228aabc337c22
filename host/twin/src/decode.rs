//! The gate set and its op-codes, page by page of the manual.

/// X or Y.
#[derive(Clone, Copy, Debug, PartialEq, Eq)]
pub enum Index {
    X,
    Y,
}

/// The low or high byte of an index register.
#[derive(Clone, Copy, Debug, PartialEq, Eq)]
pub enum Half {
    Low,
    High,
}

/// What is done to A with a byte.
#[derive(Clone, Copy, Debug, PartialEq, Eq)]
pub enum Alu {
    Sub,
    Cp,
    Sbc,
    And,
    Bcp,
    Ld,
    Xor,
    Adc,
    Or,
    Add,
}

/// Where that byte comes from.
#[derive(Clone, Copy, Debug, PartialEq, Eq)]
pub enum Source {
    Immediate(u8),
    Short(u8),
    Long(u16),
    Indexed(Index),
    ShortIndexed(u8, Index),
    LongIndexed(u16, Index),
    Stack(u8),
}

/// Where A, or an index register, is stored. A word is never stored at a short address.
#[derive(Clone, Copy, Debug, PartialEq, Eq)]
pub enum Place {
    Short(u8),
    Long(u16),
    Stack(u8),
}

/// What is done to one byte in place.
#[derive(Clone, Copy, Debug, PartialEq, Eq)]
pub enum Modify {
    Neg,
    Cpl,
    Srl,
    Rrc,
    Sra,
    Sll,
    Rlc,
    Dec,
    Inc,
    Tnz,
    Swap,
    Clr,
}

/// The byte that is modified.
#[derive(Clone, Copy, Debug, PartialEq, Eq)]
pub enum Target {
    A,
    Short(u8),
    Long(u16),
}

/// Where a word comes from.
#[derive(Clone, Copy, Debug, PartialEq, Eq)]
pub enum WordSource {
    Immediate(u16),
    Long(u16),
    Stack(u8),
}

/// What is done to an index register with a word.
#[derive(Clone, Copy, Debug, PartialEq, Eq)]
pub enum WordOp {
    Addw,
    Subw,
    Cpw,
}

/// What is done to one bit in memory.
#[derive(Clone, Copy, Debug, PartialEq, Eq)]
pub enum Bit {
    Set,
    Reset,
    Complement,
    CopyCarry,
}

/// An instruction of the gate set, whatever the version. Jump offsets count from the next instruction.
#[derive(Clone, Copy, Debug, PartialEq, Eq)]
pub enum Instruction {
    Accumulate(Alu, Source),
    StoreA(Place),
    HalfFromA(Index, Half),
    AFromHalf(Index, Half),
    Modify(Modify, Target),
    LoadWord(Index, WordSource),
    StoreWord(Place, Index),
    /// Into this register from the other one.
    CopyIndex(Index),
    WordArithmetic(WordOp, Index, u16),
    Incw(Index),
    Decw(Index),
    Clrw(Index),
    Pushw(Index),
    Popw(Index),
    Exgw,
    Mul(Index),
    Bit(Bit, u16, u8),
    BitJump {
        jump_if: bool,
        address: u16,
        bit: u8,
        offset: i8,
    },
    MoveImmediate {
        to: u16,
        value: u8,
    },
    MoveShort {
        to: u8,
        from: u8,
    },
    MoveLong {
        to: u16,
        from: u16,
    },
    PushA,
    PushImmediate(u8),
    PushLong(u16),
    PopA,
    PopLong(u16),
    SubSp(u8),
    AddSp(u8),
    /// The low four bits of op-codes 20 (JRA) to 2F.
    Jump(u8, i8),
    Call(u16),
    CallRelative(i8),
    Ret,
    Nop,
    SetCarry,
    ResetCarry,
    ComplementCarry,
    ResetOverflow,
}

impl Instruction {
    /// The address that it stores at other than by SP, if it does, and how many bytes.
    #[inline]
    pub fn direct_store(self) -> Option<(u16, u32)> {
        use Instruction::*;
        let at = |place: Place, bytes: u32| match place {
            Place::Short(address) => Some((address.into(), bytes)),
            Place::Long(address) => Some((address, bytes)),
            Place::Stack(_) => None,
        };
        match self {
            StoreA(to) => at(to, 1),
            StoreWord(to, _) => at(to, 2),
            Modify(self::Modify::Tnz, _) => None,
            Modify(_, Target::Short(address)) | MoveShort { to: address, .. } => Some((address.into(), 1)),
            Modify(_, Target::Long(address)) | Bit(_, address, _) | PopLong(address) => Some((address, 1)),
            MoveImmediate { to, .. } | MoveLong { to, .. } => Some((to, 1)),
            _ => None,
        }
    }

    /// How far it jumps from the next instruction, if it is a jump, JRF and those on a bit included.
    #[inline]
    pub fn jump_offset(self) -> Option<i8> {
        match self {
            Instruction::Jump(_, offset) | Instruction::BitJump { offset, .. } => Some(offset),
            _ => None,
        }
    }

    /// The address that it calls, if it is a call and the next instruction is at `next`.
    #[inline]
    pub fn call_address(self, next: i32) -> Option<i32> {
        match self {
            Instruction::Call(address) => Some(address.into()),
            Instruction::CallRelative(offset) => Some(next + i32::from(offset)),
            _ => None,
        }
    }
}

/// Why bytes are no instruction.
#[derive(Clone, Copy, Debug, PartialEq, Eq)]
pub enum Undecodable {
    /// Their pre-code and op-code are outside the set.
    Outside,
    /// They end too soon.
    Truncated,
}

/// The longest instruction's bytes.
const LONGEST: usize = 5;

/// The instruction at the front of `bytes`, and its length, by the whole set: of no image, so of no version.
pub fn decode(bytes: &[u8]) -> Result<(Instruction, usize), Undecodable> {
    // A whole window needs no test for missing bytes; a shorter one is filled with zeros, and its length compared afterwards.
    if let Some(window) = bytes.first_chunk::<LONGEST>() {
        return decode_window(window).ok_or(Undecodable::Outside);
    }
    if matches!(bytes, [] | [0x72] | [0x90]) {
        return Err(Undecodable::Truncated);
    }
    let mut window = [0; LONGEST];
    window[..bytes.len()].copy_from_slice(bytes);
    let (instruction, length) = decode_window(&window).ok_or(Undecodable::Outside)?;
    if length > bytes.len() {
        return Err(Undecodable::Truncated);
    }
    Ok((instruction, length))
}

#[inline]
fn decode_window(window: &[u8; LONGEST]) -> Option<(Instruction, usize)> {
    let &[first, second, third, fourth, fifth] = window;
    match first {
        0x72 => page_72(second, [third, fourth, fifth]),
        0x90 => page_90(second, [third, fourth]),
        _ => plain_page(first, [second, third, fourth, fifth]),
    }
}

#[inline]
fn plain_page(opcode: u8, operand: [u8; 4]) -> Option<(Instruction, usize)> {
    use Instruction::*;
    let byte = operand[0];
    let word = u16::from_be_bytes([operand[0], operand[1]]);
    Some(match opcode {
        0x16 => (LoadWord(Index::Y, WordSource::Stack(byte)), 2),
        0x17 => (StoreWord(Place::Stack(byte), Index::Y), 2),
        0x1C => (WordArithmetic(WordOp::Addw, Index::X, word), 3),
        0x1D => (WordArithmetic(WordOp::Subw, Index::X, word), 3),
        0x1E => (LoadWord(Index::X, WordSource::Stack(byte)), 2),
        0x1F => (StoreWord(Place::Stack(byte), Index::X), 2),
        0x10..=0x1F => (Accumulate(alu(opcode)?, Source::Stack(byte)), 2),
        0x20..=0x2F => (Jump(opcode & 0x0F, byte as i8), 2),
        0x32 => (PopLong(word), 3),
        0x35 => (MoveImmediate { value: byte, to: u16::from_be_bytes([operand[1], operand[2]]) }, 4),
        0x3B => (PushLong(word), 3),
        0x30..=0x3F => (Modify(modify(opcode)?, Target::Short(byte)), 2),
        0x42 => (Mul(Index::X), 1),
        0x45 => (MoveShort { from: byte, to: operand[1] }, 3),
        0x4B => (PushImmediate(byte), 2),
        0x40..=0x4F => (Modify(modify(opcode)?, Target::A), 1),
        0x51 => (Exgw, 1),
        0x52 => (SubSp(byte), 2),
        0x55 => (MoveLong { from: word, to: u16::from_be_bytes([operand[2], operand[3]]) }, 5),
        0x5A => (Decw(Index::X), 1),
        0x5B => (AddSp(byte), 2),
        0x5C => (Incw(Index::X), 1),
        0x5F => (Clrw(Index::X), 1),
        0x6B => (StoreA(Place::Stack(byte)), 2),
        0x7B => (Accumulate(Alu::Ld, Source::Stack(byte)), 2),
        0x81 => (Ret, 1),
        0x84 => (PopA, 1),
        0x85 => (Popw(Index::X), 1),
        0x88 => (PushA, 1),
        0x89 => (Pushw(Index::X), 1),
        0x8C => (ComplementCarry, 1),
        0x93 => (CopyIndex(Index::X), 1),
        0x95 => (HalfFromA(Index::X, Half::High), 1),
        0x97 => (HalfFromA(Index::X, Half::Low), 1),
        0x98 => (ResetCarry, 1),
        0x99 => (SetCarry, 1),
        0x9C => (ResetOverflow, 1),
        0x9D => (Nop, 1),
        0x9E => (AFromHalf(Index::X, Half::High), 1),
        0x9F => (AFromHalf(Index::X, Half::Low), 1),
        0xA3 => (WordArithmetic(WordOp::Cpw, Index::X, word), 3),
        0xA6 => (Accumulate(Alu::Ld, Source::Immediate(byte)), 2),
        0xAD => (CallRelative(byte as i8), 2),
        0xAE => (LoadWord(Index::X, WordSource::Immediate(word)), 3),
        0xA0..=0xAF => (Accumulate(alu(opcode)?, Source::Immediate(byte)), 2),
        0xB6 => (Accumulate(Alu::Ld, Source::Short(byte)), 2),
        0xB7 => (StoreA(Place::Short(byte)), 2),
        0xB0..=0xBF => (Accumulate(alu(opcode)?, Source::Short(byte)), 2),
        0xC6 => (Accumulate(Alu::Ld, Source::Long(word)), 3),
        0xC7 => (StoreA(Place::Long(word)), 3),
        0xCD => (Call(word), 3),
        0xCE => (LoadWord(Index::X, WordSource::Long(word)), 3),
        0xCF => (StoreWord(Place::Long(word), Index::X), 3),
        0xC0..=0xCF => (Accumulate(alu(opcode)?, Source::Long(word)), 3),
        0xD0..=0xFF => {
            let (source, length) = indexed(opcode, byte, word, Index::X);
            (Accumulate(alu_or_load(opcode)?, source), length)
        }
        _ => return None,
    })
}

#[inline]
fn page_72(opcode: u8, operand: [u8; 3]) -> Option<(Instruction, usize)> {
    use Instruction::*;
    let word = u16::from_be_bytes([operand[0], operand[1]]);
    let bit = (opcode & 0x0F) / 2;
    let odd = opcode & 1 == 1;
    Some(match opcode {
        0x00..=0x0F => (BitJump { jump_if: !odd, address: word, bit, offset: operand[2] as i8 }, 5),
        0x10..=0x1F => (Bit(if odd { self::Bit::Reset } else { self::Bit::Set }, word, bit), 4),
        0x50..=0x5F => (Modify(modify(opcode)?, Target::Long(word)), 4),
        0xA2 => (WordArithmetic(WordOp::Subw, Index::Y, word), 4),
        0xA9 => (WordArithmetic(WordOp::Addw, Index::Y, word), 4),
        _ => return None,
    })
}

#[inline]
fn page_90(opcode: u8, operand: [u8; 2]) -> Option<(Instruction, usize)> {
    use Instruction::*;
    let word = u16::from_be_bytes(operand);
    let odd = opcode & 1 == 1;
    Some(match opcode {
        0x10..=0x1F => {
            let action = if odd { self::Bit::CopyCarry } else { self::Bit::Complement };
            (Bit(action, word, (opcode & 0x0F) / 2), 4)
        }
        0x42 => (Mul(Index::Y), 2),
        0x5A => (Decw(Index::Y), 2),
        0x5C => (Incw(Index::Y), 2),
        0x5F => (Clrw(Index::Y), 2),
        0x85 => (Popw(Index::Y), 2),
        0x89 => (Pushw(Index::Y), 2),
        0x93 => (CopyIndex(Index::Y), 2),
        0x95 => (HalfFromA(Index::Y, Half::High), 2),
        0x97 => (HalfFromA(Index::Y, Half::Low), 2),
        0x9E => (AFromHalf(Index::Y, Half::High), 2),
        0x9F => (AFromHalf(Index::Y, Half::Low), 2),
        0xA3 => (WordArithmetic(WordOp::Cpw, Index::Y, word), 4),
        0xAE => (LoadWord(Index::Y, WordSource::Immediate(word)), 4),
        0xCE => (LoadWord(Index::Y, WordSource::Long(word)), 4),
        0xCF => (StoreWord(Place::Long(word), Index::Y), 4),
        0xD0..=0xFF => {
            let (source, length) = indexed(opcode, operand[0], word, Index::Y);
            (Accumulate(alu_or_load(opcode)?, source), length + 1)
        }
        _ => return None,
    })
}

/// Rows D, E and F: long, short and no offset.
fn indexed(opcode: u8, byte: u8, word: u16, index: Index) -> (Source, usize) {
    match opcode >> 4 {
        0xD => (Source::LongIndexed(word, index), 3),
        0xE => (Source::ShortIndexed(byte, index), 2),
        _ => (Source::Indexed(index), 1),
    }
}

/// The column that the rows on A have in common. LD stands in it only where a row says so.
fn alu(opcode: u8) -> Option<Alu> {
    Some(match opcode & 0x0F {
        0x0 => Alu::Sub,
        0x1 => Alu::Cp,
        0x2 => Alu::Sbc,
        0x4 => Alu::And,
        0x5 => Alu::Bcp,
        0x8 => Alu::Xor,
        0x9 => Alu::Adc,
        0xA => Alu::Or,
        0xB => Alu::Add,
        _ => return None,
    })
}

fn alu_or_load(opcode: u8) -> Option<Alu> {
    if opcode & 0x0F == 0x6 {
        Some(Alu::Ld)
    } else {
        alu(opcode)
    }
}

/// The column that the rows of one-operand instructions have in common.
fn modify(opcode: u8) -> Option<Modify> {
    Some(match opcode & 0x0F {
        0x0 => Modify::Neg,
        0x3 => Modify::Cpl,
        0x4 => Modify::Srl,
        0x6 => Modify::Rrc,
        0x7 => Modify::Sra,
        0x8 => Modify::Sll,
        0x9 => Modify::Rlc,
        0xA => Modify::Dec,
        0xC => Modify::Inc,
        0xD => Modify::Tnz,
        0xE => Modify::Swap,
        0xF => Modify::Clr,
        _ => return None,
    })
}

//! Document 01's notation.

use crate::decode::{Alu, Bit, Half, Index, Instruction, Modify, Place, Source, Target, WordOp, WordSource};
use gate_host::{Text, TEXT_BYTES};

/// The names of op-codes 20 to 2F.
const JUMPS: [&str; 16] = [
    "JRA", "JRF", "JRUGT", "JRULE", "JRNC", "JRC", "JRNE", "JREQ", "JRNV", "JRV", "JRPL", "JRMI", "JRSGT", "JRSLE", "JRSGE",
    "JRSLT",
];

/// The text of an instruction of `length` bytes that stands at `address`.
pub fn text(instruction: Instruction, length: usize, address: u16) -> Text {
    use Instruction::*;
    let next = address.wrapping_add(length as u16);
    let target = |offset: i8| next.wrapping_add_signed(offset.into());
    let mut line = Line::new();
    match instruction {
        Accumulate(operation, from) => line.name(alu_name(operation)).put("A,").source(from),
        StoreA(place) => line.name("LD").place(place).put(",A"),
        HalfFromA(index, half) => line.name("LD").half(index, half).put(",A"),
        AFromHalf(index, half) => line.name("LD").put("A,").half(index, half),
        Modify(operation, byte) => line.name(modify_name(operation)).target(byte),
        LoadWord(index, from) => line.name("LDW").index(index).put(",").word_source(from),
        StoreWord(place, index) => line.name("LDW").place(place).put(",").index(index),
        CopyIndex(Index::X) => line.name("LDW").put("X,Y"),
        CopyIndex(Index::Y) => line.name("LDW").put("Y,X"),
        WordArithmetic(operation, index, word) => line.name(word_name(operation)).index(index).put(",#").word(word),
        Incw(index) => line.name("INCW").index(index),
        Decw(index) => line.name("DECW").index(index),
        Clrw(index) => line.name("CLRW").index(index),
        Pushw(index) => line.name("PUSHW").index(index),
        Popw(index) => line.name("POPW").index(index),
        Exgw => line.name("EXGW").put("X,Y"),
        Mul(index) => line.name("MUL").index(index).put(",A"),
        Bit(operation, address, bit) => line.name(bit_name(operation)).word(address).put(",").bit(bit),
        BitJump { jump_if, address, bit, offset } => {
            let name = if jump_if { "BTJT" } else { "BTJF" };
            line.name(name).word(address).put(",").bit(bit).put(",").word(target(offset))
        }
        MoveImmediate { to, value } => line.name("MOV").word(to).put(",#").byte(value),
        MoveShort { to, from } => line.name("MOV").byte(to).put(",").byte(from),
        MoveLong { to, from } => line.name("MOV").word(to).put(",").word(from),
        PushA => line.name("PUSH").put("A"),
        PushImmediate(value) => line.name("PUSH").put("#").byte(value),
        PushLong(address) => line.name("PUSH").word(address),
        PopA => line.name("POP").put("A"),
        PopLong(address) => line.name("POP").word(address),
        SubSp(value) => line.name("SUB").put("SP,#").byte(value),
        AddSp(value) => line.name("ADDW").put("SP,#").byte(value),
        Jump(condition, offset) => line.name(JUMPS[usize::from(condition & 0x0F)]).word(target(offset)),
        Call(address) => line.name("CALL").word(address),
        CallRelative(offset) => line.name("CALLR").word(target(offset)),
        Ret => line.put("RET"),
        Nop => line.put("NOP"),
        SetCarry => line.put("SCF"),
        ResetCarry => line.put("RCF"),
        ComplementCarry => line.put("CCF"),
        ResetOverflow => line.put("RVF"),
    };
    Text(line.cells)
}

/// A line as it grows. The longest, `BTJT $0000,#0,$0000`, has 19 characters.
struct Line {
    cells: [u8; TEXT_BYTES],
    length: usize,
}

impl Line {
    fn new() -> Line {
        Line { cells: [0; TEXT_BYTES], length: 0 }
    }

    fn put(&mut self, text: &str) -> &mut Line {
        let end = self.length + text.len();
        self.cells[self.length..end].copy_from_slice(text.as_bytes());
        self.length = end;
        self
    }

    fn name(&mut self, name: &str) -> &mut Line {
        self.put(name).put(" ")
    }

    fn digits(&mut self, value: u16, count: u32) -> &mut Line {
        for place in (0..count).rev() {
            self.cells[self.length] = b"0123456789ABCDEF"[usize::from(value >> (4 * place) & 0x0F)];
            self.length += 1;
        }
        self
    }

    fn byte(&mut self, value: u8) -> &mut Line {
        self.put("$").digits(value.into(), 2)
    }

    fn word(&mut self, value: u16) -> &mut Line {
        self.put("$").digits(value, 4)
    }

    fn bit(&mut self, position: u8) -> &mut Line {
        self.put("#").digits(position.into(), 1)
    }

    fn index(&mut self, index: Index) -> &mut Line {
        self.put(index_name(index))
    }

    fn half(&mut self, index: Index, half: Half) -> &mut Line {
        self.index(index).put(match half {
            Half::Low => "L",
            Half::High => "H",
        })
    }

    fn stack(&mut self, offset: u8) -> &mut Line {
        self.put("(").byte(offset).put(",SP)")
    }

    fn source(&mut self, source: Source) -> &mut Line {
        match source {
            Source::Immediate(value) => self.put("#").byte(value),
            Source::Short(address) => self.byte(address),
            Source::Long(address) => self.word(address),
            Source::Indexed(index) => self.put("(").index(index).put(")"),
            Source::ShortIndexed(offset, index) => self.put("(").byte(offset).put(",").index(index).put(")"),
            Source::LongIndexed(offset, index) => self.put("(").word(offset).put(",").index(index).put(")"),
            Source::Stack(offset) => self.stack(offset),
        }
    }

    fn place(&mut self, place: Place) -> &mut Line {
        match place {
            Place::Short(address) => self.byte(address),
            Place::Long(address) => self.word(address),
            Place::Stack(offset) => self.stack(offset),
        }
    }

    fn word_source(&mut self, source: WordSource) -> &mut Line {
        match source {
            WordSource::Immediate(value) => self.put("#").word(value),
            WordSource::Long(address) => self.word(address),
            WordSource::Stack(offset) => self.stack(offset),
        }
    }

    fn target(&mut self, target: Target) -> &mut Line {
        match target {
            Target::A => self.put("A"),
            Target::Short(address) => self.byte(address),
            Target::Long(address) => self.word(address),
        }
    }
}

fn index_name(index: Index) -> &'static str {
    match index {
        Index::X => "X",
        Index::Y => "Y",
    }
}

fn alu_name(operation: Alu) -> &'static str {
    match operation {
        Alu::Sub => "SUB",
        Alu::Cp => "CP",
        Alu::Sbc => "SBC",
        Alu::And => "AND",
        Alu::Bcp => "BCP",
        Alu::Ld => "LD",
        Alu::Xor => "XOR",
        Alu::Adc => "ADC",
        Alu::Or => "OR",
        Alu::Add => "ADD",
    }
}

fn modify_name(operation: Modify) -> &'static str {
    match operation {
        Modify::Neg => "NEG",
        Modify::Cpl => "CPL",
        Modify::Srl => "SRL",
        Modify::Rrc => "RRC",
        Modify::Sra => "SRA",
        Modify::Sll => "SLL",
        Modify::Rlc => "RLC",
        Modify::Dec => "DEC",
        Modify::Inc => "INC",
        Modify::Tnz => "TNZ",
        Modify::Swap => "SWAP",
        Modify::Clr => "CLR",
    }
}

fn word_name(operation: WordOp) -> &'static str {
    match operation {
        WordOp::Addw => "ADDW",
        WordOp::Subw => "SUBW",
        WordOp::Cpw => "CPW",
    }
}

fn bit_name(operation: Bit) -> &'static str {
    match operation {
        Bit::Set => "BSET",
        Bit::Reset => "BRES",
        Bit::Complement => "BCPL",
        Bit::CopyCarry => "BCCM",
    }
}

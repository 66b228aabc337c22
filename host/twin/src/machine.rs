//! The machine: starting, a step with its traps and flags, and runs.

use crate::check::check;
use crate::cycles::when;
use crate::decode::{Alu, Bit, Half, Index, Instruction, Modify, Place, Source, Target, Undecodable, WordOp, WordSource};
use crate::image::{granted, validate, Image};
use crate::record::Witness;
use gate_host::{Accepted, Ending, Limits, Record, Refusal, Refused, Registers, Run, Step, Trap, MEMORY_BYTES};
use std::ops::{Deref, DerefMut};

type Memory = [u8; MEMORY_BYTES];

const V: u8 = 0x80;
const H: u8 = 0x10;
const N: u8 = 0x04;
const Z: u8 = 0x02;
const C: u8 = 0x01;

/// Starts a routine: 17, then the whole check.
pub fn start(
    file: &[u8],
    limits: &Limits,
    marks: &mut [u16],
    memory: &mut [u8],
    registers: &mut Registers,
) -> Result<Accepted, Refused> {
    let before = std::mem::take(registers);
    let memory = lent(memory)?;
    let accepted = check(file, limits, marks)?;
    let image = Image::parse(file)?;
    let top = usize::from(limits.stack.high);
    memory[top - 1..=top].fill(0);
    *registers = Registers { sp: limits.stack.high - 2, pc: image.base + image.main() as u32, ..before };
    Ok(accepted)
}

/// Makes one step, and its record, whatever the answer.
pub fn step(file: &[u8], limits: &Limits, memory: &mut [u8], registers: &mut Registers) -> (Result<Step, Refusal>, Record) {
    let mut record = Record { registers: *registers, ..Record::default() };
    let answer = Machine::new(file, limits, memory, &mut record).map(|mut machine| {
        if registers.pc == 0 {
            return Step::Finished;
        }
        match machine.step(*registers) {
            Ok((after, cycles)) => {
                *registers = after;
                Step::Made { cycles }
            }
            Err(trap) => Step::Trapped(trap),
        }
    });
    (answer, record)
}

/// Makes steps until the routine finishes, traps or `budget` steps are made.
pub fn run(file: &[u8], limits: &Limits, memory: &mut [u8], registers: &mut Registers, budget: u32) -> Result<Run, Refusal> {
    let mut machine = Machine::new(file, limits, memory, ())?;
    let (mut steps, mut sum) = (0, 0);
    let ending = loop {
        if registers.pc == 0 {
            break Ending::Finished;
        }
        if steps == budget {
            break Ending::Spent;
        }
        match machine.step(*registers) {
            Ok((after, cycles)) => {
                *registers = after;
                sum += cycles;
            }
            Err(trap) => break Ending::Trapped(trap),
        }
        steps += 1;
    };
    Ok(Run { ending, steps, cycles: sum })
}

pub fn lent(memory: &mut [u8]) -> Result<&mut Memory, Refusal> {
    memory.try_into().map_err(|_| Refusal::Memory)
}

/// What stays the same from step to step, the memory, and who is told of its bytes that are overwritten.
struct Machine<'a, W> {
    image: Image<'a>,
    limits: &'a Limits,
    memory: &'a mut Memory,
    witness: W,
}

impl<'a, W: Witness> Machine<'a, W> {
    /// Tests 17 and 1 to 4.
    fn new(file: &'a [u8], limits: &'a Limits, memory: &'a mut [u8], witness: W) -> Result<Machine<'a, W>, Refusal> {
        let memory = lent(memory)?;
        validate(limits)?;
        Ok(Machine { image: Image::parse(file)?, limits, memory, witness })
    }

    /// One step from a PC that is not 0: the registers after it, and its cycles. It writes memory only when nothing more can trap.
    #[inline]
    fn step(&mut self, registers: Registers) -> Result<(Registers, u64), Trap> {
        let sp = registers.sp;
        if sp < self.limits.stack.low - 1 || sp > self.limits.stack.high {
            return Err(Trap::Sp);
        }
        let offset = registers.pc.wrapping_sub(self.image.base) as usize;
        let bytes = self.image.code.get(offset..).filter(|bytes| !bytes.is_empty()).ok_or(Trap::Pc)?;
        let (instruction, length) = self.image.decode(bytes).map_err(|why| match why {
            Undecodable::Outside => Trap::Outside,
            Undecodable::Truncated => Trap::Pc,
        })?;
        let next = registers.pc + length as u32;
        let mut after = Cpu(Registers { pc: next, ..registers });
        let taken = self.execute(instruction, &mut after)?;
        Ok((after.0, when(instruction.cycles(), taken)))
    }

    /// Carries out an instruction on registers whose PC is already at the next one, and says whether it is a jump that is taken.
    /// After a trap the registers are of no use. They are changed in place: given back beside the answer they made a run slower.
    #[inline]
    fn execute(&mut self, instruction: Instruction, r: &mut Cpu) -> Result<bool, Trap> {
        use Instruction::*;
        let mut taken = false;
        match instruction {
            Accumulate(operation, from) => {
                let value = self.source(from, r);
                r.accumulate(operation, value);
            }
            StoreA(place) => {
                let to = self.place(place, 1, r)?;
                self.store(to, [r.a]);
                r.sign_and_zero(r.a);
            }
            HalfFromA(index, half) => {
                let [high, low] = r.index(index).to_be_bytes();
                let word = match half {
                    Half::Low => [high, r.a],
                    Half::High => [r.a, low],
                };
                *r.index_mut(index) = u16::from_be_bytes(word);
            }
            AFromHalf(index, half) => {
                let [high, low] = r.index(index).to_be_bytes();
                r.a = match half {
                    Half::Low => low,
                    Half::High => high,
                };
            }
            Modify(operation, Target::A) => r.a = r.modify(operation, r.a),
            Modify(operation, Target::Short(address)) => self.modify(operation, address.into(), r)?,
            Modify(operation, Target::Long(address)) => self.modify(operation, address, r)?,
            LoadWord(index, from) => {
                let word = match from {
                    WordSource::Immediate(word) => word,
                    WordSource::Long(address) => self.read_word(address.into()),
                    WordSource::Stack(offset) => self.read_word(u32::from(r.sp) + u32::from(offset)),
                };
                *r.index_mut(index) = word;
                r.word_sign_and_zero(word);
            }
            StoreWord(place, index) => {
                let to = self.place(place, 2, r)?;
                let word = r.index(index);
                self.store(to, word.to_be_bytes());
                r.word_sign_and_zero(word);
            }
            CopyIndex(Index::X) => r.x = r.y,
            CopyIndex(Index::Y) => r.y = r.x,
            WordArithmetic(operation, index, word) => r.word_arithmetic(operation, index, word),
            Incw(index) => {
                let word = r.index(index).wrapping_add(1);
                *r.index_mut(index) = word;
                r.flag(V, word == 0x8000);
                r.word_sign_and_zero(word);
            }
            Decw(index) => {
                let word = r.index(index).wrapping_sub(1);
                *r.index_mut(index) = word;
                r.flag(V, word == 0x7FFF);
                r.word_sign_and_zero(word);
            }
            Clrw(index) => {
                *r.index_mut(index) = 0;
                r.word_sign_and_zero(0);
            }
            Pushw(index) => {
                let word = r.index(index);
                self.push_word(word, r)?;
            }
            Popw(index) => *r.index_mut(index) = self.pop_word(r)?,
            Exgw => (r.x, r.y) = (r.y, r.x),
            Mul(index) => {
                *r.index_mut(index) = (r.index(index) & 0x00FF) * u16::from(r.a);
                r.flag(H, false);
                r.flag(C, false);
            }
            Bit(operation, address, bit) => {
                let to = self.direct(address, 1)?;
                let mask = 1 << bit;
                let byte = self.memory[to];
                let result = match operation {
                    self::Bit::Set => byte | mask,
                    self::Bit::Reset => byte & !mask,
                    self::Bit::Complement => byte ^ mask,
                    self::Bit::CopyCarry if r.is(C) => byte | mask,
                    self::Bit::CopyCarry => byte & !mask,
                };
                self.store(to, [result]);
            }
            BitJump { jump_if, address, bit, offset } => {
                let tested = self.read(address.into()) >> bit & 1 == 1;
                r.flag(C, tested);
                taken = r.jump_if(tested == jump_if, offset);
            }
            MoveImmediate { to, value } => {
                let to = self.direct(to, 1)?;
                self.store(to, [value]);
            }
            MoveShort { to, from } => self.copy(to.into(), from.into())?,
            MoveLong { to, from } => self.copy(to, from)?,
            PushA => self.push(r.a, r)?,
            PushImmediate(value) => self.push(value, r)?,
            PushLong(address) => self.push(self.read(address.into()), r)?,
            PopA => r.a = self.pop(r)?,
            PopLong(address) => {
                let byte = self.pop(r)?;
                let to = self.direct(address, 1)?;
                self.store(to, [byte]);
            }
            SubSp(count) => r.sp = self.lowered(r.sp, count.into())?,
            AddSp(count) => r.sp = self.raised(r.sp, count.into())?,
            Jump(condition, offset) => taken = r.jump_if(r.condition(condition), offset),
            Call(address) => {
                self.push_return(r)?;
                r.pc = address.into();
            }
            CallRelative(offset) => {
                self.push_return(r)?;
                r.jump(offset);
            }
            Ret => r.pc = self.pop_word(r)?.into(),
            Nop => {}
            SetCarry => r.flag(C, true),
            ResetCarry => r.flag(C, false),
            ComplementCarry => r.flag(C, !r.is(C)),
            ResetOverflow => r.flag(V, false),
        }
        Ok(taken)
    }

    // Reading. Addresses are not cut to 16 bits.

    #[inline]
    fn read(&self, address: u32) -> u8 {
        match self.memory.get(address as usize) {
            Some(&byte) => byte,
            None => {
                let offset = address.wrapping_sub(self.image.base) as usize;
                self.image.code.get(offset).copied().unwrap_or(0)
            }
        }
    }

    fn read_word(&self, address: u32) -> u16 {
        u16::from_be_bytes([self.read(address), self.read(address + 1)])
    }

    #[inline]
    fn source(&self, source: Source, r: &Cpu) -> u8 {
        match source {
            Source::Immediate(value) => value,
            Source::Short(address) => self.read(address.into()),
            Source::Long(address) => self.read(address.into()),
            Source::Indexed(index) => self.read(r.index(index).into()),
            Source::ShortIndexed(offset, index) => self.read(u32::from(r.index(index)) + u32::from(offset)),
            Source::LongIndexed(offset, index) => self.read(u32::from(r.index(index)) + u32::from(offset)),
            Source::Stack(offset) => self.read(u32::from(r.sp) + u32::from(offset)),
        }
    }

    // Storing: where, or trap 25. The grants and the stack lie in the memory.

    /// The one place where an instruction writes memory.
    #[inline]
    fn store<const N: usize>(&mut self, to: usize, bytes: [u8; N]) {
        let cells = &mut self.memory[to..to + N];
        self.witness.overwritten(to, cells);
        cells.copy_from_slice(&bytes);
    }

    #[inline]
    fn direct(&self, address: u16, bytes: u32) -> Result<usize, Trap> {
        granted(self.limits, address, bytes).then_some(address.into()).ok_or(Trap::Store)
    }

    #[inline]
    fn place(&self, place: Place, bytes: u32, r: &Cpu) -> Result<usize, Trap> {
        match place {
            Place::Short(address) => self.direct(address.into(), bytes),
            Place::Long(address) => self.direct(address, bytes),
            Place::Stack(offset) => {
                let address = u32::from(r.sp) + u32::from(offset);
                let inside = offset >= 1 && address + bytes - 1 <= self.limits.stack.high.into();
                inside.then_some(address as usize).ok_or(Trap::Store)
            }
        }
    }

    fn copy(&mut self, to: u16, from: u16) -> Result<(), Trap> {
        let to = self.direct(to, 1)?;
        self.store(to, [self.read(from.into())]);
        Ok(())
    }

    #[inline]
    fn modify(&mut self, operation: Modify, address: u16, r: &mut Cpu) -> Result<(), Trap> {
        if operation == Modify::Tnz {
            r.sign_and_zero(self.read(address.into()));
            return Ok(());
        }
        let to = self.direct(address, 1)?;
        let result = r.modify(operation, self.memory[to]);
        self.store(to, [result]);
        Ok(())
    }

    // The stack: SP stays from stack low - 1 to stack high, or trap 24.

    fn lowered(&self, sp: u16, count: u16) -> Result<u16, Trap> {
        sp.checked_sub(count).filter(|&lower| lower >= self.limits.stack.low - 1).ok_or(Trap::Stack)
    }

    fn raised(&self, sp: u16, count: u16) -> Result<u16, Trap> {
        sp.checked_add(count).filter(|&higher| higher <= self.limits.stack.high).ok_or(Trap::Stack)
    }

    fn push(&mut self, byte: u8, r: &mut Cpu) -> Result<(), Trap> {
        let lower = self.lowered(r.sp, 1)?;
        self.store(r.sp.into(), [byte]);
        r.sp = lower;
        Ok(())
    }

    /// The low byte is pushed first, so the high byte lies lower.
    fn push_word(&mut self, word: u16, r: &mut Cpu) -> Result<(), Trap> {
        let lower = self.lowered(r.sp, 2)?;
        self.store(usize::from(r.sp) - 1, word.to_be_bytes());
        r.sp = lower;
        Ok(())
    }

    /// A return address has 16 bits: where the next instruction is at 10000 the call traps 22, after 24.
    fn push_return(&mut self, r: &mut Cpu) -> Result<(), Trap> {
        self.lowered(r.sp, 2)?;
        let next = u16::try_from(r.pc).map_err(|_| Trap::Pc)?;
        self.push_word(next, r)
    }

    fn pop(&self, r: &mut Cpu) -> Result<u8, Trap> {
        r.sp = self.raised(r.sp, 1)?;
        Ok(self.memory[usize::from(r.sp)])
    }

    fn pop_word(&self, r: &mut Cpu) -> Result<u16, Trap> {
        let higher = self.raised(r.sp, 2)?;
        let word = self.read_word(u32::from(r.sp) + 1);
        r.sp = higher;
        Ok(word)
    }
}

/// The registers, with what instructions do to them.
struct Cpu(Registers);

impl Deref for Cpu {
    type Target = Registers;

    #[inline]
    fn deref(&self) -> &Registers {
        &self.0
    }
}

impl DerefMut for Cpu {
    #[inline]
    fn deref_mut(&mut self) -> &mut Registers {
        &mut self.0
    }
}

/// Arithmetic and flags.
impl Cpu {
    fn index(&self, index: Index) -> u16 {
        match index {
            Index::X => self.x,
            Index::Y => self.y,
        }
    }

    fn index_mut(&mut self, index: Index) -> &mut u16 {
        match index {
            Index::X => &mut self.x,
            Index::Y => &mut self.y,
        }
    }

    fn is(&self, flag: u8) -> bool {
        self.cc & flag != 0
    }

    fn flag(&mut self, flag: u8, on: bool) {
        self.cc = if on { self.cc | flag } else { self.cc & !flag };
    }

    fn sign_and_zero(&mut self, byte: u8) {
        self.flag(N, byte >= 0x80);
        self.flag(Z, byte == 0);
    }

    fn word_sign_and_zero(&mut self, word: u16) {
        self.flag(N, word >= 0x8000);
        self.flag(Z, word == 0);
    }

    fn jump(&mut self, offset: i8) {
        self.pc = self.pc.wrapping_add_signed(offset.into()) & 0x00FF_FFFF;
    }

    /// Jumps if the condition holds, and says whether it did. PC alone does not tell: the jump may go to the next instruction.
    fn jump_if(&mut self, holds: bool, offset: i8) -> bool {
        if holds {
            self.jump(offset);
        }
        holds
    }

    /// The condition of op-code 20 plus `number`.
    fn condition(&self, number: u8) -> bool {
        let less = self.is(N) != self.is(V);
        match number {
            0x0 => true,
            0x1 => false,
            0x2 => !self.is(C) && !self.is(Z),
            0x3 => self.is(C) || self.is(Z),
            0x4 => !self.is(C),
            0x5 => self.is(C),
            0x6 => !self.is(Z),
            0x7 => self.is(Z),
            0x8 => !self.is(V),
            0x9 => self.is(V),
            0xA => !self.is(N),
            0xB => self.is(N),
            0xC => !(self.is(Z) || less),
            0xD => self.is(Z) || less,
            0xE => !less,
            _ => less,
        }
    }

    /// Always in line: a step and a run are compiled apart, and two callers would else make it a call, and a run slower.
    #[inline(always)]
    fn accumulate(&mut self, operation: Alu, value: u8) {
        let carry = self.is(C);
        match operation {
            Alu::Add => self.a = self.add(value, false),
            Alu::Adc => self.a = self.add(value, carry),
            Alu::Sub => self.a = self.subtract(value, false),
            Alu::Sbc => self.a = self.subtract(value, carry),
            Alu::Cp => {
                self.subtract(value, false);
            }
            Alu::And => {
                self.a &= value;
                self.sign_and_zero(self.a);
            }
            Alu::Bcp => self.sign_and_zero(self.a & value),
            Alu::Or => {
                self.a |= value;
                self.sign_and_zero(self.a);
            }
            Alu::Xor => {
                self.a ^= value;
                self.sign_and_zero(self.a);
            }
            Alu::Ld => {
                self.a = value;
                self.sign_and_zero(value);
            }
        }
    }

    fn add(&mut self, value: u8, carry: bool) -> u8 {
        let sum = u16::from(self.a) + u16::from(value) + u16::from(carry);
        let signed = i16::from(self.a as i8) + i16::from(value as i8) + i16::from(carry);
        self.flag(V, !(-128..=127).contains(&signed));
        self.flag(H, (self.a & 0x0F) + (value & 0x0F) + u8::from(carry) > 0x0F);
        self.flag(C, sum > 0xFF);
        self.sign_and_zero(sum as u8);
        sum as u8
    }

    fn subtract(&mut self, value: u8, borrow: bool) -> u8 {
        let result = self.a.wrapping_sub(value).wrapping_sub(borrow.into());
        let signed = i16::from(self.a as i8) - i16::from(value as i8) - i16::from(borrow);
        self.flag(V, !(-128..=127).contains(&signed));
        self.flag(C, u16::from(self.a) < u16::from(value) + u16::from(borrow));
        self.sign_and_zero(result);
        result
    }

    fn word_arithmetic(&mut self, operation: WordOp, index: Index, word: u16) {
        let left = self.index(index);
        let (result, carry) = match operation {
            WordOp::Addw => left.overflowing_add(word),
            WordOp::Subw | WordOp::Cpw => left.overflowing_sub(word),
        };
        let (_, overflow) = match operation {
            WordOp::Addw => (left as i16).overflowing_add(word as i16),
            WordOp::Subw | WordOp::Cpw => (left as i16).overflowing_sub(word as i16),
        };
        let (left_low, right_low) = (left & 0xFF, word & 0xFF);
        match operation {
            WordOp::Addw => self.flag(H, left_low + right_low > 0xFF),
            WordOp::Subw => self.flag(H, left_low < right_low),
            WordOp::Cpw => {}
        }
        self.flag(V, overflow);
        self.flag(C, carry);
        self.word_sign_and_zero(result);
        if operation != WordOp::Cpw {
            *self.index_mut(index) = result;
        }
    }

    #[inline]
    fn modify(&mut self, operation: Modify, byte: u8) -> u8 {
        let carry = u8::from(self.is(C));
        let (low_out, high_out) = (byte & 0x01 != 0, byte & 0x80 != 0);
        let result = match operation {
            Modify::Neg => byte.wrapping_neg(),
            Modify::Cpl => !byte,
            Modify::Srl => byte >> 1,
            Modify::Rrc => byte >> 1 | carry << 7,
            Modify::Sra => byte >> 1 | byte & 0x80,
            Modify::Sll => byte << 1,
            Modify::Rlc => byte << 1 | carry,
            Modify::Dec => byte.wrapping_sub(1),
            Modify::Inc => byte.wrapping_add(1),
            Modify::Tnz => byte,
            Modify::Swap => byte.rotate_left(4),
            Modify::Clr => 0,
        };
        match operation {
            Modify::Neg => {
                self.flag(V, byte == 0x80);
                self.flag(C, byte != 0);
            }
            Modify::Cpl => self.flag(C, true),
            Modify::Srl | Modify::Rrc | Modify::Sra => self.flag(C, low_out),
            Modify::Sll | Modify::Rlc => self.flag(C, high_out),
            Modify::Dec => self.flag(V, byte == 0x80),
            Modify::Inc => self.flag(V, byte == 0x7F),
            Modify::Tnz | Modify::Swap | Modify::Clr => {}
        }
        self.sign_and_zero(result);
        result
    }
}

//! Random images that a check accepts.

use gate_host::{Area, Limits};
use gate_twin::random::Random;
use gate_twin::{decode, granted, slu, Instruction, Place};

const RET: u8 = 0x81;
const JRA: u8 = 0x20;
const ADD_SP: u8 = 0x5B;
const DEEPEST: i32 = 40;

pub struct Made {
    pub image: Vec<u8>,
    pub limits: Limits,
}

/// A jump whose target is not chosen yet, unless it is fixed.
struct Jump {
    /// The offset after it.
    next: usize,
    depth: i32,
    fixed: bool,
}

impl Jump {
    fn reaches(&self, target: usize) -> bool {
        i8::try_from(target as isize - self.next as isize).is_ok()
    }
}

pub struct Maker {
    random: Random,
    limits: Limits,
    code: Vec<u8>,
    lengths: Vec<usize>,
    /// CALL operands: where they stand, and the offset of the routine that they name.
    calls: Vec<(usize, usize)>,
    /// Of the routine that is being made: its starts with their depths, its jumps, and the depth at the next start.
    starts: Vec<(usize, i32)>,
    jumps: Vec<Jump>,
    depth: i32,
}

/// An image of this number. Every fourth has jumps wherever it can.
pub fn made(number: u64) -> Made {
    let mut random = Random::new(24, number);
    let limits = limits(&mut random);
    let mut maker =
        Maker { random, limits, code: vec![], lengths: vec![], calls: vec![], starts: vec![], jumps: vec![], depth: 0 };
    let routines = maker.random.pick(&[1, 1, 2, 3, 6]);
    for _ in 0..routines {
        let bytes = maker.random.pick(&[1, 20, 60, 300]);
        maker.routine(bytes, number % 4 == 0);
    }
    let image = maker.image();
    Made { image, limits }
}

fn limits(random: &mut Random) -> Limits {
    let area = |low, high| Area { low, high };
    random.pick(&[
        Limits { grant: area(0x0000, 0x00FF), stack: area(0x0200, 0x03FF), second: Area::NONE },
        Limits { grant: area(0x0000, 0x00FF), stack: area(0x0200, 0x03FF), second: area(0x4000, 0x401F) },
        Limits { grant: area(0x6000, 0x7FFF), stack: area(0x1000, 0x17FF), second: area(0x0080, 0x0FFF) },
    ])
}

impl Maker {
    fn image(mut self) -> Vec<u8> {
        let bytes = self.code.len();
        let base = match self.random.below(3) {
            0 => 0x8000,
            1 => 0x1_0000 - bytes,
            _ => self.random.between(0x8000, 0x1_0000 - bytes),
        };
        for &(operand, callee) in &self.calls {
            self.code[operand..operand + 2].copy_from_slice(&((base + callee) as u16).to_be_bytes());
        }
        slu::image(self.random.pick(&[1, 2]), base as u16, &self.lengths, &self.code)
    }

    fn routine(&mut self, bytes: usize, jumpy: bool) {
        let first = self.code.len();
        (self.starts, self.jumps, self.depth) = (Vec::new(), Vec::new(), 0);
        while self.code.len() < first + bytes {
            if jumpy && self.random.one_in(2) {
                let condition = self.random.between(0x21, 0x2F) as u8;
                self.jump(&[condition, 0]);
            } else {
                self.instruction();
            }
        }
        if self.random.one_in(5) {
            self.jump(&[JRA, 0]);
        } else {
            if self.depth > 0 {
                self.add(&[ADD_SP, self.depth as u8], 0);
            }
            self.add(&[RET], 0);
        }
        self.aim_jumps();
        self.lengths.push(self.code.len() - first);
    }

    fn add(&mut self, bytes: &[u8], after: i32) {
        self.starts.push((self.code.len(), self.depth));
        self.code.extend(bytes);
        self.depth = after;
    }

    fn jump(&mut self, bytes: &[u8]) {
        self.add(bytes, self.depth);
        self.jumps.push(Jump { next: self.code.len(), depth: self.depth, fixed: false });
    }

    fn aim(&mut self, next: usize, target: usize) {
        self.code[next - 1] = (target as isize - next as isize) as u8;
    }

    /// The jumps that are still free go to starts of their depth. Their own is always one.
    fn aim_jumps(&mut self) {
        for jump in std::mem::take(&mut self.jumps).iter().filter(|jump| !jump.fixed) {
            let good = self.starts.iter().filter(|&&(start, depth)| depth == jump.depth && jump.reaches(start));
            let targets: Vec<usize> = good.map(|&(start, _)| start).collect();
            let target = self.random.pick(&targets);
            self.aim(jump.next, target);
        }
    }

    /// Adds any instruction of the set, if it is allowed here.
    fn instruction(&mut self) {
        let mut bytes = vec![self.random.byte()];
        bytes.resize_with(6, || self.random.byte());
        if self.random.one_in(3) {
            bytes[0] = self.random.pick(&[0x72, 0x90]);
        }
        let Ok((instruction, length)) = decode(&bytes) else { return };
        bytes.truncate(length);
        match instruction {
            Instruction::Jump(0, _) => self.leave(&bytes),
            Instruction::Ret if self.depth == 0 => self.leave(&bytes),
            Instruction::Ret | Instruction::CallRelative(_) => {}
            Instruction::Jump(..) | Instruction::BitJump { .. } => self.jump(&bytes),
            Instruction::Call(_) => self.call(&bytes),
            _ => self.falling(instruction, bytes),
        }
    }

    /// Adds JRA or RET, if some earlier jump can go to what comes after it.
    fn leave(&mut self, bytes: &[u8]) {
        let (here, depth) = (self.code.len() + bytes.len(), self.depth);
        let near = self.jumps.iter_mut().find(|jump| !jump.fixed && jump.depth == depth && jump.reaches(here));
        if let Some(jump) = near {
            jump.fixed = true;
            let next = jump.next;
            if bytes[0] == JRA {
                self.jump(bytes)
            } else {
                self.add(bytes, depth)
            };
            self.aim(next, here);
        }
    }

    fn call(&mut self, bytes: &[u8]) {
        let firsts: Vec<usize> = (0..self.lengths.len()).map(|number| self.lengths[..number].iter().sum()).collect();
        if let Some(callee) = self.random.pick_if_any(&firsts) {
            self.calls.push((self.code.len() + 1, callee));
            self.add(bytes, self.depth);
        }
    }

    /// Adds what goes on to the next instruction, if it stores where it may and leaves a depth from 0 on.
    fn falling(&mut self, instruction: Instruction, mut bytes: Vec<u8>) {
        let instruction = if instruction.direct_store().is_some() { self.store(&mut bytes) } else { instruction };
        let allowed = match (instruction, instruction.direct_store()) {
            (_, Some((address, count))) => granted(&self.limits, address, count),
            (Instruction::StoreA(Place::Stack(offset)), None) => (1..=self.depth).contains(&offset.into()),
            (Instruction::StoreWord(Place::Stack(offset), _), None) => (1..self.depth).contains(&offset.into()),
            _ => true,
        };
        let after = self.depth + pushed(instruction);
        if allowed && (0..=DEEPEST).contains(&after) {
            self.add(&bytes, after);
        }
    }

    /// Changes a direct store's address, which is the end of its bytes, to one in a grant, as far as its bytes can say it.
    fn store(&mut self, bytes: &mut [u8]) -> Instruction {
        let area = if self.limits.second.is_empty() || self.random.one_in(2) { self.limits.grant } else { self.limits.second };
        let address = self.random.between(area.low.into(), area.high.into()) as u16;
        let end = bytes.len();
        bytes[end - 1] = address as u8;
        if end > 2 {
            bytes[end - 2] = (address >> 8) as u8;
        }
        decode(bytes).expect("the same op-code").0
    }
}

/// What an instruction adds to the depth.
fn pushed(instruction: Instruction) -> i32 {
    match instruction {
        Instruction::PushA | Instruction::PushImmediate(_) | Instruction::PushLong(_) => 1,
        Instruction::Pushw(_) => 2,
        Instruction::PopA | Instruction::PopLong(_) => -1,
        Instruction::Popw(_) => -2,
        Instruction::SubSp(bytes) => bytes.into(),
        Instruction::AddSp(bytes) => -i32::from(bytes),
        _ => 0,
    }
}

//! The check: refusals 5 to 16, marks, need and count.
//!
//! A routine is tested in the order of W-202, wholly before the next one: 8, 9 and 15 at each start; 13 and 10 at each jump; 6; 7;
//! then 11, 12 and 14 at each start. 16 comes after the last routine.

use crate::decode::{Instruction, Place, Undecodable};
use crate::image::{granted, validate, Image};
use gate_host::{Accepted, Limits, Refusal, Refused};

/// Checks an image under limits, and marks its starts.
pub fn check(file: &[u8], limits: &Limits, marks: &mut [u16]) -> Result<Accepted, Refused> {
    validate(limits)?;
    let image = Image::parse(file)?;
    let marks = marks.get_mut(..image.code.len()).ok_or(Refusal::Marks)?;
    marks.fill(0);
    let mut check = Check::new(&image, limits);
    let accepted = check.whole()?;
    for start in &check.starts {
        // Accepted, it is a depth of 0 to 255.
        marks[usize::from(start.offset)] = start.depth as u16 + 1;
    }
    Ok(accepted)
}

/// Where an instruction begins.
struct Start {
    offset: u16,
    /// The offset after the instruction.
    next: u16,
    instruction: Instruction,
    /// The number of the start that it jumps to, if it jumps.
    target: Option<u16>,
    /// Whether a path from the routine's first byte comes here. A path's depth can be any number, so none could stand for no.
    reached: bool,
    /// The depth of the first path that came.
    depth: i32,
}

/// A routine that calls may go to.
struct Callee {
    address: i32,
    need: u16,
}

struct Check<'a> {
    image: &'a Image<'a>,
    limits: &'a Limits,
    /// The starts of all routines so far, rising.
    starts: Vec<Start>,
    /// For each code byte, the number of the start there, from 1; 0 where none is.
    numbers: Vec<u16>,
    /// Jumps that are still to be followed: the start that they go to, and their depth.
    pending: Vec<(u16, i32)>,
    earlier: Vec<Callee>,
}

impl<'a> Check<'a> {
    fn new(image: &'a Image<'a>, limits: &'a Limits) -> Check<'a> {
        let bytes = image.code.len();
        Check {
            image,
            limits,
            starts: Vec::with_capacity(bytes),
            numbers: vec![0; bytes],
            pending: Vec::new(),
            earlier: Vec::with_capacity(32),
        }
    }

    fn whole(&mut self) -> Result<Accepted, Refused> {
        for (first, end) in self.image.routines() {
            let need = self.routine(first, end)?;
            self.earlier.push(Callee { address: self.image.base as i32 + first as i32, need });
        }
        let need = 2 + self.earlier.last().map_or(0, |main| main.need);
        if self.limits.stack.high - self.limits.stack.low + 1 < need {
            return Err(Refusal::Stack.into());
        }
        Ok(Accepted { need, count: self.starts.len() as u16 })
    }

    /// Tests one routine and gives its need.
    fn routine(&mut self, first: usize, end: usize) -> Result<u16, Refused> {
        let begun = self.starts.len();
        self.sweep(first, end)?;
        self.aim(begun, first, end)?;
        let agree = self.follow(begun);
        if let Some(start) = self.starts[begun..].iter().find(|start| !start.reached) {
            return Err(refused(Refusal::Unreached, start.offset));
        }
        if !agree {
            return Err(refused(Refusal::DepthsDisagree, first as u16));
        }
        let mut need = 0;
        for start in &self.starts[begun..] {
            let here = self.need(start).map_err(|refusal| refused(refusal, start.offset))?;
            need = need.max(here);
        }
        Ok(need)
    }

    /// Decodes the routine: 8, 9 and 15 at each start.
    fn sweep(&mut self, first: usize, end: usize) -> Result<(), Refused> {
        let mut at = first;
        while at < end {
            let offset = at as u16;
            let (instruction, length) = self.image.decode(&self.image.code[at..end]).map_err(|why| match why {
                Undecodable::Outside => refused(Refusal::Outside, offset),
                Undecodable::Truncated => refused(Refusal::Truncated, offset),
            })?;
            let next = at + length;
            if next == end && falls(instruction) {
                return Err(refused(Refusal::FallsOff, offset));
            }
            self.starts.push(Start { offset, next: next as u16, instruction, target: None, reached: false, depth: 0 });
            self.numbers[at] = self.starts.len() as u16;
            at = next;
        }
        Ok(())
    }

    /// Finds the target of each jump, reached or not: 13 and 10.
    fn aim(&mut self, begun: usize, first: usize, end: usize) -> Result<(), Refused> {
        for start in &mut self.starts[begun..] {
            let Some(offset) = start.instruction.jump_offset() else { continue };
            let target = i32::from(start.next) + i32::from(offset);
            if !(first as i32..end as i32).contains(&target) {
                return Err(refused(Refusal::Jump, start.offset));
            }
            let number = self.numbers[target as usize].checked_sub(1);
            start.target = Some(number.ok_or(refused(Refusal::IntoInstruction, start.offset))?);
        }
        Ok(())
    }

    /// Follows the paths from the routine's first start, going on from each start once, and says whether all agree on depth.
    ///
    /// Paths that meet go on alike, so all agree if each that comes to a start again has the depth of the first that came.
    fn follow(&mut self, begun: usize) -> bool {
        let mut agree = true;
        self.pending.push((begun as u16, 0));
        while let Some((number, depth)) = self.pending.pop() {
            let (mut number, mut depth) = (usize::from(number), depth);
            loop {
                let start = &mut self.starts[number];
                if start.reached {
                    agree &= start.depth == depth;
                    break;
                }
                start.reached = true;
                start.depth = depth;
                depth += depth_change(start.instruction);
                if let Some(target) = start.target {
                    self.pending.push((target, depth));
                }
                if !falls(start.instruction) {
                    break;
                }
                number += 1;
            }
        }
        agree
    }

    /// 11, 12 and 14 at a start, and what it needs.
    fn need(&self, start: &Start) -> Result<u16, Refusal> {
        let after = start.depth + depth_change(start.instruction);
        // A byte holds just the depths that are allowed.
        let (Ok(depth), Ok(after)) = (u8::try_from(start.depth), u8::try_from(after)) else { return Err(Refusal::DepthRange) };
        if start.instruction == Instruction::Ret && depth != 0 {
            return Err(Refusal::DepthRange);
        }
        if !store_allowed(start.instruction, depth, self.limits) {
            return Err(Refusal::Store);
        }
        let need = u16::from(depth.max(after));
        let next = self.image.base as i32 + i32::from(start.next);
        let Some(address) = start.instruction.call_address(next) else { return Ok(need) };
        match self.earlier.binary_search_by_key(&address, |callee| callee.address) {
            Ok(number) => Ok(need.max(u16::from(depth) + 2 + self.earlier[number].need)),
            Err(_) => Err(Refusal::Call),
        }
    }
}

fn refused(refusal: Refusal, offset: u16) -> Refused {
    Refused { refusal, offset }
}

fn falls(instruction: Instruction) -> bool {
    !matches!(instruction, Instruction::Jump(0, _) | Instruction::Ret)
}

/// What an instruction adds to the depth. A path may go below 0 and above 255.
pub fn depth_change(instruction: Instruction) -> i32 {
    use Instruction::*;
    match instruction {
        PushA | PushImmediate(_) | PushLong(_) => 1,
        Pushw(_) => 2,
        SubSp(count) => count.into(),
        PopA | PopLong(_) => -1,
        Popw(_) => -2,
        AddSp(count) => -i32::from(count),
        _ => 0,
    }
}

fn store_allowed(instruction: Instruction, depth: u8, limits: &Limits) -> bool {
    let on_stack = |offset: u8, bytes: u32| offset >= 1 && u32::from(offset) + bytes - 1 <= depth.into();
    match instruction {
        Instruction::StoreA(Place::Stack(offset)) => on_stack(offset, 1),
        Instruction::StoreWord(Place::Stack(offset), _) => on_stack(offset, 2),
        _ => instruction.direct_store().is_none_or(|(address, bytes)| granted(limits, address, bytes)),
    }
}

//! Code as it grows, instruction by instruction, and what the check must answer to it.

use crate::random::Random;
use crate::shape::Shape;
use crate::versions::CALLR;
use gate_host::{Limits, Turn};
use gate_twin::slu;

const RET: u8 = 0x81;

/// What a check is given, but for the contents of the marks.
#[derive(Clone)]
pub struct Case {
    pub image: Vec<u8>,
    pub limits: Limits,
    pub marks: usize,
    pub known: Option<Known>,
    /// What is met by checking this case.
    pub shapes: Vec<Shape>,
}

/// What the check must answer, where that is known from how the image was made.
#[derive(Clone)]
pub enum Known {
    /// Accepted with these marks of the code and this turn, or refused with 16.
    Accepted(Vec<u16>, KnownTurn),
    /// Refused with this number at this offset.
    Refused(u8, u16),
}

/// What decides on the turn.
#[derive(Clone, Copy)]
pub struct KnownTurn {
    /// Whether some jump goes to its own or a lower address.
    pub back: bool,
    /// The sums of main and of the routine that has the greatest, whatever the jumps.
    pub main: u128,
    pub greatest: u128,
}

impl KnownTurn {
    pub fn turn(&self) -> Turn {
        if self.back {
            return Turn::None;
        }
        u32::try_from(self.main).map_or(Turn::Over, Turn::Within)
    }
}

/// Which jumps a program may have.
#[derive(Clone, Copy, PartialEq)]
pub enum Jumps {
    Any,
    Forward,
    None,
}

/// The code, routine after routine.
pub struct Program {
    pub version: u16,
    pub jumps: Jumps,
    pub code: Vec<u8>,
    pub limits: Limits,
    /// CALL operands: where they stand, and the offset of the routine that they name.
    calls: Vec<(usize, usize)>,
    /// The offsets of the routines that the one which is being added calls, one for each call.
    callees: Vec<usize>,
    /// The offsets of the routines' first bytes.
    pub firsts: Vec<usize>,
    /// For each of them the sum over its instructions of 1, plus the callee's at calls.
    sums: Vec<u128>,
    /// Whether some jump goes to its own or a lower address.
    back: bool,
    lengths: Vec<usize>,
    marks: Vec<u16>,
    /// What the first routine that is refused is refused with, and the offset.
    refused: Option<(u8, usize)>,
    shapes: Vec<Shape>,
}

impl Program {
    pub fn new(version: u16, jumps: Jumps, limits: Limits) -> Program {
        Program {
            version,
            jumps,
            code: Vec::new(),
            limits,
            calls: Vec::new(),
            callees: Vec::new(),
            firsts: Vec::new(),
            sums: Vec::new(),
            back: false,
            lengths: Vec::new(),
            marks: Vec::new(),
            refused: None,
            shapes: Vec::new(),
        }
    }

    /// The jump that ends before `next` goes to `target`, which is no byte inside it.
    pub fn aim(&mut self, next: usize, target: usize) {
        let offset = i8::try_from(target as isize - next as isize).expect("a target within reach");
        self.code[next - 1] = offset as u8;
        self.back |= target < next;
    }

    /// The CALL that is added next goes to the routine at this offset. Its operand waits for the base.
    pub fn call(&mut self, callee: usize) {
        self.calls.push((self.code.len() + 1, callee));
        self.callees.push(callee);
    }

    /// The offsets of the routines that a CALLR which is added next can go to.
    pub fn nearby(&self) -> Vec<usize> {
        self.firsts.iter().copied().filter(|first| self.code.len() + 2 - first <= 128).collect()
    }

    /// The CALLR that is added next goes to the routine at this offset, which is nearby. Gives its offset byte.
    pub fn callr(&mut self, callee: usize) -> u8 {
        self.callees.push(callee);
        (callee as isize - (self.code.len() + 2) as isize) as u8
    }

    /// Ends a routine. Its shapes are met if the check comes to it, and if they decide the answer.
    pub fn finish(&mut self, routine: Routine) {
        let sum_of = |callee: usize| self.firsts.iter().position(|&first| first == callee).map_or(0, |number| self.sums[number]);
        let callees = self.callees.iter().fold(0u128, |sum, &callee| sum.saturating_add(sum_of(callee)));
        self.sums.push(callees.saturating_add(routine.starts.len() as u128));
        self.callees.clear();
        self.firsts.push(routine.first);
        self.lengths.push(self.code.len() - routine.first);
        if self.refused.is_none() {
            self.refused = routine.refused(self.version);
            let answer = self.refused.map_or(0, |(number, _)| number);
            self.shapes.extend(routine.shapes.into_iter().filter(|shape| shape.answer() == answer));
        }
    }

    /// The image of these routines, with some base and some marks.
    pub fn case(mut self, random: &mut Random) -> Case {
        let bytes = self.code.len();
        let base = match random.below(4) {
            0 => 0x8000,
            1 => 0x1_0000 - bytes,
            _ => random.between(0x8000, 0x1_0000 - bytes),
        };
        for &(operand, callee) in &self.calls {
            let address = (base + callee) as u16;
            self.code[operand..operand + 2].copy_from_slice(&address.to_be_bytes());
        }
        let (main, greatest) = (self.sums.last().copied().unwrap_or(0), self.sums.iter().copied().max().unwrap_or(0));
        let known = match self.refused {
            Some((number, offset)) => Known::Refused(number, offset as u16),
            None => Known::Accepted(self.marks, KnownTurn { back: self.back, main, greatest }),
        };
        Case {
            image: slu::image(self.version, base as u16, &self.lengths, &self.code),
            limits: self.limits,
            marks: bytes + random.pick(&[0, 0, 1, 9]),
            known: Some(known),
            shapes: self.shapes,
        }
    }
}

/// A jump whose target is not chosen yet, unless it is fixed.
pub struct Jump {
    /// The offset after it; its own offset byte is the one before.
    pub next: usize,
    pub depth: i32,
    pub fixed: bool,
}

impl Jump {
    /// Whether it can still be made to go forward to `here`.
    pub fn reaches(&self, here: usize) -> bool {
        !self.fixed && self.is_near(here)
    }

    /// Whether its offset can lead there.
    pub fn is_near(&self, target: usize) -> bool {
        (-128..=127).contains(&(target as isize - self.next as isize))
    }
}

/// What a routine may have for which it is refused.
#[derive(Clone, Copy)]
pub struct Flaws {
    /// The depths that instructions may lead to; 0 and 255 are the least and the most that are allowed.
    pub shallowest: i32,
    pub deepest: i32,
    /// Whether it may have islands, loops that push or pop, and a jump to another depth.
    pub islands: bool,
    pub slips: bool,
    pub crosses: bool,
    /// Whether it may have CALLR in version 0002 too, and whether it ends with CALLR.
    pub callr: bool,
    pub last_callr: bool,
}

impl Flaws {
    /// Depths of 0 to `deepest`, and nothing to refuse.
    pub fn none(deepest: i32) -> Flaws {
        Flaws { shallowest: 0, deepest, islands: false, slips: false, crosses: false, callr: false, last_callr: false }
    }

    /// Whether a depth may be one that is not allowed.
    pub fn any_depth(&self) -> bool {
        self.shallowest < 0 || self.deepest > 255
    }
}

/// The routine that is being added.
pub struct Routine {
    first: usize,
    pub flaws: Flaws,
    /// The depth at the next start, as the first path to it has it.
    pub depth: i32,
    /// The starts that are reached, rising, and their depths.
    pub starts: Vec<(usize, i32)>,
    pub jumps: Vec<Jump>,
    /// The first starts of loops' bodies: no jump from a lower address goes there.
    pub bodies: Vec<usize>,
    /// The starts that are not reached, rising.
    pub islands: Vec<usize>,
    /// Whether some start has another depth by another path.
    disagree: bool,
    /// The lowest start where a depth is not allowed: code is added rising, so the first that is.
    out_of_range: Option<usize>,
    /// The lowest start of CALLR, cut short or not.
    callr: Option<usize>,
    /// What its last start is refused with where that falls off it or is cut short, and the offset.
    last: Option<(u8, usize)>,
    shapes: Vec<Shape>,
}

impl Routine {
    pub fn new(program: &Program, flaws: Flaws) -> Routine {
        Routine {
            first: program.code.len(),
            flaws,
            depth: 0,
            starts: Vec::new(),
            jumps: Vec::new(),
            bodies: Vec::new(),
            islands: Vec::new(),
            disagree: false,
            out_of_range: None,
            callr: None,
            last: None,
            shapes: Vec::new(),
        }
    }

    /// Adds an instruction after which the depth is `after`.
    pub fn add(&mut self, program: &mut Program, bytes: &[u8], after: i32) {
        let (at, before) = (program.code.len(), self.depth);
        let leaves = before.min(after) < 0 || before.max(after) > 255;
        if self.out_of_range.is_none() && (leaves || bytes == [RET] && before != 0) {
            self.out_of_range = Some(at);
            self.note_depths(before, after);
        }
        self.starts.push((at, before));
        self.note_callr(at, bytes);
        program.code.extend(bytes);
        program.marks.push((before + 1) as u16);
        program.marks.resize(program.code.len(), 0);
        self.depth = after;
    }

    /// Adds an instruction that nothing reached goes to.
    pub fn add_unreached(&mut self, program: &mut Program, bytes: &[u8]) {
        self.islands.push(program.code.len());
        self.note_callr(program.code.len(), bytes);
        program.code.extend(bytes);
        program.marks.resize(program.code.len(), 0);
    }

    /// Adds a last start, which is refused for this.
    pub fn add_last(&mut self, program: &mut Program, bytes: &[u8], shape: Shape) {
        self.last = Some((shape.answer(), program.code.len()));
        self.meets(shape);
        self.add_unreached(program, bytes);
    }

    fn note_callr(&mut self, at: usize, bytes: &[u8]) {
        if bytes[0] == CALLR {
            self.callr.get_or_insert(at);
            self.meets(Shape::Callr);
        }
    }

    fn note_depths(&mut self, before: i32, after: i32) {
        if before.min(after) < 0 {
            self.meets(Shape::Below0);
        }
        if before.max(after) > 255 {
            self.meets(Shape::Above255);
        }
        // No lower start leaves the range, so the path left it at a higher one.
        if !(0..=255).contains(&before) {
            self.meets(Shape::FromAbove);
        }
    }

    /// Adds a jump whose target is chosen later.
    pub fn jump(&mut self, program: &mut Program, bytes: &[u8]) {
        self.add(program, bytes, self.depth);
        self.jumps.push(Jump { next: program.code.len(), depth: self.depth, fixed: false });
    }

    /// Adds what takes the depth to `depth`: SUB SP or ADDW SP, as often as it takes.
    pub fn settle(&mut self, program: &mut Program, depth: i32) {
        while self.depth != depth {
            self.move_sp(program, (depth - self.depth).clamp(-255, 255));
        }
    }

    /// Adds SUB SP or ADDW SP, which changes the depth by -255 to 255.
    fn move_sp(&mut self, program: &mut Program, change: i32) {
        let bytes = if change > 0 { [0x52, change as u8] } else { [0x5B, -change as u8] };
        self.add(program, &bytes, self.depth + change);
    }

    /// Adds such moves from `depth` on, and gives the depth after them.
    pub fn moves(&mut self, program: &mut Program, depth: i32, moves: &[i32]) -> i32 {
        self.depth = depth;
        for &change in moves {
            self.move_sp(program, change);
        }
        self.depth
    }

    /// Two paths give some start different depths, and this is how.
    pub fn disagrees(&mut self, shape: Shape) {
        self.disagree = true;
        self.meets(shape);
    }

    pub fn meets(&mut self, shape: Shape) {
        self.shapes.push(shape);
    }

    /// The reached starts that a jump can go to and whose depth is as asked for.
    pub fn targets(&self, jump: &Jump, depth: impl Fn(i32) -> bool) -> Vec<usize> {
        let good = self.starts.iter().filter(|&&(start, there)| depth(there) && jump.is_near(start));
        let starts = good.map(|&(start, _)| start);
        starts.filter(|start| *start < jump.next || !self.bodies.contains(start)).collect()
    }

    /// The number and offset that it is refused with, in W-202's order. CALLR is allowed where it was added, in version 0001.
    fn refused(&self, version: u16) -> Option<(u8, usize)> {
        if let (2, Some(at)) = (version, self.callr) {
            return Some((8, at));
        }
        if self.last.is_some() {
            return self.last;
        }
        match (self.islands.first(), self.disagree) {
            (Some(&island), _) => Some((6, island)),
            (None, true) => Some((7, self.first)),
            (None, false) => self.out_of_range.map(|at| (11, at)),
        }
    }
}

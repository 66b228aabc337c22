//! Control flow: loops tested at the bottom, which are accepted, and what W-202 refuses with 6, 7 and 11, or W-212 with 8.

use crate::generator::Generator;
use crate::program::{Case, Flaws, Jump, Jumps, Program, Routine};
use crate::shape::Shape;
use gate_twin::slu;
use gate_twin::{self as twin, Instruction};

/// As many bytes as a loop can have beside its body: three jumps, the test, and stack moves between them.
pub const LOOP_FRAME: usize = 44;
/// The most bytes of a body, so that the jumps around it are short enough.
const LONGEST_BODY: usize = 64;
/// The most bytes of an island and the JRA over it.
pub const ISLAND: usize = 22;
/// The most moves of a path's part, so that a jump leads over it.
const PART: usize = 60;

impl Generator<'_> {
    /// A loop tested at the bottom: JRA to the test, the body, the test, and a jump back to the body.
    pub fn bottom_loop(&mut self, program: &mut Program, routine: &mut Routine, left: usize) {
        let outside = routine.depth;
        let inside = self.inside(routine);
        routine.add(program, &[0x20, 0], outside);
        let body = program.code.len();
        routine.bodies.push(body);
        routine.depth = inside;
        self.body(program, routine, left);
        if routine.flaws.slips && self.random.one_in(2) {
            self.slip(program, routine, outside);
        } else {
            routine.settle(program, outside);
        }
        program.aim(body, program.code.len());
        routine.depth = outside;
        self.test(program, routine);
        routine.settle(program, inside);
        self.jump_back(program, routine, body);
        routine.meets(Shape::BottomLoop);
    }

    /// The depth of a body: that before the loop, or one nearby, or one that is just not allowed.
    fn inside(&mut self, routine: &Routine) -> i32 {
        let Flaws { shallowest, deepest, .. } = routine.flaws;
        if routine.flaws.any_depth() && self.random.one_in(3) {
            self.random.pick(&[shallowest, deepest])
        } else {
            (routine.depth + self.random.pick(&[0, 0, 0, -2, -1, 1, 2])).clamp(shallowest, deepest)
        }
    }

    /// A loop each turn of which leaves something on the stack, or takes something from it.
    pub fn slipping_loop(&mut self, program: &mut Program, routine: &mut Routine, left: usize) {
        let (top, depth) = (program.code.len(), routine.depth);
        self.body(program, routine, left);
        self.slip(program, routine, depth);
        self.jump_back(program, routine, top);
        routine.settle(program, depth);
    }

    fn body(&mut self, program: &mut Program, routine: &mut Routine, left: usize) {
        let most = (left - LOOP_FRAME).min(LONGEST_BODY);
        let end = program.code.len() + self.random.between(1, most);
        self.fill(program, routine, end);
    }

    /// Up to two instructions that fall: what came after JRA or RET might be reached from the body alone, and so not at all.
    fn test(&mut self, program: &mut Program, routine: &mut Routine) {
        for _ in 0..self.random.below(3) {
            let template = self.template();
            if !matches!(template.instruction, Instruction::Jump(0, _) | Instruction::Ret) {
                self.falling(program, routine, template);
            }
        }
    }

    /// A turn that began at `depth` comes to another depth.
    fn slip(&mut self, program: &mut Program, routine: &mut Routine, depth: i32) {
        let change = self.random.pick(&[1, 2, 255, 256, -1, -2, -255, -256]);
        routine.settle(program, depth + change);
        routine.disagrees(if change > 0 { Shape::PushingLoop } else { Shape::PoppingLoop });
    }

    /// A conditional jump to `target`, or one over a JRA that goes there.
    fn jump_back(&mut self, program: &mut Program, routine: &mut Routine, target: usize) {
        let jump = self.conditional();
        routine.add(program, &jump, routine.depth);
        if self.random.one_in(4) {
            let next = program.code.len();
            routine.add(program, &[0x20, 0], routine.depth);
            program.aim(next, program.code.len());
        }
        program.aim(program.code.len(), target);
    }

    /// A conditional jump, JRF and those on a bit too, whose target is chosen later.
    pub fn conditional(&mut self) -> Vec<u8> {
        if self.random.one_in(4) {
            let [high, low] = self.random.word().to_be_bytes();
            vec![0x72, self.random.below(16) as u8, high, low, 0]
        } else {
            vec![self.random.between(0x21, 0x2F) as u8, 0]
        }
    }

    /// Some jump goes to a start of another depth, if one can.
    pub fn cross(&mut self, program: &mut Program, routine: &mut Routine) {
        let mut choices = Vec::new();
        for (number, jump) in routine.jumps.iter().enumerate().filter(|(_, jump)| !jump.fixed) {
            let others = routine.targets(jump, |depth| depth != jump.depth);
            choices.extend(self.random.pick_if_any(&others).map(|target| (number, target)));
        }
        let Some((number, target)) = self.random.pick_if_any(&choices) else { return };
        routine.jumps[number].fixed = true;
        program.aim(routine.jumps[number].next, target);
        routine.disagrees(Shape::CrossJump);
    }

    // Islands: code that nothing reached goes to, whatever it does itself.

    /// Adds an island and a JRA over it.
    pub fn island(&mut self, program: &mut Program, routine: &mut Routine) {
        routine.add(program, &[0x20, 0], routine.depth);
        let first = program.code.len();
        for _ in 0..self.random.between(1, 4) {
            let bytes = self.anything();
            routine.add_unreached(program, &bytes);
        }
        let over = program.code.len();
        program.aim(first, over);
        self.aim_island(program, routine, first, Some(over));
    }

    /// Adds an island at the routine's end, off which it does not fall.
    pub fn last_island(&mut self, program: &mut Program, routine: &mut Routine) {
        let first = program.code.len();
        for _ in 0..self.random.below(4) {
            let bytes = self.anything();
            routine.add_unreached(program, &bytes);
        }
        routine.add_unreached(program, if self.random.one_in(3) { &[0x81] } else { &[0x20, 0] });
        self.aim_island(program, routine, first, None);
    }

    /// An instruction of the set, whether or not it is allowed, and often a jump.
    fn anything(&mut self) -> Vec<u8> {
        match self.random.below(4) {
            0 => vec![0x20, 0],
            1 => self.conditional(),
            _ => {
                let template = self.template();
                self.any_operands(template)
            }
        }
    }

    /// The jumps of the island that begins at `first` go to islands, this one or another, or to reached starts, `over` too.
    fn aim_island(&mut self, program: &mut Program, routine: &mut Routine, first: usize, over: Option<usize>) {
        for start in routine.islands.clone().into_iter().filter(|&start| start >= first) {
            let Some(next) = after_jump(&program.code, start) else { continue };
            let jump = Jump { next, depth: routine.depth, fixed: false };
            let islands: Vec<usize> = routine.islands.iter().copied().filter(|&start| jump.is_near(start)).collect();
            let mut reached = routine.targets(&jump, |_| true);
            reached.extend(over);
            let to_itself = self.random.one_in(2);
            program.aim(next, self.random.pick(if to_itself { &islands } else { &reached }));
            routine.meets(if to_itself { Shape::IslandToItself } else { Shape::IslandIntoReached });
        }
    }

    // Depths beyond 16 bits.

    /// A routine of two paths side by side, of stack moves alone, that meet again: at one depth, or apart by a multiple of 65,536.
    fn lanes(&mut self, program: &mut Program) {
        let mut routine = Routine::new(program, Flaws::none(255));
        let [one, other] = self.moves();
        let fork = self.conditional();
        routine.add(program, &fork, 0);
        let mut to_other = program.code.len();
        let mut depths = [0, 0];
        let parts = one.len().max(other.len()).div_ceil(PART);
        // The parts take turns: a JRA after each leads over the other path's part to the next.
        for number in 0..parts {
            depths[0] = routine.moves(program, depths[0], part(&one, number));
            routine.add(program, &[0x20, 0], depths[0]);
            let to_one = program.code.len();
            program.aim(to_other, to_one);
            depths[1] = routine.moves(program, depths[1], part(&other, number));
            if number + 1 < parts {
                routine.add(program, &[0x20, 0], depths[1]);
                to_other = program.code.len();
            }
            program.aim(to_one, program.code.len());
        }
        if depths[0] == depths[1] {
            routine.meets(Shape::AgreeBeyond16Bits);
        } else {
            routine.disagrees(Shape::Apart65536);
        }
        if self.random.one_in(2) {
            routine.settle(program, 0);
            routine.add(program, &[0x81], 0);
        } else {
            routine.add(program, &[0x20, 0xFE], routine.depth);
        }
        program.finish(routine);
    }

    /// The stack moves of two paths, one of which at least passes 16 bits on its way.
    fn moves(&mut self) -> [Vec<i32>; 2] {
        let far = self.random.pick(&[0x1_0000, -0x1_0000, 0x2_0000]);
        let near = self.random.pick(&[0, 0, 1, 255, 22_000]);
        let mut paths = match self.random.below(4) {
            0 => [straight(far + near), straight(far + near)],
            1 => [[straight(far), straight(-far)].concat(), straight(0)],
            _ => [straight(far + near), straight(near)],
        };
        if self.random.one_in(2) {
            paths.reverse();
        }
        paths
    }

    // Images.

    /// An image of routines whose control flow W-202 refuses, or just lets pass, or that have CALLR.
    pub fn flawed(&mut self) -> Case {
        let mut program = Program::new(self.version, Jumps::Any, self.limits());
        let routines = self.random.between(1, 4);
        let with_lanes = if self.random.one_in(8) { self.random.below(routines) } else { routines };
        for number in 0..routines {
            if number == with_lanes {
                self.lanes(&mut program);
            } else {
                let room = self.random.pick(&[20, 60, 120, 200]);
                let flaws = self.flaws();
                self.routine(&mut program, room, flaws);
            }
        }
        program.case(self.random)
    }

    fn flaws(&mut self) -> Flaws {
        let (shallowest, deepest) = self.random.pick(&[(0, 4), (0, 255), (-1, 255), (0, 256), (-2, 257), (-300, 600)]);
        let [islands, slips, crosses, callr, last_callr] = [5, 4, 3, 2, 20].map(|times| self.random.one_in(times));
        Flaws { shallowest, deepest, islands, slips, crosses, callr, last_callr }
    }

    /// An image of a few jumps, stack moves, returns and calls in any order; each jump goes to some start of its routine.
    pub fn tangle(&mut self) -> Case {
        let limits = self.limits();
        let mut code = Vec::new();
        let mut lengths = Vec::new();
        for _ in 0..self.random.pick(&[1, 1, 2, 3]) {
            let first = code.len();
            let mut starts = Vec::new();
            for _ in 0..self.random.between(1, 9) {
                starts.push(code.len());
                code.extend(self.tangled());
            }
            starts.push(code.len());
            code.extend(if self.random.one_in(2) { &[0x81][..] } else { &[0x20, 0] });
            for &start in &starts {
                if let Some(next) = after_jump(&code, start) {
                    code[next - 1] = (self.random.pick(&starts) as isize - next as isize) as u8;
                }
            }
            lengths.push(code.len() - first);
        }
        let image = slu::image(self.version, 0x8000, &lengths, &code);
        Case { image, limits, marks: code.len(), known: None, shapes: Vec::new() }
    }

    fn tangled(&mut self) -> Vec<u8> {
        match self.random.below(12) {
            0..=2 => self.conditional(),
            3..=4 => vec![0x20, 0],
            5 => vec![0x81],
            6 => vec![0x88],
            7 => vec![0x84],
            8 => vec![0x52, self.random.pick(&[1, 2, 254, 255])],
            9 => vec![0x5B, self.random.pick(&[1, 2, 254, 255])],
            10 => vec![0x6B, self.random.pick(&[1, 2])],
            _ => self.random.pick(&[&[0x9D][..], &[0x9D], &[0xCD, 0x80, 0x00]]).to_vec(),
        }
    }
}

/// The offset after the instruction at `start`, if it is a jump.
fn after_jump(code: &[u8], start: usize) -> Option<usize> {
    match twin::decode(&code[start..]) {
        Ok((instruction, length)) if instruction.jump_offset().is_some() => Some(start + length),
        _ => None,
    }
}

/// The moves of a path's part; none where the path has fewer parts.
fn part(moves: &[i32], number: usize) -> &[i32] {
    moves.chunks(PART).nth(number).unwrap_or_default()
}

/// The shortest way from depth 0 to `depth`, in moves of up to 255.
fn straight(depth: i32) -> Vec<i32> {
    let mut moves = vec![255 * depth.signum(); depth.unsigned_abs() as usize / 255];
    moves.extend(Some(depth % 255).filter(|&rest| rest != 0));
    moves
}

//! Images: routines whose answer is known by construction, noise, and borders of the layout.

use crate::flow;
use crate::program::{Case, Flaws, Jump, Jumps, Program, Routine};
use crate::random::Random;
use gate_host::Limits;
use gate_twin::slu;
use gate_twin::{self as twin, Instruction, Modify, Place, Target};

const CODE_AT_MOST: usize = 4_096;

/// One entry of the op-code pages that is in the set.
pub struct Template {
    pub opcode: Vec<u8>,
    pub length: usize,
    pub instruction: Instruction,
}

/// Every op-code of the set.
pub fn templates() -> Vec<Template> {
    let pages: [&[u8]; 3] = [&[], &[0x72], &[0x90]];
    let mut templates = Vec::new();
    for page in pages {
        for last in 0..=255u8 {
            if page.is_empty() && matches!(last, 0x72 | 0x90) {
                continue;
            }
            let opcode = [page, &[last]].concat();
            let mut bytes = opcode.clone();
            bytes.resize(6, 0);
            if let Ok((instruction, length)) = twin::decode(&bytes) {
                templates.push(Template { opcode, length, instruction });
            }
        }
    }
    templates
}

pub struct Generator<'a> {
    pub random: &'a mut Random,
    pub templates: &'a [Template],
    /// The version of the images, 1 or 2.
    pub version: u16,
}

impl<'a> Generator<'a> {
    // Accepted images.

    /// An image that the check accepts, unless its need is above the stack area.
    pub fn accepted(&mut self, jumps: Jumps) -> Case {
        let limits = self.limits();
        let routines = match self.random.below(4) {
            0 => 1,
            1 => self.random.between(2, 4),
            2 => self.random.between(2, 12),
            _ => self.random.between(1, 32),
        };
        let budget = match self.random.below(12) {
            0 => CODE_AT_MOST,
            1..=3 => 1_000,
            _ => 200,
        };
        let mut program = Program::new(self.version, jumps, limits);
        for left in (1..=routines).rev() {
            let room = budget.saturating_sub(program.code.len()) / left;
            let flaws = Flaws::none(self.random.pick(&[4, 30, 255]));
            self.routine(&mut program, room.max(8), flaws);
        }
        program.case(self.random)
    }

    /// Adds a routine of at most `room` bytes, which are at least 8; flaws may make it longer.
    pub fn routine(&mut self, program: &mut Program, room: usize, flaws: Flaws) {
        let mut routine = Routine::new(program, flaws);
        // Room is left for one more instruction and the routine's end.
        let body = self.random.below(room - 7);
        self.fill(program, &mut routine, program.code.len() + body);
        if program.jumps == Jumps::Any && self.random.one_in(5) {
            routine.jump(program, &[0x20, 0]);
        } else {
            if !(flaws.any_depth() && self.random.one_in(4)) {
                routine.settle(program, 0);
            }
            routine.add(program, &[0x81], routine.depth);
        }
        if flaws.islands && self.random.one_in(3) {
            self.last_island(program, &mut routine);
        }
        if flaws.last_callr {
            self.last_callr(program, &mut routine);
        }
        if flaws.crosses {
            self.cross(program, &mut routine);
        }
        self.resolve(program, &routine);
        program.finish(routine);
    }

    /// Adds instructions, loops and islands up to `end`; the last instruction may go 4 bytes past it.
    pub fn fill(&mut self, program: &mut Program, routine: &mut Routine, end: usize) {
        while program.code.len() < end {
            let left = end - program.code.len();
            match self.random.below(24) {
                0 if left > flow::LOOP_FRAME && program.jumps == Jumps::Any => self.bottom_loop(program, routine, left),
                1 if left > flow::LOOP_FRAME && routine.flaws.slips => self.slipping_loop(program, routine, left),
                2 if left >= flow::ISLAND && routine.flaws.islands => self.island(program, routine),
                // A turn is of calls above all.
                3..=6 if program.jumps != Jumps::Any => self.call(program, routine),
                _ => self.instruction(program, routine),
            }
        }
    }

    /// Adds one instruction that is allowed where it stands, or none if the op-code that came up has no allowed form.
    fn instruction(&mut self, program: &mut Program, routine: &mut Routine) {
        let template = self.template();
        match template.instruction {
            jump if jump.jump_offset().is_some() && program.jumps == Jumps::None => {}
            Instruction::Jump(0, _) => {
                routine.jump(program, &[0x20, 0]);
                // Where jumps only go forward the next instruction has its depth, so that it can go there at least.
                let depth = (program.jumps == Jumps::Forward).then_some(routine.depth);
                self.reach(program, routine, depth);
            }
            Instruction::Ret => {
                let here = program.code.len() + 1;
                let returns = routine.depth == 0 || routine.flaws.any_depth() && self.random.one_in(4);
                if returns && routine.jumps.iter().any(|jump| jump.reaches(here)) {
                    routine.add(program, &[0x81], routine.depth);
                    self.reach(program, routine, None);
                }
            }
            _ => self.falling(program, routine, template),
        }
    }

    /// Adds an instruction that falls to the next one, if it has an allowed form.
    pub fn falling(&mut self, program: &mut Program, routine: &mut Routine, template: &Template) {
        let mut bytes = self.any_operands(template);
        if template.instruction.jump_offset().is_some() {
            routine.jump(program, &bytes);
            return;
        }
        let allowed = self.operands(program, routine, template, &mut bytes);
        if let Some(after) = allowed.and_then(|()| self.depth_after(routine, template, &mut bytes)) {
            routine.add(program, &bytes, after);
        }
    }

    /// Adds a call of some earlier routine, if there is one that it can go to.
    fn call(&mut self, program: &mut Program, routine: &mut Routine) {
        let is_call = |template: &&Template| template.instruction.call_address(0).is_some();
        let calls: Vec<&Template> = self.templates.iter().filter(is_call).collect();
        let template = self.random.pick(&calls);
        self.falling(program, routine, template);
    }

    /// Any op-code of the set.
    pub fn template(&mut self) -> &'a Template {
        &self.templates[self.random.below(self.templates.len())]
    }

    /// An instruction of this op-code, whether or not it is allowed.
    pub fn any_operands(&mut self, template: &Template) -> Vec<u8> {
        let mut bytes = template.opcode.clone();
        bytes.resize_with(template.length, || self.random.byte());
        bytes
    }

    /// Mends the operands of calls and stores, if they can be mended.
    fn operands(&mut self, program: &mut Program, routine: &Routine, template: &Template, bytes: &mut [u8]) -> Option<()> {
        // An offset into the stack is a byte, however deep it is.
        let (at, depth, end) = (program.code.len(), routine.depth.clamp(0, 255) as usize, bytes.len());
        match template.instruction {
            Instruction::Call(_) => program.call(self.random.pick_if_any(&program.firsts)?),
            // Outside the set, whatever its offset.
            Instruction::CallRelative(_) if program.version == 2 => return routine.flaws.callr.then_some(()),
            Instruction::CallRelative(_) => bytes[1] = program.callr(self.random.pick_if_any(&program.nearby())?),
            Instruction::StoreA(Place::Stack(_)) if depth < 1 => return None,
            Instruction::StoreA(Place::Stack(_)) => bytes[1] = self.random.between(1, depth) as u8,
            Instruction::StoreWord(Place::Stack(_), _) if depth < 2 => return None,
            Instruction::StoreWord(Place::Stack(_), _) => bytes[1] = self.random.between(1, depth - 1) as u8,
            Instruction::StoreA(Place::Short(_)) | Instruction::MoveShort { .. } => {
                bytes[end - 1] = self.short(&program.limits)?;
            }
            Instruction::Modify(operation, Target::Short(_)) if operation != Modify::Tnz => {
                bytes[1] = self.short(&program.limits)?;
            }
            Instruction::Modify(operation, Target::Long(_)) if operation != Modify::Tnz => {
                bytes[2..].copy_from_slice(&self.direct(&program.limits, 1)?);
            }
            Instruction::StoreA(_)
            | Instruction::MoveImmediate { .. }
            | Instruction::MoveLong { .. }
            | Instruction::Bit(..)
            | Instruction::PopLong(_) => bytes[end - 2..].copy_from_slice(&self.direct(&program.limits, 1)?),
            Instruction::StoreWord(..) => bytes[end - 2..].copy_from_slice(&self.direct(&program.limits, 2)?),
            _ if template.length >= template.opcode.len() + 2 && self.random.one_in(2) => {
                bytes[end - 2..].copy_from_slice(&self.address(&program.limits, 0x8000, at + 8).to_be_bytes());
            }
            _ => {}
        }
        Some(())
    }

    /// The depth after an instruction, its count mended where it has one, if the routine may have that depth.
    fn depth_after(&mut self, routine: &Routine, template: &Template, bytes: &mut [u8]) -> Option<i32> {
        let (depth, Flaws { shallowest, deepest, .. }) = (routine.depth, routine.flaws);
        let after = match template.instruction {
            Instruction::PushA | Instruction::PushImmediate(_) | Instruction::PushLong(_) => depth + 1,
            Instruction::Pushw(_) => depth + 2,
            Instruction::PopA | Instruction::PopLong(_) => depth - 1,
            Instruction::Popw(_) => depth - 2,
            Instruction::SubSp(_) => {
                bytes[1] = self.count(deepest - depth);
                depth + i32::from(bytes[1])
            }
            Instruction::AddSp(_) => {
                bytes[1] = self.count(depth - shallowest);
                depth - i32::from(bytes[1])
            }
            _ => depth,
        };
        (shallowest..=deepest).contains(&after).then_some(after)
    }

    /// How many bytes of the stack to give or take: at most so many, and often just that.
    fn count(&mut self, most: i32) -> u8 {
        let most = most.min(255) as usize;
        if self.random.one_in(4) {
            most as u8
        } else {
            self.random.below(most + 1) as u8
        }
    }

    /// A short address in a grant.
    fn short(&mut self, limits: &Limits) -> Option<u8> {
        self.granted(limits, 1, 0x00FF).map(|address| address as u8)
    }

    /// An address at which so many bytes lie in a grant.
    fn direct(&mut self, limits: &Limits, bytes: u16) -> Option<[u8; 2]> {
        self.granted(limits, bytes, 0xFFFF).map(u16::to_be_bytes)
    }

    /// After JRA or RET: some earlier jump, of this depth if one is given, goes to the next instruction, which has that jump's depth.
    fn reach(&mut self, program: &mut Program, routine: &mut Routine, depth: Option<i32>) {
        let here = program.code.len();
        let good = |jump: &Jump| jump.reaches(here) && depth.is_none_or(|depth| jump.depth == depth);
        let near: Vec<usize> = (0..routine.jumps.len()).filter(|&number| good(&routine.jumps[number])).collect();
        let jump = &mut routine.jumps[self.random.pick(&near)];
        jump.fixed = true;
        program.aim(jump.next, here);
        routine.depth = jump.depth;
    }

    /// The jumps that are still free go to starts of their depth; their own start is always one, and so is the next where jumps only
    /// go forward.
    fn resolve(&mut self, program: &mut Program, routine: &Routine) {
        for jump in routine.jumps.iter().filter(|jump| !jump.fixed) {
            let mut targets = routine.targets(jump, |depth| depth == jump.depth);
            targets.retain(|&target| program.jumps == Jumps::Any || target >= jump.next);
            program.aim(jump.next, self.random.pick(&targets));
        }
    }

    // Noise.

    /// An image with a good header whose code is a few instructions of the set with any operands, or any bytes.
    pub fn noise(&mut self) -> Case {
        let limits = self.limits();
        let mut code = Vec::new();
        for _ in 0..self.random.between(1, 8) {
            let template = &self.templates[self.random.below(self.templates.len())];
            code.extend(&template.opcode);
            for _ in template.opcode.len()..template.length {
                let operand = if self.random.one_in(2) { self.random.below(6) as u8 } else { self.random.byte() };
                code.push(operand);
            }
            if template.length >= template.opcode.len() + 2 && self.random.one_in(3) {
                let grant = self.random.one_in(2);
                let address = if grant { self.grant_border(&limits) } else { self.address(&limits, 0x8000, code.len()) };
                let end = code.len();
                code[end - 2..].copy_from_slice(&address.to_be_bytes());
            }
            if self.random.one_in(12) {
                code.push(self.random.byte());
            }
        }
        if self.random.one_in(4) {
            let call: &[u8] = if self.random.one_in(2) { &[0xCD, 0x80, 0x00] } else { &[0xAD, 0x00] };
            code.extend(call);
        }
        let routines = self.random.between(1, code.len().min(4));
        let mut lengths = vec![1; routines];
        for _ in routines..code.len() {
            lengths[self.random.below(routines)] += 1;
        }
        let base = match self.random.below(3) {
            0 => 0x8000,
            1 => 0x1_0000 - code.len(),
            _ => self.random.between(0x8000, 0x1_0000 - code.len()),
        };
        let marks = code.len() + self.random.below(3);
        let image = slu::image(self.version, base as u16, &lengths, &code);
        Case { image, limits, marks, known: None, shapes: Vec::new() }
    }

    // Borders of the layout.

    /// Routines of NOP and RET whose number, lengths and addresses are at or just past what the layout allows.
    pub fn border(&mut self) -> Case {
        let limits = self.limits();
        let routines = self.random.pick(&[1, 2, 31, 32, 33]);
        let total = self.random.pick(&[routines, 4_095, 4_096, 4_097]);
        let mut lengths = vec![total / routines; routines];
        lengths[routines - 1] += total % routines;
        let mut code = vec![0x9D; total];
        let mut end = 0;
        for length in &lengths {
            end += length;
            code[end - 1] = 0x81;
        }
        if routines >= 2 && self.random.one_in(4) {
            // The sum passes 16 bits and comes back to the same number.
            lengths[0] += 0x8000;
            lengths[1] += 0x8000;
        }
        let top = 0x1_0000 - total;
        let base = self.random.pick(&[0x7FFF, 0x8000, 0x8001, top - 1, top, (top + 1).min(0xFFFF)]);
        let marks = total - self.random.pick(&[0, 0, 0, 1]);
        let image = slu::image(self.version, base as u16, &lengths, &code);
        Case { image, limits, marks, known: None, shapes: Vec::new() }
    }
}

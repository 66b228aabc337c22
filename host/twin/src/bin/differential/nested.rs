//! Nested calls: images whose turn is any number that is asked for, and such that have a jump back.

use crate::generator::Generator;
use crate::program::{Case, Flaws, Jumps, Program, Routine};
use crate::versions::CALLR;

/// What a routine begins with.
#[derive(Clone, Copy, PartialEq)]
enum Front {
    Nothing,
    /// A jump over all but RET.
    JumpOver,
    /// A jump to its own or a lower address.
    JumpBack,
}

/// A routine: so many calls and other instructions, in any order, and RET.
#[derive(Clone, Copy)]
struct Level {
    calls: usize,
    others: usize,
}

impl Generator<'_> {
    /// An image of routines each of which calls the one before several times. Now and then there is one that nobody calls, or a main
    /// after them that calls nothing.
    pub fn nested(&mut self) -> Case {
        let mut program = Program::new(self.version, Jumps::Any, self.limits());
        let front = self.random.pick(&[Front::Nothing, Front::Nothing, Front::JumpOver, Front::JumpBack]);
        let turn = self.turn() - u128::from(front == Front::JumpOver);
        let levels = self.levels(turn);
        let fronted = if front == Front::JumpBack { self.random.below(levels.len()) } else { 0 };
        let aside = self.random.below(4 * levels.len());
        let mut callee = 0;
        for (number, &level) in levels.iter().enumerate().rev() {
            if number == aside {
                let front = self.random.pick(&[Front::Nothing, Front::JumpBack]);
                self.level(&mut program, Level { calls: 0, others: 1 }, front, callee);
            }
            let first = program.code.len();
            self.level(&mut program, level, if number == fronted { front } else { Front::Nothing }, callee);
            callee = first;
        }
        if self.random.one_in(8) {
            self.level(&mut program, Level { calls: 0, others: 1 }, Front::Nothing, callee);
        }
        program.case(self.random)
    }

    /// A turn of 2 or more, often of a run that is not long, or beside 2 to the 32 or a multiple of 2 to the 64.
    fn turn(&mut self) -> u128 {
        let small = self.random.below(0x1_0000) as u128;
        let times = self.random.between(1, 3) as u128;
        match self.random.below(8) {
            0..=3 => 2 + (small >> self.random.below(16)),
            4 => (1 << 32) - 2 + self.random.below(4) as u128,
            5 => (times << 32) + small,
            6 => (times << 64) + small - self.random.pick(&[0, 4]),
            _ => 2 + (u128::from(self.random.next()) << self.random.below(36)),
        }
    }

    /// Routines, main first, each of which calls the next, so that main's turn is this.
    fn levels(&mut self, turn: u128) -> Vec<Level> {
        // So many calls in each that 28 routines with calls are enough.
        let least = (turn as f64).powf(1.0 / 28.0).ceil().max(2.0) as usize;
        let mut levels = Vec::new();
        let mut left = turn;
        // Of fewer there might be none left for the callee.
        while left > 40 {
            let calls = least + self.random.below(4);
            let rest = left - 1;
            levels.push(Level { calls, others: (rest % calls as u128) as usize });
            left = rest / calls as u128 - 1;
        }
        levels.push(Level { calls: 0, others: left as usize - 1 });
        levels
    }

    /// Adds a routine whose calls go to the one at `callee`.
    fn level(&mut self, program: &mut Program, level: Level, front: Front, callee: usize) {
        let mut routine = Routine::new(program, Flaws::none(255));
        self.front(program, &mut routine, front);
        let next = program.code.len();
        let mut order = [vec![true; level.calls], vec![false; level.others]].concat();
        self.random.shuffle(&mut order);
        for is_call in order {
            if is_call {
                self.call_of(program, &mut routine, callee);
            } else {
                // NOP, SCF, RCF, CCF, INC A
                routine.add(program, &[self.random.pick(&[0x9D, 0x99, 0x98, 0x8C, 0x4C])], 0);
            }
        }
        if front == Front::JumpOver {
            program.aim(next, program.code.len());
        }
        routine.add(program, &[0x81], 0);
        program.finish(routine);
    }

    /// Adds what a routine begins with. The target of a jump over the rest is chosen later.
    fn front(&mut self, program: &mut Program, routine: &mut Routine, front: Front) {
        let first = program.code.len();
        if front == Front::JumpBack && self.random.one_in(2) {
            routine.add(program, &[0x9D], 0);
        }
        if front != Front::Nothing {
            let jump = if self.random.one_in(3) { vec![0x21, 0] } else { self.conditional() };
            routine.add(program, &jump, 0);
        }
        if front == Front::JumpBack {
            program.aim(program.code.len(), first);
        }
    }

    /// Adds a call of the routine at `callee`, by CALLR too where that can be.
    pub fn call_of(&mut self, program: &mut Program, routine: &mut Routine, callee: usize) {
        if program.version == 1 && program.nearby().contains(&callee) && self.random.one_in(2) {
            let offset = program.callr(callee);
            routine.add(program, &[CALLR, offset], routine.depth);
        } else {
            program.call(callee);
            routine.add(program, &[0xCD, 0, 0], routine.depth);
        }
    }
}

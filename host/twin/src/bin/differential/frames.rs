//! The frames on the stack of an accepted image: what states are good by construction, and what makes one that is not.

use crate::generator::Generator;
use crate::met::that_hold;
use crate::program::{Case, Flaws, Jumps, Program, Routine};
use crate::random::Random;
use crate::resumes::Resumes;
use crate::saved::SavedCells;
use gate_host::Area;
use gate_twin as twin;
use std::iter;

/// A start: its address, the number of its routine, and its depth.
#[derive(Clone, Copy)]
pub struct Start {
    pub address: u16,
    routine: usize,
    pub depth: u16,
}

/// A call: the address after it, the number of the routine that it calls, where it stands, and whether it is CALLR.
#[derive(Clone, Copy)]
pub struct Call {
    after: u16,
    callee: usize,
    from: Start,
    relative: bool,
}

/// The starts and calls of an accepted image.
pub struct Calls<'a> {
    image: twin::Image<'a>,
    starts: Vec<Start>,
    calls: Vec<Call>,
    /// For each routine, whether calls lead there from main, which is the last.
    led_to: Vec<bool>,
}

impl<'a> Calls<'a> {
    /// Those of an image that is accepted with these marks.
    pub fn new(file: &'a [u8], marks: &[u16]) -> Calls<'a> {
        let image = twin::Image::parse(file).expect("an accepted image");
        let firsts: Vec<usize> = image.routines().map(|(first, _)| image.base as usize + first).collect();
        let routine = |address: usize| firsts.iter().rposition(|&first| first <= address).unwrap_or(0);
        let (mut starts, mut calls) = (Vec::new(), Vec::new());
        for at in (0..image.code.len()).filter(|&at| marks[at] != 0) {
            let address = image.base as usize + at;
            let start = Start { address: address as u16, routine: routine(address), depth: marks[at] - 1 };
            starts.push(start);
            let (instruction, length) = twin::decode(&image.code[at..]).expect("an instruction at a start");
            if let Some(callee) = instruction.call_address((address + length) as i32) {
                let relative = matches!(instruction, twin::Instruction::CallRelative(_));
                calls.push(Call { after: (address + length) as u16, callee: routine(callee as usize), from: start, relative });
            }
        }
        let mut led_to = vec![false; firsts.len()];
        led_to[firsts.len() - 1] = true;
        // Who calls comes later than who is called.
        for call in calls.iter().rev() {
            led_to[call.callee] |= led_to[call.from.routine];
        }
        Calls { image, starts, calls, led_to }
    }

    pub fn code_bytes(&self) -> usize {
        self.image.code.len()
    }

    fn is_main(&self, routine: usize) -> bool {
        routine + 1 == self.led_to.len()
    }

    /// The state that PC, SP and the stack tell, if it is one of a run.
    pub fn state(&self, pc: u16, sp: u16, memory: &[u8], stack: Area) -> Option<State> {
        let start = *self.starts.iter().find(|start| start.address == pc)?;
        let (mut calls, mut place, mut at) = (Vec::new(), start, usize::from(sp));
        loop {
            at += usize::from(place.depth) + 1;
            let address = u16::from_be_bytes([*memory.get(at)?, *memory.get(at + 1)?]);
            at += 1;
            if self.is_main(place.routine) {
                return (address == 0 && at == usize::from(stack.high)).then_some(State { start, calls });
            }
            let call = self.calls.iter().find(|call| call.after == address && call.callee == place.routine)?;
            calls.push(*call);
            place = call.from;
        }
    }
}

/// Where PC stands, and the calls that have not returned, the last one first.
#[derive(Clone)]
pub struct State {
    pub start: Start,
    calls: Vec<Call>,
}

impl State {
    /// How many stack bytes are in use.
    pub fn size(&self) -> u16 {
        self.depths().map(|depth| depth + 2).sum()
    }

    fn depths(&self) -> impl Iterator<Item = u16> + '_ {
        iter::once(self.start.depth).chain(self.calls.iter().map(|call| call.from.depth))
    }

    /// The return addresses, the lowest first, each with how far above SP it lies.
    pub fn returns(&self) -> Vec<(u16, u16)> {
        let addresses = self.calls.iter().map(|call| call.after).chain([0]);
        let mut above = 0;
        let place = |(depth, address)| {
            above += depth + 2;
            (above - 1, address)
        };
        self.depths().zip(addresses).map(place).collect()
    }

    pub fn is_of_three_frames(&self) -> bool {
        self.calls.len() >= 2
    }

    pub fn has_a_caller_pushed(&self) -> bool {
        self.calls.iter().any(|call| call.from.depth > 0)
    }

    /// What a state that is good has of it.
    pub fn kinds(&self) -> impl Iterator<Item = Resumes> + '_ {
        let (own, levels) = (self.start.depth > 0, self.calls.len());
        that_hold([
            (Resumes::InMain, levels == 0 && !own),
            (Resumes::InMainPushed, levels == 0 && own),
            (Resumes::InCallee, levels > 0),
            (Resumes::InCalleePushed, levels > 0 && own),
            (Resumes::CallerPushed, self.has_a_caller_pushed()),
            (Resumes::ThreeFrames, self.is_of_three_frames()),
            (Resumes::TenFrames, levels >= 9),
            (Resumes::ByCallr, self.calls.iter().any(|call| call.relative)),
            (Resumes::ByBoth, self.calls.iter().any(|call| call.relative) && self.calls.iter().any(|call| !call.relative)),
        ])
    }
}

/// A good state as it is saved, with SP, the stack that it lies in, and the number of marks that are lent.
pub struct Sound<'a> {
    pub calls: &'a Calls<'a>,
    pub state: State,
    pub sp: u16,
    pub saved: SavedCells,
    pub stack: Area,
    pub marks: usize,
}

/// A saved state that is not good with these bytes of memory.
pub struct Damaged {
    pub met: Resumes,
    pub saved: Vec<u8>,
    pub bytes: Vec<(u16, [u8; 2])>,
}

impl Sound<'_> {
    /// The bytes of the return addresses, for an SP that may be another.
    pub fn frames(&self, sp: u16) -> Vec<(u16, [u8; 2])> {
        let frame = |(above, address): (u16, u16)| (sp + above, address.to_be_bytes());
        self.state.returns().into_iter().map(frame).collect()
    }

    fn with(&self, met: Resumes, change: impl FnOnce(&mut Vec<u8>)) -> Damaged {
        let mut saved = self.saved.to_vec();
        change(&mut saved);
        Damaged { met, saved, bytes: Vec::new() }
    }

    fn with_pc(&self, met: Resumes, pc: u16) -> Damaged {
        self.with(met, |saved| saved[5..7].copy_from_slice(&pc.to_be_bytes()))
    }

    fn with_sp(&self, met: Resumes, sp: u16) -> Damaged {
        self.with(met, |saved| saved[7..9].copy_from_slice(&sp.to_be_bytes()))
    }

    /// A return address is another: that of this frame, counted from the lowest.
    fn with_return(&self, met: Resumes, frame: usize, address: u16) -> Damaged {
        let (above, _) = self.state.returns()[frame];
        Damaged { bytes: vec![(self.sp + above, address.to_be_bytes())], ..self.with(met, |_| ()) }
    }

    /// PC is no start, or is a start of a routine to which no calls lead from main.
    fn wrong_pc(&self, random: &mut Random) -> Option<Damaged> {
        let Calls { image, starts, led_to, .. } = self.calls;
        let (base, size) = (image.base as usize, image.code.len());
        let address = |offset: usize| u16::try_from(base + offset).ok();
        Some(match random.below(6) {
            0 => self.wrong_pc_0(random),
            1 => {
                let inside: Vec<u16> = (0..size).filter_map(address).filter(|&pc| self.no_start(pc)).collect();
                self.with_pc(Resumes::PcInside, random.pick_if_any(&inside)?)
            }
            2 => self.with_pc(Resumes::PcBelow, random.between(1, base - 1) as u16),
            3 if self.marks > size && self.state.calls.is_empty() => self.with_pc(Resumes::PcPastMarked, address(size)?),
            3 => self.with_pc(Resumes::PcPast, address(size)?),
            4 => self.with_pc(Resumes::PcPast, address(size + random.below(0x1000))?),
            _ => {
                let alone = starts.iter().filter(|start| !led_to[start.routine]);
                let alone: Vec<u16> = alone.map(|start| start.address).collect();
                self.with_pc(Resumes::NobodyCalls, random.pick_if_any(&alone)?)
            }
        })
    }

    /// PC is 0, and SP is not at stack high.
    fn wrong_pc_0(&self, random: &mut Random) -> Damaged {
        if random.one_in(2) {
            return self.with_pc(Resumes::Pc0, 0);
        }
        let above = self.stack.high + random.pick(&[1, 1, 2, 0x7FFF]);
        self.with(Resumes::Pc0Above, |saved| {
            saved[5..7].fill(0);
            saved[7..9].copy_from_slice(&above.to_be_bytes());
        })
    }

    fn no_start(&self, address: u16) -> bool {
        self.calls.starts.binary_search_by_key(&address, |start| start.address).is_err()
    }

    /// SP is so high that a frame passes stack high, or the address space.
    fn wrong_sp(&self, random: &mut Random) -> Damaged {
        let least = self.stack.high - self.state.start.depth - 1;
        match random.below(4) {
            0 => self.with_sp(Resumes::SpAbove, least),
            1 => self.with_sp(Resumes::SpAbove, random.between(least.into(), 0x7FFF) as u16),
            2 => self.with_sp(Resumes::SpWraps, 0xFFFF - random.below(usize::from(self.state.start.depth) + 2) as u16),
            _ => self.with_sp(Resumes::SpWraps, 0xFFFF),
        }
    }

    /// All frames are there, and main's bytes do not end at stack high.
    fn shifted(&self, random: &mut Random) -> Option<Damaged> {
        let bytes = random.between(1, 4) as u16;
        let (met, sp) = if random.one_in(2) {
            (Resumes::BelowTop, self.sp.checked_sub(bytes)?)
        } else {
            (Resumes::AboveTop, self.sp + bytes)
        };
        let mut frames = self.frames(sp);
        frames.retain(|&(address, _)| address < 0x7FFF);
        Some(Damaged { bytes: frames, ..self.with_sp(met, sp) })
    }

    /// Main's bytes are not 0000.
    fn wrong_main(&self, random: &mut Random) -> Damaged {
        let afters: Vec<u16> = self.calls.calls.iter().map(|call| call.after).collect();
        let one = random.between(1, 255) as u16;
        let any = random.pick_if_any(&afters).unwrap_or(one);
        let address = random.pick(&[one, one << 8, any, self.state.start.address]);
        self.with_return(Resumes::MainReturns, self.state.calls.len(), address)
    }

    /// One of the other return addresses, if there are any, is not after a call to its routine.
    fn wrong_return(&self, random: &mut Random) -> Option<Damaged> {
        let frames: Vec<usize> = (0..self.state.calls.len()).collect();
        let frame = random.pick_if_any(&frames)?;
        let Call { after, callee, .. } = self.state.calls[frame];
        let Calls { starts, calls, .. } = self.calls;
        let is_call = |address: u16| calls.iter().any(|call| call.after == address);
        let is_good = |address: u16| calls.iter().any(|call| call.after == address && call.callee == callee);
        let (met, address) = match random.below(6) {
            0..=1 => {
                let others: Vec<u16> = calls.iter().map(|call| call.after).filter(|&address| !is_good(address)).collect();
                (Resumes::AfterOtherCall, random.pick_if_any(&others)?)
            }
            2 => {
                let others: Vec<u16> = starts.iter().map(|start| start.address).filter(|&address| !is_call(address)).collect();
                (Resumes::AfterNoCall, random.pick_if_any(&others)?)
            }
            3 => (Resumes::OneBit, after ^ 1 << random.below(16)),
            4 => (Resumes::Exchanged, after.swap_bytes()),
            _ => (Resumes::Returns0000, 0),
        };
        (!is_good(address)).then(|| self.with_return(met, frame, address))
    }

    /// PC at some start, or SP beside the right one.
    pub fn elsewhere(&self, random: &mut Random) -> (u16, u16) {
        let beside = (self.sp + random.between(1, 4) as u16).saturating_sub(random.below(8) as u16);
        let starts = &self.calls.starts;
        let near = starts.iter().filter(|start| start.routine == self.state.start.routine);
        let near: Vec<u16> = near.map(|start| start.address).collect();
        match random.below(4) {
            0 => (self.state.start.address, beside),
            1 => (starts[random.below(starts.len())].address, self.sp),
            2 => (starts[random.below(starts.len())].address, beside),
            _ => (random.pick(&near), self.sp),
        }
    }

    /// Something that is refused with 35, if what came up can be.
    pub fn damaged(&self, random: &mut Random) -> Option<Damaged> {
        match random.below(10) {
            0..=2 => self.wrong_pc(random),
            3 => Some(self.wrong_sp(random)),
            4 => self.shifted(random),
            5 => Some(self.wrong_main(random)),
            _ => self.wrong_return(random),
        }
    }
}

impl Generator<'_> {
    /// An image of routines that call earlier ones, most often the one before, with bytes pushed around the calls.
    pub fn deep(&mut self) -> Case {
        let mut program = Program::new(self.version, Jumps::Any, self.limits());
        for _ in 0..self.random.between(3, 12) {
            let mut routine = Routine::new(&program, Flaws::none(255));
            for _ in 0..self.random.pick(&[1, 1, 1, 2]) {
                let depth = self.random.pick(&[0, 1, 2, 3, 9]);
                routine.settle(&mut program, depth);
                let last = program.firsts.last().copied().filter(|_| !self.random.one_in(4));
                if let Some(callee) = last.or_else(|| self.random.pick_if_any(&program.firsts)) {
                    self.call_of(&mut program, &mut routine, callee);
                }
                if self.random.one_in(2) {
                    routine.add(&mut program, &[0x88], routine.depth + 1);
                }
            }
            routine.settle(&mut program, 0);
            routine.add(&mut program, &[0x81], 0);
            program.finish(routine);
        }
        program.case(self.random)
    }

    /// A state that is good, whether or not a run comes to it.
    pub fn good_state(&mut self, calls: &Calls) -> State {
        let routines: Vec<usize> = (0..calls.led_to.len()).filter(|&routine| calls.led_to[routine]).collect();
        let routine = self.random.pick(&routines);
        let starts: Vec<Start> = calls.starts.iter().copied().filter(|start| start.routine == routine).collect();
        let mut state = State { start: self.random.pick(&starts), calls: Vec::new() };
        let mut callee = routine;
        while !calls.is_main(callee) {
            let callers = calls.calls.iter().copied().filter(|call| call.callee == callee && calls.led_to[call.from.routine]);
            let call = self.random.pick(&callers.collect::<Vec<Call>>());
            state.calls.push(call);
            callee = call.from.routine;
        }
        state
    }
}

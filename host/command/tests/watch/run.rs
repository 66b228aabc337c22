//! What a trace has to print: the routine run by single steps of the library and of the twin, which agree.

use gate_host::{Limits, Registers, MARKS_ENOUGH, MEMORY_BYTES};
use gate_twin::random::Random;
use gate_twin::{self as twin, Image};

/// A step or the way back over one, as a line tells it.
#[derive(Clone, Debug, PartialEq, Eq)]
pub struct Step {
    pub address: u32,
    pub text: String,
    /// A, X, Y and SP after it.
    pub registers: [u32; 4],
    /// The bits of CC that are flags.
    pub flags: u8,
    pub changed: u8,
    /// Address, before and after of each byte.
    pub stored: Vec<(u32, u8, u8)>,
    /// Below 0 where it is gone back over.
    pub cycles: i64,
    pub sum: u64,
}

#[derive(Clone, Copy)]
pub enum Ending {
    Finished,
    Break,
    Steps,
}

pub struct Expected {
    pub memory: Vec<u8>,
    given: Registers,
    most: usize,
    stop: Option<u32>,
    pub back: usize,
    pub steps: Vec<Step>,
    pub ending: Ending,
    /// PC at the end.
    pub pc: u32,
    pub undone: Vec<Step>,
    /// The registers at the start and after each step.
    states: Vec<Registers>,
    need: u16,
    count: u16,
}

/// The bits of CC that are flags: all but 6.
const FLAGS: u8 = 0xBF;

impl Expected {
    /// The image's routine with any registers and memory, so many steps, perhaps a break, and steps back.
    pub fn any(image: &[u8], limits: &Limits, random: &mut Random) -> Expected {
        let mut memory = vec![0; MEMORY_BYTES];
        random.fill(&mut memory);
        let given = Registers { a: random.byte(), x: random.word(), y: random.word(), cc: random.byte(), ..Registers::default() };
        let mut marks = [0; MARKS_ENOUGH];
        let accepted = twin::check(image, limits, &mut marks).expect("an accepted image");
        let base = Image::parse(image).expect("a layout").base;
        let starts: Vec<u32> = (0..).zip(&marks).filter(|(_, &mark)| mark > 0).map(|(offset, _)| base + offset).collect();
        let mut expected = Expected {
            memory,
            given,
            most: random.pick(&[0, 1, 10, 100, 100]),
            stop: random.one_in(3).then(|| random.pick(&starts)),
            back: random.pick(&[0, 1, 7, 1_000]),
            steps: Vec::new(),
            ending: Ending::Steps,
            pc: 0,
            undone: Vec::new(),
            states: Vec::new(),
            need: accepted.need,
            count: accepted.count,
        };
        expected.run(image, limits);
        expected.undo();
        expected
    }

    fn run(&mut self, image: &[u8], limits: &Limits) {
        let (mut memory, mut registers, mut marks) = (self.memory.clone(), self.given, [0; MARKS_ENOUGH]);
        gate_host::start(image, limits, &mut marks, &mut memory, &mut registers).expect("a start");
        let (mut twins, mut twin_registers) = (self.memory.clone(), self.given);
        twin::start(image, limits, &mut marks, &mut twins, &mut twin_registers).expect("a start");
        self.states.push(registers);
        loop {
            assert_eq!((registers, memory == twins), (twin_registers, true));
            self.ending = match registers.pc {
                0 => Ending::Finished,
                pc if Some(pc) == self.stop => Ending::Break,
                _ if self.steps.len() == self.most => Ending::Steps,
                _ => {
                    let before = memory.clone();
                    let (made, record) = gate_host::step(image, limits, &mut memory, &mut registers);
                    assert_eq!((made, record), twin::step(image, limits, &mut twins, &mut twin_registers));
                    let Ok(gate_host::Step::Made { cycles }) = made else { panic!("{made:?}") };
                    let addresses = record.bytes[..record.count as usize].iter().map(|byte| byte.address);
                    let stored = addresses.map(|address| (address, before[address as usize], memory[address as usize]));
                    self.made(image, registers, stored.collect(), cycles as i64);
                    continue;
                }
            };
            self.pc = registers.pc;
            return;
        }
    }

    fn made(&mut self, image: &[u8], after: Registers, stored: Vec<(u32, u8, u8)>, cycles: i64) {
        let before = self.states[self.states.len() - 1];
        let sum = self.steps.last().map_or(0, |step| step.sum) + cycles as u64;
        let image = Image::parse(image).expect("a layout");
        let (instruction, length) = image.decode(&image.code[(before.pc - image.base) as usize..]).expect("an instruction");
        let text = twin::text(instruction, length, before.pc as u16).to_string();
        self.steps.push(moved(before.pc, text, before, after, stored, cycles, sum));
        self.states.push(after);
    }

    /// Each step that is gone back over leaves what was there before it.
    fn undo(&mut self) {
        for number in (0..self.steps.len()).rev().take(self.back) {
            let (step, from, to) = (self.steps[number].clone(), self.states[number + 1], self.states[number]);
            let stored = step.stored.iter().map(|&(address, before, after)| (address, after, before)).collect();
            let sum = step.sum - step.cycles as u64;
            self.undone.push(moved(step.address, step.text, from, to, stored, -step.cycles, sum));
        }
    }

    /// The options.
    pub fn words(&self, memory: &str) -> Vec<String> {
        let Registers { a, x, y, cc, .. } = self.given;
        let registers = format!("--registers=A={a:02X},X={x:04X},Y={y:04X},CC={cc:02X}");
        let mut words = vec![registers, format!("--memory={memory}"), format!("--steps={}", self.most)];
        words.extend(self.stop.map(|address| format!("--break={address:04X}")));
        words.extend((self.back > 0).then(|| format!("--back={}", self.back)));
        words
    }

    /// The same as objects.
    pub fn json(&self) -> String {
        let (start, made) = (self.states[0], self.steps.len());
        let mut lines = vec![format!(
            "{{\"kind\":\"start\",\"need\":{},\"count\":{},\"registers\":{},\"flags\":{}}}",
            self.need,
            self.count,
            registers(&start),
            flags(start.cc)
        )];
        for (number, step) in self.steps.iter().enumerate() {
            lines.push(object("step", step, &self.states[number], &self.states[number + 1], number + 1));
        }
        let end = ["finished", "break", "steps"][self.ending as usize];
        lines.push(ended(end, self.pc, made, self.steps.last().map_or(0, |step| step.sum)));
        for (undone, step) in self.undone.iter().enumerate() {
            let number = made - undone - 1;
            lines.push(object("back", step, &self.states[number + 1], &self.states[number], number));
        }
        if self.back > 0 {
            let left = made - self.undone.len();
            let sum = if left == 0 { 0 } else { self.steps[left - 1].sum };
            lines.push(ended("back", self.states[left].pc, left, sum));
        }
        lines.join("\n") + "\n"
    }
}

fn moved(address: u32, text: String, from: Registers, to: Registers, stored: Vec<(u32, u8, u8)>, cycles: i64, sum: u64) -> Step {
    let registers = [to.a.into(), to.x.into(), to.y.into(), to.sp.into()];
    Step { address, text, registers, flags: to.cc & FLAGS, changed: (from.cc ^ to.cc) & FLAGS, stored, cycles, sum }
}

fn object(kind: &str, step: &Step, from: &Registers, to: &Registers, steps: usize) -> String {
    let stored: Vec<String> = step
        .stored
        .iter()
        .map(|(address, before, after)| format!("{{\"address\":{address},\"before\":{before},\"after\":{after}}}"))
        .collect();
    format!(
        "{{\"kind\":\"{kind}\",\"address\":{},\"text\":\"{}\",\"before\":{},\"after\":{},\"flags\":{},\"changed\":{},\"stored\":[{}],\
         \"cycles\":{},\"steps\":{steps},\"sum\":{}}}",
        step.address,
        step.text,
        registers(from),
        registers(to),
        flags(step.flags),
        flags(step.changed),
        stored.join(","),
        step.cycles.abs(),
        step.sum
    )
}

fn ended(end: &str, pc: u32, steps: usize, sum: u64) -> String {
    format!("{{\"kind\":\"end\",\"end\":\"{end}\",\"address\":{pc},\"steps\":{steps},\"sum\":{sum}}}")
}

fn registers(registers: &Registers) -> String {
    let Registers { a, x, y, cc, sp, pc } = registers;
    format!("{{\"a\":{a},\"x\":{x},\"y\":{y},\"cc\":{cc},\"sp\":{sp},\"pc\":{pc}}}")
}

fn flags(cc: u8) -> String {
    let names = ["C", "Z", "N", "I0", "H", "I1", "", "V"];
    let set = (0..8).rev().filter(|&bit| bit != 6 && cc >> bit & 1 == 1);
    format!("[{}]", set.map(|bit| format!("\"{}\"", names[bit])).collect::<Vec<_>>().join(","))
}

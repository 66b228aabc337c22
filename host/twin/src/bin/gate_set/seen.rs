//! What steps of an op-code were seen to do: the flags, the stack, the bytes stored, and when a jump is taken.

use crate::form::{Opcode, ADDRESS};
use gate_host::{step, step_back, Area, Limits, Record, Registers, Step, MEMORY_BYTES};
use gate_twin::{random::Random, slu};

/// Room for the stack bytes of any instruction on either side of SP, and for any store at SP plus an offset.
const STACK: Area = Area { low: 0x6000, high: 0x7FFF };
const SP: [usize; 2] = [0x6100, 0x7E00];
const LIMITS: Limits = Limits { grant: Area { low: 0x0000, high: 0x5FFF }, stack: STACK, second: Area::NONE };
const EDGES: [u8; 8] = [0x00, 0x01, 0x0F, 0x10, 0x7F, 0x80, 0xFE, 0xFF];
/// The states that each value of A is tried in, and those that each edge is tried in besides.
const STATES: usize = 16;
const EDGE_STATES: usize = 512;
/// The flags by their bits in CC.
const FLAGS: [(char, u8); 5] = [('V', 7), ('H', 4), ('N', 2), ('Z', 1), ('C', 0)];
/// Bit 6, I1 and I0.
const KEPT: u8 = 0b0110_1000;

/// One step that was made.
struct Trial {
    before: Registers,
    after: Registers,
    record: Record,
    operands: Vec<u8>,
}

/// The trials of an op-code: every A, and for each of them other X, Y, CC, SP, operand bytes and memory.
pub struct Seen {
    trials: Vec<Trial>,
    length: u32,
}

fn byte(random: &mut Random) -> u8 {
    if random.one_in(2) {
        random.pick(&EDGES)
    } else {
        random.byte()
    }
}

fn word(random: &mut Random) -> u16 {
    u16::from_be_bytes([byte(random), byte(random)])
}

pub fn seen(opcode: &Opcode) -> Seen {
    let mut random = Random::new(0, 0);
    let mut memory: Vec<u8> = (0..MEMORY_BYTES).map(|_| byte(&mut random)).collect();
    let values = (0..=0xFF).flat_map(|a| [a; STATES]).chain(EDGES.into_iter().flat_map(|a| [a; EDGE_STATES]));
    let trials = values.map(|a| made(opcode, a, &mut random, &mut memory)).collect();
    Seen { trials, length: opcode.decoded.length as u32 }
}

/// A step that is made: states are drawn until one is. The memory stays as it was.
fn made(opcode: &Opcode, a: u8, random: &mut Random, memory: &mut [u8]) -> Trial {
    for _ in 0..1_000 {
        let operands: Vec<u8> = (0..opcode.operand_bytes()).map(|_| byte(random)).collect();
        let sp = random.between(SP[0], SP[1]) as u16;
        let (x, y, cc) = (word(random), word(random), random.byte());
        let before = Registers { a, x, y, cc, sp, pc: ADDRESS.into() };
        let image = slu::image_of(1, ADDRESS, &[[&opcode.bytes[..], &operands].concat()]);
        let mut after = before;
        let (answer, record) = step(&image, &LIMITS, memory, &mut after);
        if let Ok(Step::Made { .. }) = answer {
            step_back(&record, memory, &mut before.clone()).expect("the record of a step");
            return Trial { before, after, record, operands };
        }
    }
    panic!("{}: no step is made", opcode.form())
}

/// The one value that all trials have, if there is one.
fn same<T: PartialEq>(mut values: impl Iterator<Item = T>) -> Option<T> {
    let first = values.next()?;
    values.all(|value| value == first).then_some(first)
}

impl Seen {
    pub fn steps(&self) -> usize {
        self.trials.len()
    }

    /// As the manual writes them: - as it was, 0 or 1 always so, and its letter where it depends.
    pub fn flags(&self, form: &str) -> String {
        assert!(self.trials.iter().all(|trial| (trial.before.cc ^ trial.after.cc) & KEPT == 0), "{form}: bit 6, I1 or I0");
        FLAGS.map(|(letter, bit)| self.flag(letter, bit).to_string()).join(" ")
    }

    fn flag(&self, letter: char, bit: u8) -> char {
        let set = |cc: u8| cc >> bit & 1 == 1;
        if self.trials.iter().all(|trial| set(trial.before.cc) == set(trial.after.cc)) {
            return '-';
        }
        match same(self.trials.iter().map(|trial| set(trial.after.cc))) {
            Some(true) => '1',
            Some(false) => '0',
            None => letter,
        }
    }

    /// The bytes that SP moved by: + pushed, - popped, by the operand byte where the number is there.
    pub fn stack(&self, form: &str) -> String {
        let moved = |trial: &Trial| i32::from(trial.before.sp) - i32::from(trial.after.sp);
        let operand = |trial: &Trial| trial.operands.first().map_or(0, |&byte| i32::from(byte));
        match same(self.trials.iter().map(moved)) {
            Some(0) => "-".to_string(),
            Some(bytes) => format!("{bytes:+}"),
            None if self.trials.iter().all(|trial| moved(trial) == operand(trial)) => "+byte".to_string(),
            None if self.trials.iter().all(|trial| moved(trial) == -operand(trial)) => "-byte".to_string(),
            None => panic!("{form}: SP moves by other than its operand"),
        }
    }

    /// The bytes that were stored, and where.
    pub fn stores(&self, form: &str) -> String {
        let stored = same(self.trials.iter().map(|trial| (trial.record.count, place(trial))));
        match stored.unwrap_or_else(|| panic!("{form}: stores differ")) {
            (0, _) => "-".to_string(),
            (count, place) => format!("{count} {place}"),
        }
    }

    /// Of a relative jump on flags, where it is taken, in the words of one of the conditions.
    pub fn condition(&self, form: &str) -> &'static str {
        let taken: Vec<(u8, bool)> =
            self.trials.iter().filter_map(|trial| self.taken(trial).map(|taken| (trial.before.cc, taken))).collect();
        let fits = |condition: &&Condition| taken.iter().all(|&(cc, taken)| taken == condition.1(cc));
        let fitting: Vec<&Condition> = CONDITIONS.iter().filter(fits).collect();
        match fitting[..] {
            [(text, _)] => text,
            _ => panic!("{form}: {} conditions", fitting.len()),
        }
    }

    /// Whether a jump was taken, unless it leads to the next instruction, where PC does not tell.
    fn taken(&self, trial: &Trial) -> Option<bool> {
        let next = u32::from(ADDRESS) + self.length;
        trial.operands.last().filter(|&&distance| distance != 0).map(|_| trial.after.pc != next)
    }
}

/// Where the bytes of a trial were stored: pushed just above the new SP, elsewhere in the stack, or outside it.
fn place(trial: &Trial) -> &'static str {
    let first = trial.record.bytes[0].address;
    match first {
        _ if !(u32::from(STACK.low)..=u32::from(STACK.high)).contains(&first) => "direct",
        _ if trial.after.sp < trial.before.sp && first == u32::from(trial.after.sp) + 1 => "pushed",
        _ => "SP",
    }
}

type Condition = (&'static str, fn(u8) -> bool);

fn v(cc: u8) -> bool {
    cc & 0x80 != 0
}

fn n(cc: u8) -> bool {
    cc & 0x04 != 0
}

fn z(cc: u8) -> bool {
    cc & 0x02 != 0
}

fn c(cc: u8) -> bool {
    cc & 0x01 != 0
}

/// What a jump may go by.
const CONDITIONS: [Condition; 16] = [
    ("always", |_| true),
    ("never", |_| false),
    ("C = 0 and Z = 0", |cc| !c(cc) && !z(cc)),
    ("C = 1 or Z = 1", |cc| c(cc) || z(cc)),
    ("C = 0", |cc| !c(cc)),
    ("C = 1", c),
    ("Z = 0", |cc| !z(cc)),
    ("Z = 1", z),
    ("V = 0", |cc| !v(cc)),
    ("V = 1", v),
    ("N = 0", |cc| !n(cc)),
    ("N = 1", n),
    ("Z = 0 and N = V", |cc| !z(cc) && n(cc) == v(cc)),
    ("Z = 1 or N ≠ V", |cc| z(cc) || n(cc) != v(cc)),
    ("N = V", |cc| n(cc) == v(cc)),
    ("N ≠ V", |cc| n(cc) != v(cc)),
];

//! The conformance corpus: each line of its files, printed anew by the library and by the twin, is the line. `conformance/README.md`
//! says what a line is.

mod resumes;

use gate_host::{
    Accepted, Area, Ending, Limits, Overwritten, Record, Refusal, Refused, Registers, Run, Step, Turn, MEMORY_BYTES,
};
use gate_twin as twin;
use resumes::{Answer, Saved};
use std::fmt::Write;
use std::fs;
use std::path::{Path, PathBuf};

type Verdict = Result<Accepted, Refused>;
type Turned = Result<Turn, Refused>;
type Ran = Result<Run, Refusal>;
type Starter = fn(&[u8], &Limits, &mut [u16], &mut [u8], &mut Registers) -> Verdict;
type Resumer = fn(&[u8], &Limits, &mut [u16], &mut [u8], &[u8], u32) -> Answer;
type Stepper = fn(&[u8], &Limits, &mut [u8], &mut Registers) -> (Result<Step, Refusal>, Record);

/// The calls of a loader.
struct Loader {
    check: fn(&[u8], &Limits, &mut [u16]) -> Verdict,
    turn: fn(&[u8], &Limits, &mut [u16]) -> Turned,
    start: Starter,
    step: Stepper,
    step_back: fn(&Record, &mut [u8], &mut Registers) -> Result<(), Refusal>,
    run: fn(&[u8], &Limits, &mut [u8], &mut Registers, u32) -> Ran,
    save: fn(&Registers, u64) -> Saved,
    resume: Resumer,
}

const LIBRARY: Loader = Loader {
    check: gate_host::check,
    turn: gate_host::turn,
    start: gate_host::start,
    step: gate_host::step,
    step_back: gate_host::step_back,
    run: gate_host::run,
    save: resumes::library_save,
    resume: resumes::library_resume,
};
const TWIN: Loader = Loader {
    check: twin::check,
    turn: twin::turn,
    start: twin::start,
    step: twin::step,
    step_back: twin::step_back,
    run: twin::run,
    save: resumes::twin_save,
    resume: resumes::twin_resume,
};

/// The bytes of a case that are still to be read.
struct Fields(std::vec::IntoIter<u8>);

impl Fields {
    /// Pairs of capital digits; all between them means nothing.
    fn of(text: &str) -> Fields {
        let digits: Vec<u8> = text.bytes().filter(|byte| matches!(byte, b'0'..=b'9' | b'A'..=b'F')).collect();
        let value = |digit: u8| if digit <= b'9' { digit - b'0' } else { digit - b'A' + 10 };
        let bytes: Vec<u8> = digits.chunks_exact(2).map(|pair| value(pair[0]) << 4 | value(pair[1])).collect();
        Fields(bytes.into_iter())
    }

    fn byte(&mut self) -> u8 {
        self.0.next().expect("a byte of a field")
    }

    fn word(&mut self) -> u16 {
        u16::from_be_bytes([self.byte(), self.byte()])
    }

    fn long(&mut self) -> u32 {
        u32::from_be_bytes([self.byte(), self.byte(), self.byte(), self.byte()])
    }

    fn limits(&mut self) -> Limits {
        let mut area = || Area { low: self.word(), high: self.word() };
        Limits { grant: area(), stack: area(), second: area() }
    }

    fn first_registers(&mut self) -> Registers {
        Registers { a: self.byte(), x: self.word(), y: self.word(), cc: self.byte(), ..Registers::default() }
    }

    fn registers(&mut self) -> Registers {
        let first = self.first_registers();
        Registers { sp: self.word(), pc: u32::from(self.byte()) << 16 | u32::from(self.word()), ..first }
    }

    /// Bytes with their number before them.
    fn counted(&mut self) -> Vec<u8> {
        let length = self.byte();
        self.0.by_ref().take(length.into()).collect()
    }

    fn record(&mut self, registers: Registers) -> Record {
        let count = self.long();
        Record { registers, count, bytes: [(); 2].map(|()| Overwritten { address: self.long(), value: self.byte() }) }
    }

    fn cells(mut self, length: u16) -> Memory {
        let mut memory = Memory { bytes: vec![0; length.into()], cells: Vec::new() };
        while self.0.len() > 0 {
            let address = self.word();
            memory.bytes[usize::from(address)] = self.byte();
            memory.cells.push(address);
        }
        memory
    }
}

/// The memory that is lent, and the addresses of the cells that a case has.
#[derive(Clone)]
struct Memory {
    bytes: Vec<u8>,
    cells: Vec<u16>,
}

impl Memory {
    fn cells(&self) -> String {
        self.cells.iter().map(|&address| cell(address.into(), self.bytes[usize::from(address)])).collect()
    }
}

fn cell(address: u32, byte: u8) -> String {
    format!(", {address:04X} {byte:02X}")
}

fn registers(registers: &Registers) -> String {
    let Registers { a, x, y, cc, sp, pc } = registers;
    format!("A {a:02X} X {x:04X} Y {y:04X} CC {cc:02X} SP {sp:04X} PC {pc:06X}")
}

fn refused(Refused { refusal, offset }: &Refused) -> String {
    format!("refused {} {offset}", refusal.number())
}

fn with_marks(answer: String, marks: &[u16]) -> String {
    let mut text = answer + ", marks";
    for mark in marks {
        write!(text, " {mark}").expect("a text takes all");
    }
    text
}

fn verdict(answer: &Verdict, marks: &[u16]) -> String {
    let answer = match answer {
        Ok(Accepted { need, count }) => format!("accepted {need} {count}"),
        Err(why) => refused(why),
    };
    with_marks(answer, marks)
}

fn check(loader: &Loader, mut fields: Fields) -> String {
    let limits = fields.limits();
    let mut marks = vec![9; fields.byte().into()];
    let image: Vec<u8> = fields.0.collect();
    let answer = (loader.check)(&image, &limits, &mut marks);
    verdict(&answer, &marks)
}

fn turn(loader: &Loader, mut fields: Fields) -> String {
    let limits = fields.limits();
    let mut marks = vec![9; fields.byte().into()];
    let image: Vec<u8> = fields.0.collect();
    let answer = (loader.turn)(&image, &limits, &mut marks);
    match &answer {
        Ok(Turn::Within(turn)) => {
            let worked_out = with_marks(format!("within {turn}"), &marks);
            let (mut memory, mut registers) = (vec![0; MEMORY_BYTES], Registers::default());
            (loader.start)(&image, &limits, &mut marks, &mut memory, &mut registers).expect("an accepted image");
            let run = (loader.run)(&image, &limits, &mut memory, &mut registers, *turn);
            format!("{worked_out}; {}", ran(&run))
        }
        Ok(Turn::None) => with_marks("none".to_string(), &marks),
        Ok(Turn::Over) => with_marks("over".to_string(), &marks),
        Err(why) => with_marks(refused(why), &marks),
    }
}

/// The Adler-32 sum of RFC 1950.
fn digest(bytes: impl Iterator<Item = u8>) -> u32 {
    let (a, b) = bytes.fold((1, 0), |(a, b), byte| {
        let a = (a + u32::from(byte)) % 65_521;
        (a, (b + a) % 65_521)
    });
    b << 16 | a
}

/// Registers, the top of the stack, and digests of all memory and of what lies outside the grants and the top `need` stack bytes.
fn state(registers_after: &Registers, memory: &[u8], limits: &Limits, need: u16) -> String {
    let inside = |address: usize| {
        let within = |area: Area| (area.low.into()..=area.high.into()).contains(&address);
        let top = usize::from(limits.stack.high);
        within(limits.grant) || within(limits.second) || (address <= top && address + usize::from(need) > top)
    };
    let top = limits.stack.high.wrapping_sub(2);
    let three = (top.into()..).take(3).map(|address: usize| memory.get(address).copied().unwrap_or(0));
    let three: String = three.map(|byte| format!(" {byte:02X}")).collect();
    let outside = memory.iter().enumerate().map(|(address, &byte)| if inside(address) { 0 } else { byte });
    let (all, outside) = (digest(memory.iter().copied()), digest(outside));
    format!("{}, {top:04X}{three}, memory {all:08X}, outside {outside:08X}", registers(registers_after))
}

/// Runs and steps in turn until a step is not made: how many steps, and their cycles.
fn pieces(loader: &Loader, image: &[u8], limits: &Limits, memory: &mut [u8], registers: &mut Registers) -> (u32, u64) {
    let (mut steps, mut cycles) = (0, 0);
    for budget in [1, 2, 3, 7].into_iter().cycle() {
        let run = (loader.run)(image, limits, memory, registers, budget).expect("a run of an accepted image");
        steps += run.steps;
        cycles += run.cycles;
        let Ok(Step::Made { cycles: made }) = (loader.step)(image, limits, memory, registers).0 else { break };
        steps += 1;
        cycles += made;
    }
    (steps, cycles)
}

fn start(loader: &Loader, mut fields: Fields) -> String {
    let limits = fields.limits();
    let mut marks = vec![9; fields.byte().into()];
    let mut memory: Vec<u8> = (0..fields.word()).map(|address| (address % 251) as u8).collect();
    let mut registers = fields.first_registers();
    let image: Vec<u8> = fields.0.collect();
    let answer = (loader.start)(&image, &limits, &mut marks, &mut memory, &mut registers);
    let need = answer.map_or(0, |accepted| accepted.need);
    let started = format!("{}; start: {}", verdict(&answer, &marks), state(&registers, &memory, &limits, need));
    if answer.is_err() {
        return started;
    }
    let (mut second, mut again) = (memory.clone(), registers);
    let run = (loader.run)(&image, &limits, &mut memory, &mut registers, u32::MAX).expect("a run of an accepted image");
    let whole = state(&registers, &memory, &limits, need);
    let (steps, cycles) = pieces(loader, &image, &limits, &mut second, &mut again);
    let in_pieces = state(&again, &second, &limits, need);
    let Run { steps: all, cycles: sum, .. } = run;
    format!("{started}; whole, steps {all}, cycles {sum}: {whole}; pieces, steps {steps}, cycles {cycles}: {in_pieces}")
}

/// A step, as `step` and `record` have it.
struct Stepped {
    answer: Result<Step, Refusal>,
    record: Record,
    after: Registers,
    before: Memory,
    memory: Memory,
}

fn stepped(loader: &Loader, mut fields: Fields) -> Stepped {
    let (limits, length) = (fields.limits(), fields.word());
    let (mut after, image) = (fields.registers(), fields.counted());
    let before = fields.cells(length);
    let mut memory = before.clone();
    let (answer, record) = (loader.step)(&image, &limits, &mut memory.bytes, &mut after);
    Stepped { answer, record, after, before, memory }
}

fn step(loader: &Loader, fields: Fields) -> String {
    let Stepped { answer, after, memory, .. } = stepped(loader, fields);
    let answer = match answer {
        Ok(Step::Made { cycles }) => format!("made, cycles {cycles}"),
        Ok(Step::Finished) => "finished, cycles 0".to_string(),
        Ok(Step::Trapped(trap)) => format!("trap {}, cycles 0", trap.number()),
        Err(refusal) => format!("refused {}, cycles 0", refusal.number()),
    };
    format!("{answer}: {}{}", registers(&after), memory.cells())
}

fn run(loader: &Loader, mut fields: Fields) -> String {
    let (limits, length) = (fields.limits(), fields.word());
    let (mut after, budget, image) = (fields.registers(), fields.long(), fields.counted());
    let mut memory = fields.cells(length);
    let answer = (loader.run)(&image, &limits, &mut memory.bytes, &mut after, budget);
    let cycles = answer.map_or(0, |run| run.cycles);
    format!("{}, cycles {cycles}: {}{}", ran(&answer), registers(&after), memory.cells())
}

fn save(loader: &Loader, mut fields: Fields) -> String {
    let (registers, high, low) = (fields.registers(), fields.long(), fields.long());
    let (number, saved) = (loader.save)(&registers, u64::from(high) << 32 | u64::from(low));
    let saved: String = saved.iter().map(|byte| format!("{byte:02X}")).collect();
    match number {
        0 => format!("saved {saved}"),
        _ => format!("refused {number}, {saved}"),
    }
}

fn resume(loader: &Loader, mut fields: Fields) -> String {
    let limits = fields.limits();
    let mut marks = vec![9; fields.byte().into()];
    let length = fields.word();
    let (saved, budget, image) = (fields.counted(), fields.long(), fields.counted());
    let mut memory = fields.cells(length);
    let answer = (loader.resume)(&image, &limits, &mut marks, &mut memory.bytes, &saved, budget);
    let ending = match answer.number {
        64 => "finished".to_string(),
        65 => "spent".to_string(),
        number => format!("refused {number} {}", answer.offset),
    };
    let Answer { steps, cycles, registers: after, .. } = answer;
    with_marks(format!("{ending} after {steps}, cycles {cycles}: {}{}", registers(&after), memory.cells()), &marks)
}

fn ran(answer: &Ran) -> String {
    let (ending, steps) = match answer {
        Ok(Run { ending: Ending::Finished, steps, .. }) => ("finished".to_string(), *steps),
        Ok(Run { ending: Ending::Spent, steps, .. }) => ("spent".to_string(), *steps),
        Ok(Run { ending: Ending::Trapped(trap), steps, .. }) => (format!("trap {}", trap.number()), *steps),
        Err(refusal) => (format!("refused {}", refusal.number()), 0),
    };
    format!("{ending} after {steps}")
}

fn record(loader: &Loader, fields: Fields) -> String {
    let Stepped { answer, record, after, before, memory } = stepped(loader, fields);
    let number = match answer {
        Ok(Step::Made { .. }) => 0,
        Ok(Step::Finished) => 64,
        Ok(Step::Trapped(trap)) => trap.number(),
        Err(refusal) => refusal.number(),
    };
    let bytes: String = record.bytes.iter().take(record.count as usize).map(|byte| cell(byte.address, byte.value)).collect();
    let step = format!("step {number}, bytes {}{bytes}: {}{}", record.count, registers(&after), memory.cells());
    format!("{step}; {}", given_back(loader, &record, memory, &before))
}

fn back(loader: &Loader, mut fields: Fields) -> String {
    let length = fields.word();
    let registers = fields.registers();
    let record = fields.record(registers);
    let memory = fields.cells(length);
    given_back(loader, &record, memory.clone(), &memory)
}

fn given_back(loader: &Loader, record: &Record, mut memory: Memory, first: &Memory) -> String {
    let mut after = Registers::default();
    let number = (loader.step_back)(record, &mut memory.bytes, &mut after).map_or_else(Refusal::number, |()| 0);
    let same = if memory.bytes == first.bytes { ", as at first" } else { "" };
    format!("back {number}: {}{}{same}", registers(&after), memory.cells())
}

/// The line of a case, with the loader's answer.
fn replayed(loader: &Loader, line: &str) -> String {
    let colon = line.find(": ").expect("a name");
    let given = colon + line[colon..].find('=').expect("an answer");
    let case = &line[colon + 2..given];
    let answer_of = match case.split(' ').next() {
        Some("check") => check,
        Some("turn") => turn,
        Some("start") => start,
        Some("step") => step,
        Some("run") => run,
        Some("record") => record,
        Some("back") => back,
        Some("save") => save,
        Some("resume") => resume,
        kind => panic!("{kind:?} is no kind of case"),
    };
    format!("{}= {}", &line[..given], answer_of(loader, Fields::of(case)))
}

#[test]
fn corpus() {
    let folder = Path::new(env!("CARGO_MANIFEST_DIR")).join("../../conformance");
    let entries = fs::read_dir(folder).expect("the corpus").map(|entry| entry.expect("a file of the corpus").path());
    let mut files: Vec<PathBuf> = entries.filter(|path| path.extension().is_some_and(|extension| extension == "cases")).collect();
    files.sort();
    assert!(!files.is_empty());
    for file in files {
        let cases = fs::read_to_string(&file).expect("text");
        for (number, line) in (1..).zip(cases.lines()) {
            assert_eq!(replayed(&LIBRARY, line), line, "library: {}, line {number}", file.display());
            assert_eq!(replayed(&TWIN, line), line, "twin: {}, line {number}", file.display());
        }
        println!("{}: {} cases, no difference", file.file_name().unwrap_or_default().to_string_lossy(), cases.lines().count());
    }
}

//! Speed, side by side in one run: the library, the twin, and the simulator uCsim (`sstm8`) where it is installed.
//!
//! They take turns in every round, so that other work on the machine weighs on all alike. Each figure is the median of its rounds,
//! and each ratio the median of the rounds' own ratios, from which drops out what slows a whole round.
//!
//! All times are elapsed time: the standard library has no clock for processor time, and the system's account of it for another
//! process ticks in 10 ms.

use gate_host::{Area, Ending, Limits, Record, Refusal, Registers, Run, Step, Turn, MARKS_ENOUGH, MEMORY_BYTES};
use gate_twin::{self as twin, slu};
use std::fs;
use std::hint::black_box;
use std::io::Write;
use std::path::Path;
use std::process::{Command, Stdio};
use std::time::Instant;

// One more than a multiple of four, so that the median and the ends of the middle half are rounds themselves.
const SHORT_ROUNDS: usize = 201;
const LONG_ROUNDS: usize = 9;
const LIMITS: Limits =
    Limits { grant: Area { low: 0x0000, high: 0x00FF }, stack: Area { low: 0x1600, high: 0x17FF }, second: Area::NONE };
/// Either would do, for no image here has CALLR.
const VERSION: u16 = 1;
const BASE: u16 = 0x8000;

/// What each took for one and the same thing, in nanoseconds: `None` where there is nothing to measure.
struct Round {
    library: Option<f64>,
    twin: Option<f64>,
    simulator: Option<f64>,
}

/// The rounds of one task, with a line of the table for each unit.
struct Task {
    name: &'static str,
    units: &'static [Unit],
    rounds: Vec<Round>,
}

/// What a time in nanoseconds is shown as.
struct Unit {
    name: &'static str,
    value: fn(f64) -> f64,
}

const NANOSECONDS: Unit = Unit { name: "ns", value: |time| time };
const MICROSECONDS: Unit = Unit { name: "us", value: |time| time / 1e3 };
const MILLIONS: Unit = Unit { name: "million/s", value: |time| 1e3 / time };
const MILLION_STEPS: Unit = Unit { name: "million steps/s", value: |time| 1e3 / time };

fn main() {
    if let Some(model) = processor() {
        println!("{model}");
    }
    let mut tasks = vec![decodes(), decodes_alone()];
    tasks.extend(checks());
    tasks.push(single_steps());
    tasks.push(steps_and_back());
    tasks.push(runs("run, counting loop", Workload::counter));
    tasks.push(runs("run, mixed loop", Workload::mixed));
    print_figures(&tasks);
    print_ratios(&tasks);
}

fn processor() -> Option<String> {
    let text = fs::read_to_string("/proc/cpuinfo").ok()?;
    let line = text.lines().find(|line| line.starts_with("model name"))?;
    Some(line.split_once(':')?.1.trim().to_string())
}

fn print_figures(tasks: &[Task]) {
    let installed = tasks.iter().flat_map(|task| &task.rounds).any(|round| round.simulator.is_some());
    println!("The median of the rounds, and the ends of their middle half:");
    print_line("", "", "library", "twin", if installed { "uCsim" } else { "uCsim (not installed)" });
    for task in tasks {
        for unit in task.units {
            let cell = |time: fn(&Round) -> Option<f64>| cell(task.rounds.iter().filter_map(time).map(unit.value));
            let (library, twin) = (cell(|round| round.library), cell(|round| round.twin));
            print_line(task.name, unit.name, &library, &twin, &cell(|round| round.simulator));
        }
    }
    println!("The library has no decode without the text; the twin's shows how much of its time the text takes.");
}

fn print_ratios(tasks: &[Task]) {
    println!("Speed of the library, as a multiple of the other's:");
    for task in tasks.iter().filter(|task| task.rounds.iter().any(|round| round.library.is_some())) {
        let cell = |ratio: fn(&Round) -> Option<f64>| cell(task.rounds.iter().filter_map(ratio));
        let twin = cell(|round| Some(round.twin? / round.library?));
        let simulator = cell(|round| Some(round.simulator? / round.library?));
        print_line(task.name, "", "", &twin, &simulator);
    }
}

fn print_line(name: &str, unit: &str, library: &str, twin: &str, simulator: &str) {
    println!("{name:<28} {unit:>15}  {library:<18}  {twin:<18}  {simulator}");
}

/// The median of the values and the ends of their middle half.
fn cell(values: impl Iterator<Item = f64>) -> String {
    let mut values: Vec<f64> = values.collect();
    values.sort_by(f64::total_cmp);
    let Some(last) = values.len().checked_sub(1) else {
        return format!("{:>5}", "-");
    };
    let [low, median, high] = [last / 4, last / 2, last - last / 4].map(|rank| four_digits(values[rank]));
    format!("{median:>5} {low}..{high}")
}

fn four_digits(value: f64) -> String {
    let decimals = if value < 100.0 { 2 } else { 1 };
    format!("{value:.decimals$}")
}

/// Rounds of about a millisecond each, in which library and twin take turns at `count` things.
fn short_rounds(count: usize, mut library: impl FnMut(), mut twin: impl FnMut()) -> Vec<Round> {
    let time = |work: &mut dyn FnMut()| Some(time_of_one(count, work));
    let round = |_| Round { library: time(&mut library), twin: time(&mut twin), simulator: None };
    (0..SHORT_ROUNDS).map(round).collect()
}

/// The nanoseconds that one of `count` things takes.
fn time_of_one(count: usize, work: impl FnOnce()) -> f64 {
    let begun = Instant::now();
    work();
    begun.elapsed().as_secs_f64() * 1e9 / count as f64
}

// Decoding, over the instructions of the 4,096-byte image.

const SWEEPS: usize = 4;

/// Goes over the code instruction by instruction, `SWEEPS` times.
fn sweep(code: &[u8], length_at: impl Fn(&[u8], u16) -> usize) {
    for _ in 0..SWEEPS {
        let mut at = 0;
        while at < code.len() {
            at += length_at(&code[at..], BASE.wrapping_add(at as u16));
        }
    }
}

fn code_and_count() -> (Vec<u8>, usize) {
    let image = full_image();
    let accepted = twin::check(&image, &LIMITS, &mut [0; MARKS_ENOUGH]).expect("the image is accepted");
    (image[image.len() - 4_096..].to_vec(), SWEEPS * usize::from(accepted.count))
}

fn decodes() -> Task {
    let (code, count) = code_and_count();
    let library = |bytes: &[u8], address: u16| {
        let decoded = black_box(gate_host::decode(bytes, address));
        decoded.expect("an instruction").length
    };
    let other = |bytes: &[u8], address: u16| {
        let (instruction, length) = twin::decode(bytes).expect("an instruction");
        black_box(twin::text(instruction, length, address));
        black_box(instruction.cycles());
        length
    };
    let rounds = short_rounds(count, || sweep(&code, library), || sweep(&code, other));
    Task { name: "decode with its text", units: &[NANOSECONDS, MILLIONS], rounds }
}

fn decodes_alone() -> Task {
    let (code, count) = code_and_count();
    let alone = |bytes: &[u8], _: u16| black_box(twin::decode(bytes)).expect("an instruction").1;
    let round = |_| Round { library: None, twin: Some(time_of_one(count, || sweep(&code, alone))), simulator: None };
    Task { name: "decode alone", units: &[NANOSECONDS], rounds: (0..SHORT_ROUNDS).map(round).collect() }
}

// Checking.

/// A mixed image, and its turn; one in which a check that goes over the code until nothing new is reached goes over it 1,000 times; and
/// straight code, to see that twice the bytes take twice the time.
fn checks() -> [Task; 7] {
    [
        check_of("check of 4,096 bytes", full_image()),
        turn_of("turn of 4,096 bytes", full_image()),
        check_of("check, 1,000 jumps back", backward_image()),
        check_of("check, straight, 512 bytes", straight_image(512)),
        check_of("check, straight, 1,024 bytes", straight_image(1_024)),
        check_of("check, straight, 2,048 bytes", straight_image(2_048)),
        check_of("check, straight, 4,096 bytes", straight_image(4_096)),
    ]
}

fn check_of(name: &'static str, image: Vec<u8>) -> Task {
    let (mut marks, mut twin_marks) = ([0; MARKS_ENOUGH], [0; MARKS_ENOUGH]);
    let verdict = gate_host::check(&image, &LIMITS, &mut marks);
    assert_eq!(verdict, twin::check(&image, &LIMITS, &mut twin_marks));
    assert!(verdict.is_ok() && marks == twin_marks);
    let rounds = rounds_over(
        &image,
        |image| _ = black_box(gate_host::check(image, &LIMITS, &mut marks)),
        |image| _ = black_box(twin::check(image, &LIMITS, &mut twin_marks)),
    );
    Task { name, units: &[MICROSECONDS], rounds }
}

fn turn_of(name: &'static str, image: Vec<u8>) -> Task {
    let (mut marks, mut twin_marks) = ([0; MARKS_ENOUGH], [0; MARKS_ENOUGH]);
    let turn = gate_host::turn(&image, &LIMITS, &mut marks);
    assert_eq!(turn, twin::turn(&image, &LIMITS, &mut twin_marks));
    assert!(matches!(turn, Ok(Turn::Within(_))) && marks == twin_marks);
    let rounds = rounds_over(
        &image,
        |image| _ = black_box(gate_host::turn(image, &LIMITS, &mut marks)),
        |image| _ = black_box(twin::turn(image, &LIMITS, &mut twin_marks)),
    );
    Task { name, units: &[MICROSECONDS], rounds }
}

/// Rounds over an image, again and again, so that as many bytes are checked in every round.
fn rounds_over(image: &[u8], mut library: impl FnMut(&[u8]), mut twin: impl FnMut(&[u8])) -> Vec<Round> {
    let count = 5 * 4_096 / twin::Image::parse(image).expect("an image").code.len();
    short_rounds(count, || (0..count).for_each(|_| library(black_box(image))), || (0..count).for_each(|_| twin(black_box(image))))
}

/// An accepted image of 4,096 code bytes: 32 routines of 128, each but the first with a call to the one before.
fn full_image() -> Vec<u8> {
    // PUSH A; LD A,#5; ADD A,$10; LD $11,A; JREQ over the next; INC $0012; LDW X,#$1234; PUSHW X; LD A,($01,SP); POPW X; POP A;
    // BTJT $0013,#3, the next; MUL X,A
    const BLOCK: [u8; 28] = [
        0x88, 0xA6, 0x05, 0xBB, 0x10, 0xB7, 0x11, 0x27, 0x04, 0x72, 0x5C, 0x00, 0x12, 0xAE, 0x12, 0x34, 0x89, 0x7B, 0x01, 0x85,
        0x84, 0x72, 0x06, 0x00, 0x13, 0x00, 0x42, 0x9D,
    ];
    let mut routines = Vec::new();
    for number in 0..32u16 {
        let mut code = BLOCK.repeat(4);
        if number > 0 {
            let [high, low] = (BASE + 128 * (number - 1)).to_be_bytes();
            code.extend([0xCD, high, low]);
        }
        code.resize(127, 0x9D);
        code.push(0x81);
        routines.push(code);
    }
    slu::image_of(VERSION, BASE, &routines)
}

/// An accepted image of 4,096 code bytes with 1,000 jumps back, each of which but the last is reached from the next one alone.
fn backward_image() -> Vec<u8> {
    // JRA over RET; 999 times JRA to the next such JRA, and JRA back to the last jump back; NOPs; JRA back.
    let mut code = vec![0x20, 0x01, 0x81];
    code.extend([0x20, 0x02, 0x20, 0xFA].repeat(999));
    // The first goes to RET.
    code[6] = 0xFB;
    let last = code.len() - 2;
    code.resize(4_094, 0x9D);
    code.extend([0x20, (last as isize - 4_096) as u8]);
    slu::image_of(VERSION, BASE, &[code])
}

/// An accepted image of one routine without jumps.
fn straight_image(bytes: usize) -> Vec<u8> {
    // PUSH A; LD A,#5; ADD A,$10; LD $11,A; INC $0012; LDW X,#$1234; PUSHW X; LD A,($01,SP); POPW X; POP A; MUL X,A
    const BLOCK: [u8; 20] =
        [0x88, 0xA6, 0x05, 0xBB, 0x10, 0xB7, 0x11, 0x72, 0x5C, 0x00, 0x12, 0xAE, 0x12, 0x34, 0x89, 0x7B, 0x01, 0x85, 0x84, 0x42];
    let mut code = BLOCK.repeat((bytes - 1) / BLOCK.len());
    code.resize(bytes - 1, 0x9D);
    code.push(0x81);
    slu::image_of(VERSION, BASE, &[code])
}

// Steps and runs.

struct Workload {
    routines: Vec<Vec<u8>>,
}

impl Workload {
    /// X counts down from 4,096, `turns` times: about 8,000 steps a turn.
    fn counter(turns: u16) -> Workload {
        let [high, low] = turns.to_be_bytes();
        // LDW Y,#turns; outer: LDW X,#$1000; inner: DECW X; JRNE inner; DECW Y; JRNE outer; RET
        let main = vec![0x90, 0xAE, high, low, 0xAE, 0x10, 0x00, 0x5A, 0x26, 0xFD, 0x90, 0x5A, 0x26, 0xF6, 0x81];
        Workload { routines: vec![main] }
    }

    /// Arithmetic, stack, stores, bits, a multiplication and a call, 512 times a turn: about 11,000 steps.
    fn mixed(turns: u16) -> Workload {
        let [high, low] = turns.to_be_bytes();
        // RLC A; MOV $14,$11; RET
        let callee = vec![0x49, 0x45, 0x11, 0x14, 0x81];
        let inner = [
            0x88, // PUSH A
            0xAB, 0x35, // ADD A,#$35
            0xB9, 0x10, // ADC A,$10
            0xB7, 0x11, // LD $11,A
            0xD8, 0x00, 0x20, // XOR A,($0020,X)
            0x3C, 0x12, // INC $12
            0x89, // PUSHW X
            0x42, // MUL X,A
            0xCF, 0x00, 0x16, // LDW $0016,X
            0x34, 0x10, // SRL $10
            0x85, // POPW X
            0x10, 0x01, // SUB A,($01,SP)
            0x72, 0x16, 0x00, 0x13, // BSET $0013,#3
            0x72, 0x07, 0x00, 0x13, 0x03, // BTJF $0013,#3, over the call
            0xCD, 0x80, 0x00, // CALL $8000
            0x84, // POP A
            0x4E, // SWAP A
            0x5A, // DECW X
        ];
        let mut main = vec![0x90, 0xAE, high, low, 0xAE, 0x02, 0x00];
        main.extend(inner);
        let back = |from: usize, to: usize| (to as isize - (from + 2) as isize) as u8;
        main.extend([0x26, back(main.len(), 7)]);
        main.extend([0x90, 0x5A]);
        main.extend([0x26, back(main.len(), 4)]);
        main.push(0x81);
        Workload { routines: vec![callee, main] }
    }

    fn image(&self) -> Vec<u8> {
        slu::image_of(VERSION, BASE, &self.routines)
    }
}

/// A memory in which a workload is started.
fn started(file: &[u8]) -> (Vec<u8>, Registers) {
    let mut memory = vec![0; MEMORY_BYTES];
    let mut registers = Registers::default();
    let verdict = gate_host::start(file, &LIMITS, &mut [0; MARKS_ENOUGH], &mut memory, &mut registers);
    verdict.expect("the workload is accepted");
    (memory, registers)
}

/// The steps of a round.
const STEPS: usize = 4_000;

fn single_steps() -> Task {
    let file = Workload::mixed(1).image();
    let (memory, registers) = started(&file);
    let (mut one, mut other) = (memory.clone(), memory);
    let rounds = short_rounds(
        STEPS,
        || {
            let mut registers = registers;
            for _ in 0..STEPS {
                _ = black_box(gate_host::step(&file, &LIMITS, &mut one, &mut registers));
            }
        },
        || {
            let mut registers = registers;
            for _ in 0..STEPS {
                _ = black_box(twin::step(&file, &LIMITS, &mut other, &mut registers));
            }
        },
    );
    Task { name: "a single step", units: &[NANOSECONDS], rounds }
}

type Stepper = fn(&[u8], &Limits, &mut [u8], &mut Registers) -> (Result<Step, Refusal>, Record);
type Returner = fn(&Record, &mut [u8], &mut Registers) -> Result<(), Refusal>;

/// Makes steps and goes back over all of them, so that every round begins with the same memory.
fn steps_and_back() -> Task {
    let file = Workload::mixed(1).image();
    let (memory, begin) = started(&file);
    let there_and_back = |step: Stepper, step_back: Returner, memory: &mut [u8], records: &mut Vec<Record>| {
        let mut registers = begin;
        records.extend((0..STEPS).map(|_| step(&file, &LIMITS, memory, &mut registers).1));
        for record in records.drain(..).rev() {
            step_back(&record, memory, &mut registers).expect("the record of a step");
        }
        assert_eq!(registers, begin);
    };
    let (mut one, mut other) = (memory.clone(), memory.clone());
    let [mut records, mut twin_records] = [0, 1].map(|_| Vec::with_capacity(STEPS));
    let rounds = short_rounds(
        STEPS,
        || there_and_back(gate_host::step, gate_host::step_back, &mut one, &mut records),
        || there_and_back(twin::step, twin::step_back, &mut other, &mut twin_records),
    );
    assert!(one == memory && other == memory, "every byte is back");
    Task { name: "a step and a step back", units: &[NANOSECONDS], rounds }
}

type Runner = fn(&[u8], &Limits, &mut [u8], &mut Registers, u32) -> Result<Run, Refusal>;

/// A long run in slices, at which library and twin take turns. Then the simulator goes through the same loop for about as long, so
/// that each meets its share of the other work.
fn runs(name: &'static str, workload: fn(u16) -> Workload) -> Task {
    const SLICE: u32 = 100_000;
    const SLICES: usize = 200;
    let file = workload(u16::MAX).image();
    let mut one = started(&file);
    let mut other = one.clone();
    let slice = |runner: Runner, (memory, registers): &mut (Vec<u8>, Registers)| {
        let run = runner(&file, &LIMITS, memory, registers, SLICE);
        assert!(matches!(run, Ok(Run { ending: Ending::Spent, steps: SLICE, .. })));
    };
    let round = |_| {
        let (mut library, mut twin) = (0.0, 0.0);
        for _ in 0..SLICES {
            library += time_of_one(SLICE as usize, || slice(gate_host::run, &mut one));
            twin += time_of_one(SLICE as usize, || slice(twin::run, &mut other));
        }
        let mean = |sum: f64| Some(sum / SLICES as f64);
        Round { library: mean(library), twin: mean(twin), simulator: simulate(workload) }
    };
    let rounds = (0..LONG_ROUNDS).map(round).collect();
    assert!(one == other, "library and twin come out alike");
    Task { name, units: &[MILLION_STEPS], rounds }
}

// The simulator. It runs main from its first byte to its RET and counts the instructions itself. A short run is taken off a long
// one, so that loading counts for nothing.

/// The nanoseconds that an instruction takes.
fn simulate(workload: fn(u16) -> Workload) -> Option<f64> {
    /// Half a second or more at 4 million instructions a second; the rounds together take over two seconds at up to 9 million.
    const TURNS: u16 = 250;
    let (few, short) = simulated(&workload(1))?;
    let (many, long) = simulated(&workload(TURNS))?;
    Some((long - short) * 1e9 / (many - few))
}

/// The instructions of one run, and its time in seconds.
fn simulated(workload: &Workload) -> Option<(f64, f64)> {
    let code = workload.routines.concat();
    let main = usize::from(BASE) + code.len() - workload.routines.last()?.len();
    let ret = usize::from(BASE) + code.len() - 1;
    let commands = format!("pc {main:#x}\nbreak {ret:#x}\nrun\nstate\nkill\n");
    let file = std::env::temp_dir().join(format!("gate-bench-{}.ihx", std::process::id()));
    fs::write(&file, intel_hex(&code)).ok()?;
    let begun = Instant::now();
    let text = output_of_simulator(&file, &commands);
    let time = begun.elapsed().as_secs_f64();
    fs::remove_file(&file).ok()?;
    let instructions = text?.split_once("Inst=")?.1.split_whitespace().next()?.parse().ok()?;
    Some((instructions, time))
}

fn output_of_simulator(file: &Path, commands: &str) -> Option<String> {
    let mut simulator = Command::new("sstm8")
        .args(["-t", "S208", "-b"])
        .arg(file)
        .stdin(Stdio::piped())
        .stdout(Stdio::piped())
        .stderr(Stdio::null())
        .spawn()
        .ok()?;
    simulator.stdin.take()?.write_all(commands.as_bytes()).ok()?;
    let output = simulator.wait_with_output().ok()?;
    Some(String::from_utf8_lossy(&output.stdout).into_owned())
}

fn intel_hex(code: &[u8]) -> String {
    let mut text = String::new();
    for (number, bytes) in code.chunks(16).enumerate() {
        let address = usize::from(BASE) + 16 * number;
        let mut record = vec![bytes.len() as u8, (address >> 8) as u8, address as u8, 0];
        record.extend(bytes);
        let sum = record.iter().fold(0u8, |sum, &byte| sum.wrapping_add(byte));
        record.push(sum.wrapping_neg());
        let digits: String = record.iter().map(|byte| format!("{byte:02X}")).collect();
        text += &format!(":{digits}\n");
    }
    text + ":00000001FF\n"
}

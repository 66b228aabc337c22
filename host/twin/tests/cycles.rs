//! W-206: cycles as the manual's instruction pages print them, through the library and through the twin.

mod both;

use both::{assembled, run, step, BEGIN, LIMITS};
use gate_host::{Area, Cycles, Ending, Limits, Refusal, Registers, Run, Step, Trap, MEMORY_BYTES};
use gate_twin::{self as twin, slu};
use std::fs;
use std::path::Path;

const ADDRESS: u16 = 0x8000;

/// A line of the list that was typed from the pages: the text is that of the instruction at 8000 with all operand bytes 00.
struct Listed {
    opcode: Vec<u8>,
    cycles: Cycles,
    text: String,
}

impl Listed {
    /// The op-code and more operand bytes than any has.
    fn bytes(&self) -> Vec<u8> {
        let mut bytes = self.opcode.clone();
        bytes.resize(6, 0);
        bytes
    }
}

/// The list: op-code, cycles not taken and taken, text.
fn listed() -> Vec<Listed> {
    let file = Path::new(env!("CARGO_MANIFEST_DIR")).join("../../crates/cycle_cases/stdout");
    let list = fs::read_to_string(&file).expect("the list of cycles");
    list.lines().map(listed_line).collect()
}

fn listed_line(line: &str) -> Listed {
    let opcode = if matches!(&line[..2], "72" | "90") { 2 } else { 1 };
    let words: Vec<&str> = line.splitn(opcode + 3, ' ').collect();
    let byte = |digits: &&str| u8::from_str_radix(digits, 16).expect("hexadecimal");
    let figure = |at: usize| words[at].parse().expect("a figure");
    Listed {
        opcode: words[..opcode].iter().map(byte).collect(),
        cycles: Cycles { untaken: figure(opcode), taken: figure(opcode + 1) },
        text: words[opcode + 2].to_string(),
    }
}

/// The op-codes of the twin's set: without pre-code, after 72, after 90, each rising.
fn opcodes() -> Vec<Vec<u8>> {
    let pages: [&[u8]; 3] = [&[], &[0x72], &[0x90]];
    let all = pages.into_iter().flat_map(|page| (0..=255).map(move |last| [page, &[last]].concat()));
    all.filter(|opcode| twin::decode(&[&opcode[..], &[0; 4]].concat()).is_ok() && !matches!(opcode[..], [0x72 | 0x90])).collect()
}

#[test]
fn list_has_each_op_code_of_the_set() {
    let list: Vec<Vec<u8>> = listed().into_iter().map(|line| line.opcode).collect();
    assert_eq!(list.len(), 260);
    assert_eq!(list, opcodes());
}

#[test]
fn twin_has_the_cycles_of_the_list() {
    for line in listed() {
        let (instruction, length) = twin::decode(&line.bytes()).expect(&line.text);
        assert_eq!(twin::text(instruction, length, ADDRESS).as_str(), line.text);
        assert_eq!(instruction.cycles(), line.cycles, "{}", line.text);
    }
}

#[test]
fn library_has_the_cycles_of_the_list() {
    for line in listed() {
        let decoded = gate_host::decode(&line.bytes(), ADDRESS).expect(&line.text);
        assert_eq!(decoded.text.as_str(), line.text);
        assert_eq!(decoded.cycles, line.cycles, "{}", line.text);
    }
}

/// A step at 8000 that is made: its cycles, and PC after it. All of the memory below the stack is granted.
fn made(code: &[u8], registers: Registers, memory: &[u8]) -> (u64, u32) {
    let limits = Limits { grant: Area { low: 0x0000, high: 0x02FF }, ..LIMITS };
    match step(&slu::image_of(1, ADDRESS, &[code]), &limits, registers, memory) {
        (Ok(Step::Made { cycles }), after, _) => (cycles, after.pc),
        other => panic!("{code:02X?}: {:?}", other.0),
    }
}

/// Each op-code with operand bytes 01, flags and memory all clear and all set. PC tells whether a jump is taken.
#[test]
fn steps_take_the_cycles_of_the_list() {
    for (line, byte) in listed().iter().flat_map(|line| [(line, 0x00), (line, 0xFF)]) {
        let (_, length) = twin::decode(&line.bytes()).expect(&line.text);
        let mut code = line.opcode.clone();
        code.resize(length, 0x01);
        let (cycles, pc) = made(&code, Registers { cc: byte, sp: 0x0380, ..BEGIN }, &vec![byte; MEMORY_BYTES]);
        let Cycles { untaken, taken } = line.cycles;
        let expected = if pc == u32::from(ADDRESS) + length as u32 { untaken } else { taken };
        assert_eq!(cycles, expected.into(), "{}", line.text);
    }
}

/// Every jump on flags under every CC. PC tells whether one by offset 2 is taken; one to the next address takes as many cycles.
#[test]
fn jumps_on_flags() {
    let memory = vec![0; MEMORY_BYTES];
    for opcode in 0x20..=0x2F {
        let mut taken = 0;
        for cc in 0..=255 {
            let registers = Registers { cc, ..BEGIN };
            let (cycles, pc) = made(&[opcode, 0x02], registers, &memory);
            assert_eq!(cycles, if pc == 0x8004 { 2 } else { 1 }, "{opcode:02X}, CC {cc:02X}");
            assert_eq!(made(&[opcode, 0x00], registers, &memory), (cycles, 0x8002), "{opcode:02X}, CC {cc:02X}");
            taken += u32::from(cycles == 2);
        }
        match opcode {
            0x20 => assert_eq!(taken, 256, "JRA"),
            0x21 => assert_eq!(taken, 0, "JRF"),
            _ => assert!((1..256).contains(&taken), "{opcode:02X}"),
        }
    }
}

/// Each bit clear and set, by an offset that leads on, to the next address, and back to the jump itself.
#[test]
fn jumps_on_bits() {
    for (bit, set) in (0..8).flat_map(|bit| [(bit, false), (bit, true)]) {
        let mut memory = vec![0; MEMORY_BYTES];
        memory[0x0010] = if set { 1 << bit } else { !(1 << bit) };
        for (offset, target) in [(0x02, 0x8007), (0x00, 0x8005), (0xFB, 0x8000)] {
            let [taken, untaken] = [(3, target), (2, 0x8005)];
            let btjt = made(&[0x72, 2 * bit, 0x00, 0x10, offset], BEGIN, &memory);
            let btjf = made(&[0x72, 2 * bit + 1, 0x00, 0x10, offset], BEGIN, &memory);
            assert_eq!((btjt, btjf), if set { (taken, untaken) } else { (untaken, taken) }, "bit {bit}, {offset:02X}");
        }
    }
}

/// JRF is decoded with two figures, and JRA, which is always taken, with one.
#[test]
fn jumps_decoded() {
    for (opcode, cycles) in [(0x20, Cycles { untaken: 2, taken: 2 }), (0x21, Cycles { untaken: 1, taken: 2 })] {
        assert_eq!(gate_host::decode(&[opcode, 0x05], ADDRESS).expect("a jump").cycles, cycles);
        assert_eq!(twin::decode(&[opcode, 0x05]).expect("a jump").0.cycles(), cycles);
    }
}

/// A run that is not refused.
fn ran(routines: &str, pc: u32, budget: u32) -> Run {
    run(&assembled(1, routines), &LIMITS, Registers { pc, ..BEGIN }, &vec![0; MEMORY_BYTES], budget).0.expect("not refused")
}

/// Calls a routine of six instructions a hundred times, and jumps back 99 times; 1,004 steps.
const SUM_TO_HUNDRED: &str = "BB 21 B7 21 B6 20 A9 00 B7 20 81 | 3F 20 3F 21 AE 00 64 9F CD 80 00 5A 26 F9 81";

#[test]
fn sum_of_a_run() {
    // CLR, CLR, LDW; a hundred times LD, CALL, five in the routine, RET, DECW; JRNE; RET
    let cycles = (1 + 1 + 2) + 100 * (1 + 4 + 5 + 4 + 1) + (99 * 2 + 1) + 4;
    let finished = Run { ending: Ending::Finished, steps: 1_004, cycles };
    assert_eq!(ran(SUM_TO_HUNDRED, 0x800B, 1_004), finished);
    assert_eq!(ran(SUM_TO_HUNDRED, 0x800B, u32::MAX), finished);
    let spent = Run { ending: Ending::Spent, steps: 1_003, cycles: cycles - 4 };
    assert_eq!(ran(SUM_TO_HUNDRED, 0x800B, 1_003), spent);
    // CLR, CLR, LDW, LD, CALL
    assert_eq!(ran(SUM_TO_HUNDRED, 0x800B, 5), Run { ending: Ending::Spent, steps: 5, cycles: 9 });
}

#[test]
fn run_in_two_parts() {
    let (file, memory) = (assembled(1, SUM_TO_HUNDRED), vec![0; MEMORY_BYTES]);
    let begin = Registers { pc: 0x800B, ..BEGIN };
    let (whole, registers, left) = run(&file, &LIMITS, begin, &memory, 2_000);
    let whole = whole.expect("not refused");
    for budget in [0, 1, 2, 9, 500, 1_003, 1_004, 1_005] {
        let (first, between, lent) = run(&file, &LIMITS, begin, &memory, budget);
        let (second, after, end) = run(&file, &LIMITS, between, &lent, 2_000);
        let (first, second) = (first.expect("not refused"), second.expect("not refused"));
        assert_eq!(first.steps + second.steps, whole.steps, "{budget}");
        assert_eq!(first.cycles + second.cycles, whole.cycles, "{budget}");
        assert!(after == registers && end == left, "{budget}");
    }
}

/// Only steps that are made take cycles, so a run that makes none has a sum of 0.
#[test]
fn runs_without_a_step() {
    let none = |ending| Run { ending, steps: 0, cycles: 0 };
    assert_eq!(ran("9D 81", 0x8000, 0), none(Ending::Spent));
    assert_eq!(ran("8E", 0x8000, 0), none(Ending::Spent));
    assert_eq!(ran("9D 81", 0x0000, 0), none(Ending::Finished));
    assert_eq!(ran("9D 81", 0x0000, 9), none(Ending::Finished));
    assert_eq!(ran("8E", 0x8000, 9), none(Ending::Trapped(Trap::Outside)));
    let refused = run(&assembled(3, "9D 81"), &LIMITS, BEGIN, &vec![0; MEMORY_BYTES], 9).0;
    assert_eq!(refused, Err(Refusal::UnknownVersion));
}

/// The trapping step costs none: BTJT not taken, MUL, and what traps each time in another way.
#[test]
fn runs_that_trap() {
    for (last, trap) in [("8E", Trap::Outside), ("A6", Trap::Pc), ("5B FF", Trap::Stack), ("C7 01 00", Trap::Store)] {
        let run = ran(&format!("72 00 00 10 7F 42 {last}"), 0x8000, 9);
        assert_eq!(run, Run { ending: Ending::Trapped(trap), steps: 2, cycles: 2 + 4 }, "{last}");
    }
}

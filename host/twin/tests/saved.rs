//! W-208 and W-209: saved states in either version, which of them are good, and running on from them. Through the library and
//! through the twin.

mod both;
mod resumes;

use both::{assembled, hexadecimal, run, step, BEGIN, LIMITS};
use gate_host::cells::{self, FINISHED, OK, SPENT};
use gate_host::{Area, Ending, Limits, Registers, Run, Step, MARKS_ENOUGH, MEMORY_BYTES, SAVED_BYTES};
use gate_twin::slu;
use resumes::{library_resume, library_save, twin_resume, twin_save, Answer};

const NOT_SLS: u8 = 34;
const NOT_GOOD: u8 = 35;
const CEILING: u64 = 18_446_744_073_709_551_615;
/// The most steps that version 0001 holds.
const MOST_IN_0001: u64 = 4_294_967_295;
/// What a mark holds before a call.
const BLANK: u16 = 0xA5A5;

fn save(registers: &Registers, steps: u64) -> (u8, [u8; SAVED_BYTES]) {
    let saved = library_save(registers, steps);
    assert_eq!(saved, twin_save(registers, steps), "{registers:04X?}");
    saved
}

/// A saved state of a PC and steps that have room.
fn saved(registers: Registers, steps: u64) -> [u8; SAVED_BYTES] {
    let (number, saved) = save(&registers, steps);
    assert_eq!(number, OK, "{registers:04X?}");
    saved
}

/// The same in version 0001, which is no longer written, if it has room for the steps.
fn in_version_0001(registers: Registers, steps: u64) -> Option<Vec<u8>> {
    let Registers { a, x, y, cc, sp, pc } = registers;
    let steps = u32::try_from(steps).ok()?.to_be_bytes();
    let [pc, sp, x, y] = [pc as u16, sp, x, y].map(u16::to_be_bytes);
    Some([b"SLS\x00\x01", &pc[..], &sp, &[a], &x, &y, &[cc], &steps].concat())
}

/// What a resumed run comes to, and the memory then. Marks are those of a check, and unchanged after 17; refused, all else is
/// zeros, and no memory is written.
fn resume(file: &[u8], limits: &Limits, memory: &[u8], saved: &[u8], budget: u32) -> (Answer, Vec<u8>) {
    let (mut one, mut other) = (memory.to_vec(), memory.to_vec());
    let (mut marks, mut twin_marks) = ([BLANK; MARKS_ENOUGH], [BLANK; MARKS_ENOUGH]);
    let answer = library_resume(file, limits, &mut marks, &mut one, saved, budget);
    assert_eq!(answer, twin_resume(file, limits, &mut twin_marks, &mut other, saved, budget), "{file:02X?} {saved:02X?}");
    let mut left = [BLANK; MARKS_ENOUGH];
    if answer.number != 17 {
        let refused = gate_host::check(file, limits, &mut left).map_or_else(|refused| refused.refusal.number(), |_| OK);
        assert_eq!(refused == OK, matches!(answer.number, NOT_SLS | NOT_GOOD | FINISHED | SPENT), "{file:02X?} {saved:02X?}");
    }
    assert!(marks == left && twin_marks == left, "marks: {file:02X?} {saved:02X?}");
    assert!(one == other, "memory: {file:02X?} {saved:02X?}");
    if !matches!(answer.number, FINISHED | SPENT) {
        let zeros = Answer { number: answer.number, offset: answer.offset, registers: Registers::default(), steps: 0, cycles: 0 };
        assert_eq!(answer, zeros, "{file:02X?} {saved:02X?}");
        assert!(one == memory, "memory: {file:02X?} {saved:02X?}");
    }
    (answer, one)
}

/// As `resume`, from the saved state of such registers and steps: the same in either version that has room for them.
fn resume_from(
    file: &[u8],
    limits: &Limits,
    memory: &[u8],
    (registers, steps): (Registers, u64),
    budget: u32,
) -> (Answer, Vec<u8>) {
    let outcome = resume(file, limits, memory, &saved(registers, steps), budget);
    if let Some(saved) = in_version_0001(registers, steps) {
        let (answer, left) = resume(file, limits, memory, &saved, budget);
        assert_eq!(answer, outcome.0, "{file:02X?} {saved:02X?}");
        assert!(left == outcome.1, "memory: {file:02X?} {saved:02X?}");
    }
    outcome
}

/// The number that resuming with no budget answers.
fn number(file: &[u8], memory: &[u8], registers: Registers) -> u8 {
    resume_from(file, &LIMITS, memory, (registers, 7), 0).0.number
}

fn at(pc: u32, sp: u16) -> Registers {
    Registers { pc, sp, ..BEGIN }
}

/// Zeros but for these bytes.
fn memory(bytes: &[(usize, u8)]) -> Vec<u8> {
    let mut memory = vec![0; MEMORY_BYTES];
    bytes.iter().for_each(|&(address, byte)| memory[address] = byte);
    memory
}

/// docs/FORMAT.md's example of depths: 8000 PUSHW X, 8001 POPW X, 8002 RET; 8003 SUB SP,#$03, 8005 LD ($03,SP),A,
/// 8007 CALL $8000, 800A LD A,($03,SP), 800C ADDW SP,#$03, 800E RET; 800F PUSH A, 8010 CALL $8003, 8013 POP A, 8014 RET.
const THREE: &str = "89 85 81 | 52 03 6B 03 CD 80 00 7B 03 5B 03 81 | 88 CD 80 03 84 81";
/// The return addresses on its stack when X is pushed: 800A, 8013 and main's 0000.
const FRAMES: [(usize, u8); 6] = [(0x03F6, 0x80), (0x03F7, 0x0A), (0x03FB, 0x80), (0x03FC, 0x13), (0x03FE, 0x00), (0x03FF, 0x00)];
/// Its starts, each with the SP at which it is good with that stack.
const STARTS: [(u32, u16); 13] = [
    (0x8000, 0x03F5),
    (0x8001, 0x03F3),
    (0x8002, 0x03F5),
    (0x8003, 0x03FA),
    (0x8005, 0x03F7),
    (0x8007, 0x03F7),
    (0x800A, 0x03F7),
    (0x800C, 0x03F7),
    (0x800E, 0x03FA),
    (0x800F, 0x03FD),
    (0x8010, 0x03FC),
    (0x8013, 0x03FC),
    (0x8014, 0x03FD),
];

// Saving.

#[test]
fn each_byte_has_its_place() {
    let registers = Registers { a: 0xA1, x: 0xB2C3, y: 0xD4E5, cc: 0xF6, sp: 0x0718, pc: 0x293A };
    let expected = *b"SLS\x00\x02\x29\x3A\x07\x18\xA1\xB2\xC3\xD4\xE5\xF6\x4B\x5C\x6D\x7E\x8F\x90\x0A\x1B";
    assert_eq!(save(&registers, 0x4B5C_6D7E_8F90_0A1B), (OK, expected));
    let lowest = *b"SLS\x00\x02\x00\x00\x00\x00\x00\x00\x00\x00\x00\x00\x00\x00\x00\x00\x00\x00\x00\x00";
    assert_eq!(save(&Registers::default(), 0), (OK, lowest));
    let most = Registers { a: 0xFF, x: 0xFFFF, y: 0xFFFF, cc: 0xFF, sp: 0xFFFF, pc: 0xFFFF };
    let highest = *b"SLS\x00\x02\xFF\xFF\xFF\xFF\xFF\xFF\xFF\xFF\xFF\xFF\xFF\xFF\xFF\xFF\xFF\xFF\xFF\xFF";
    assert_eq!(save(&most, CEILING), (OK, highest));
}

#[test]
fn every_number_of_steps_is_saved() {
    for (steps, bytes) in [
        (0, "00 00 00 00 00 00 00 00"),
        (1, "00 00 00 00 00 00 00 01"),
        (65_536, "00 00 00 00 00 01 00 00"),
        (2_147_483_648, "00 00 00 00 80 00 00 00"),
        (4_294_967_295, "00 00 00 00 FF FF FF FF"),
        (4_294_967_296, "00 00 00 01 00 00 00 00"),
        (4_294_967_297, "00 00 00 01 00 00 00 01"),
        (1_000_000_000_000, "00 00 00 E8 D4 A5 10 00"),
        (9_223_372_036_854_775_807, "7F FF FF FF FF FF FF FF"),
        (9_223_372_036_854_775_808, "80 00 00 00 00 00 00 00"),
        (18_446_744_073_709_551_614, "FF FF FF FF FF FF FF FE"),
        (18_446_744_073_709_551_615, "FF FF FF FF FF FF FF FF"),
    ] {
        let head = *b"SLS\x00\x02\x80\x00\x03\xFD\x00\x00\x00\x00\x00\x00";
        assert_eq!(saved(BEGIN, steps)[..], [&head[..], &hexadecimal(bytes)].concat(), "{steps}");
    }
    for bit in 0..64 {
        let (number, saved) = save(&BEGIN, 1 << bit);
        let set = |at: usize| if at == 22 - bit / 8 { 1 << (bit % 8) } else { 0 };
        assert_eq!((number, saved[15..].to_vec()), (OK, (15..23).map(set).collect()), "bit {bit}");
    }
}

#[test]
fn a_pc_above_ffff_is_not_saved() {
    for bit in 16..32 {
        for low in [0x0000, 0x8000, 0xFFFF] {
            for steps in [0, 1, MOST_IN_0001, MOST_IN_0001 + 1, CEILING] {
                assert_eq!(save(&at(low | 1 << bit, 0x03FD), steps), (NOT_GOOD, [0; SAVED_BYTES]), "bit {bit}, {steps}");
            }
        }
    }
}

/// A and CC are read by their low 8 bits, X, Y and SP by their low 16, PC whole.
#[test]
fn cells_are_read_as_a_step_reads_them() {
    let mut saved = [0xA5; SAVED_BYTES];
    let wide = [0x5501, 0x5500_0002, 0x5500_0003, 0x5504, 0x5500_0005, 0x0006];
    assert_eq!(cells::save(&wide, 7, &mut saved), OK);
    assert_eq!(saved, *b"SLS\x00\x02\x00\x06\x00\x05\x01\x00\x02\x00\x03\x04\x00\x00\x00\x00\x00\x00\x00\x07");
    assert_eq!(cells::save(&[1, 2, 3, 4, 5, 0x5500_0006], 7, &mut saved), NOT_GOOD);
    assert_eq!(saved, [0; SAVED_BYTES]);
}

// Pausing.

/// A run from the start: the state after each of its steps.
struct States {
    file: Vec<u8>,
    limits: Limits,
    /// Registers, memory and the cycles so far.
    states: Vec<(Registers, Vec<u8>, u64)>,
}

impl States {
    fn new(file: Vec<u8>, limits: Limits, first: Registers, most: usize) -> States {
        let mut before: Vec<u8> = (0..MEMORY_BYTES).map(|address| (address % 251) as u8).collect();
        let mut registers = first;
        gate_host::start(&file, &limits, &mut [0; MARKS_ENOUGH], &mut before, &mut registers).expect("accepted");
        let mut states = vec![(registers, before, 0)];
        while states.len() <= most {
            let (registers, memory, cycles) = states.last().expect("the first");
            let (Ok(Step::Made { cycles: made }), after, left) = step(&file, &limits, *registers, memory) else { break };
            states.push((after, left, cycles + made));
        }
        States { file, limits, states }
    }

    /// Goes on from a state by resumed runs of such budgets, one after another, up to the last state. The first state has so many
    /// steps.
    fn goes_on(&self, first: u64, from: usize, budgets: &[u32]) {
        let last = self.states.len() - 1;
        let ends = self.states[last].0.pc == 0;
        let (registers, memory, _) = &self.states[from];
        let (mut registers, mut memory, mut now) = (*registers, memory.clone(), from);
        for &budget in budgets.iter().cycle() {
            // Only at an end more budget changes nothing.
            let budget = if ends { budget } else { budget.min((last - now) as u32) };
            let before = (registers, first + now as u64);
            let (answer, left) = resume_from(&self.file, &self.limits, &memory, before, budget);
            let then = last.min(now + budget as usize);
            let expected = &self.states[then];
            let ending = if expected.0.pc == 0 { FINISHED } else { SPENT };
            let cycles = expected.2 - self.states[now].2;
            let answered = Answer { number: ending, offset: 0, registers: expected.0, steps: first + then as u64, cycles };
            assert_eq!(answer, answered, "{:02X?} from {first} and {from}", self.file);
            assert!(left == expected.1, "memory: {:02X?} from {first} and {from}", self.file);
            (registers, memory, now) = (answer.registers, left, then);
            if now == last {
                break;
            }
        }
    }

    /// Pauses after every step, and goes on at once, step by step and in pieces: as it is, with a total that comes to more than
    /// version 0001 holds, and with one that comes to the ceiling.
    fn pause_everywhere(&self) {
        let last = self.states.len() - 1;
        for first in [0, MOST_IN_0001 - 2, CEILING - last as u64] {
            for from in 0..=last {
                for budgets in [&[(last - from) as u32][..], &[1], &[0, 3], &[2, 0, 5]] {
                    self.goes_on(first, from, budgets);
                }
            }
        }
    }
}

#[test]
fn pausing_equals_not_pausing() {
    let first = Registers { a: 0x5A, x: 0x1357, y: 0x2468, cc: 0x28, ..Registers::default() };
    let need = Limits { stack: Area { low: 0x03F4, high: 0x03FF }, ..LIMITS };
    let top = Limits { stack: Area { low: 0x7FF4, high: 0x7FFF }, ..LIMITS };
    for limits in [LIMITS, need, top] {
        let states = States::new(assembled(2, THREE), limits, first, 100);
        assert_eq!(states.states.len(), 14);
        states.pause_everywhere();
    }
    for (version, routines, steps) in [
        (2, "A6 05 B7 10 81", 3),
        (1, "81 | AD FD 81 | AD FB CD 80 00 CD 80 01 81", 11),
        // A loop of three turns, and one that pushes and pops.
        (2, "A6 03 4A 26 FD 81", 8),
        (2, "88 84 81 | AE 00 02 89 CD 80 00 85 5A 26 F8 81", 18),
    ] {
        let states = States::new(assembled(version, routines), LIMITS, first, 100);
        assert_eq!((states.states.len(), states.states[steps].0.pc), (steps + 1, 0), "{routines}");
        states.pause_everywhere();
    }
    // One that never ends, and code up to the last address.
    States::new(assembled(2, "4C 20 FD"), LIMITS, first, 9).pause_everywhere();
    let states = States::new(slu::image_of(2, 0xFFFB, &[&[0x81][..], &[0xCD, 0xFF, 0xFB, 0x81]]), LIMITS, first, 9);
    assert_eq!(states.states.len(), 4);
    states.pause_everywhere();
}

// What is good.

/// Each start is good at one SP, and nothing else is.
#[test]
fn the_good_states_of_a_stack() {
    let (file, memory) = (assembled(2, THREE), memory(&FRAMES));
    let pcs = (0x7FFD..=0x8018).chain([0x0000, 0x0001, 0x0080, 0x0F80, 0xFFFF]);
    let sps = || (0x02FC..=0x0404).chain(0x0000..=0x0008).chain([0x7FFD, 0x7FFE, 0x7FFF, 0x8000]).chain(0xFFF0..=0xFFFF);
    let good = |pc: u32, sp: u16| STARTS.contains(&(pc, sp)) || (pc, sp) == (0, 0x03FF);
    for pc in pcs {
        for sp in sps() {
            let expected = match (good(pc, sp), pc) {
                (true, 0) => FINISHED,
                (true, _) => SPENT,
                (false, _) => NOT_GOOD,
            };
            assert_eq!(number(&file, &memory, at(pc, sp)), expected, "PC {pc:04X} SP {sp:04X}");
        }
    }
}

#[test]
fn each_byte_of_a_return_address_counts() {
    let file = assembled(2, THREE);
    for (at_byte, right) in FRAMES {
        for value in 0..=255 {
            let mut memory = memory(&FRAMES);
            memory[at_byte] = value;
            // Frames below a byte that is wrong are not good, and those above it are.
            for (pc, sp) in STARTS {
                let expected = if value == right || usize::from(sp) >= at_byte { SPENT } else { NOT_GOOD };
                assert_eq!(number(&file, &memory, at(pc, sp)), expected, "PC {pc:04X}: {at_byte:04X} holds {value:02X}");
            }
        }
    }
}

/// From a good state a resumed run is a run from its registers, whatever the other bytes of memory and A, X, Y and CC are.
#[test]
fn all_other_bytes_are_free() {
    let file = assembled(2, THREE);
    for seed in 0..=255u8 {
        let mut memory: Vec<u8> = (0..MEMORY_BYTES).map(|address| (address as u8).wrapping_mul(seed | 1) ^ seed).collect();
        FRAMES.iter().for_each(|&(address, byte)| memory[address] = byte);
        for (pc, sp) in STARTS {
            let registers = Registers { a: seed, x: 0x0101 * u16::from(seed), y: !u16::from(seed), cc: seed ^ 0xFF, sp, pc };
            let (answer, left) = resume_from(&file, &LIMITS, &memory, (registers, 100), 50);
            let (Ok(Run { ending: Ending::Finished, steps, cycles }), after, then) = run(&file, &LIMITS, registers, &memory, 50)
            else {
                panic!("{registers:04X?}")
            };
            let expected = Answer { number: FINISHED, offset: 0, registers: after, steps: 100 + u64::from(steps), cycles };
            assert_eq!(answer, expected, "{registers:04X?}");
            assert!(left == then, "memory: {registers:04X?}");
        }
    }
}

/// Version, routines, return addresses with the higher frame first, PC, SP, and whether it is good.
type Frames<'a> = (u16, &'a str, &'a [(usize, u16)], u32, u16, bool);

const STACKS: &[Frames] = &[
    // CALL and CALLR, and the address after each.
    (2, "81 | CD 80 00 81", &[(0x03FC, 0x8004)], 0x8000, 0x03FB, true),
    (1, "81 | CD 80 00 81", &[(0x03FC, 0x8004)], 0x8000, 0x03FB, true),
    (1, "81 | AD FD 81", &[(0x03FC, 0x8003)], 0x8000, 0x03FB, true),
    (1, "81 | AD FD 81", &[(0x03FC, 0x8004)], 0x8000, 0x03FB, false),
    (2, "81 | CD 80 00 81", &[(0x03FC, 0x8001)], 0x8000, 0x03FB, false),
    (2, "81 | CD 80 00 81", &[(0x03FC, 0x8005)], 0x8000, 0x03FB, false),
    (2, "81 | CD 80 00 81", &[(0x03FC, 0x0480)], 0x8000, 0x03FB, false),
    // Two calls of one routine, and calls of two.
    (2, "81 | CD 80 00 CD 80 00 81", &[(0x03FC, 0x8004)], 0x8000, 0x03FB, true),
    (2, "81 | CD 80 00 CD 80 00 81", &[(0x03FC, 0x8007)], 0x8000, 0x03FB, true),
    (2, "81 | 81 | CD 80 00 CD 80 01 81", &[(0x03FC, 0x8005)], 0x8000, 0x03FB, true),
    (2, "81 | 81 | CD 80 00 CD 80 01 81", &[(0x03FC, 0x8008)], 0x8000, 0x03FB, false),
    (2, "81 | 81 | CD 80 00 CD 80 01 81", &[(0x03FC, 0x8005)], 0x8001, 0x03FB, false),
    (2, "81 | 81 | CD 80 00 CD 80 01 81", &[(0x03FC, 0x8008)], 0x8001, 0x03FB, true),
    // A routine that is called on two levels: 8004 is after the call in the second routine, 8008 and 800B after main's.
    (2, "81 | CD 80 00 81 | CD 80 01 CD 80 00 81", &[(0x03FC, 0x8008), (0x03FA, 0x8004)], 0x8000, 0x03F9, true),
    (2, "81 | CD 80 00 81 | CD 80 01 CD 80 00 81", &[(0x03FC, 0x800B)], 0x8000, 0x03FB, true),
    (2, "81 | CD 80 00 81 | CD 80 01 CD 80 00 81", &[(0x03FC, 0x800B), (0x03FA, 0x8004)], 0x8000, 0x03F9, false),
    (2, "81 | CD 80 00 81 | CD 80 01 CD 80 00 81", &[(0x03FC, 0x8004)], 0x8000, 0x03FB, false),
    (2, "81 | CD 80 00 81 | CD 80 01 CD 80 00 81", &[(0x03FC, 0x8004), (0x03FA, 0x8004)], 0x8000, 0x03F9, false),
    // The caller's depth at the call: 0 at the first, 2 at the second.
    (2, "81 | CD 80 00 89 CD 80 00 85 81", &[(0x03FC, 0x8004)], 0x8000, 0x03FB, true),
    (2, "81 | CD 80 00 89 CD 80 00 85 81", &[(0x03FA, 0x8008)], 0x8000, 0x03F9, true),
    (2, "81 | CD 80 00 89 CD 80 00 85 81", &[(0x03FA, 0x8004)], 0x8000, 0x03F9, false),
    (2, "81 | CD 80 00 89 CD 80 00 85 81", &[(0x03FC, 0x8008)], 0x8000, 0x03FB, false),
    // The bytes of a call as operands: BTJT $CD80,#0 to the next instruction, and LDW X,#$ADFC.
    (2, "81 | 72 00 CD 80 00 CD 80 00 81", &[(0x03FC, 0x8006)], 0x8000, 0x03FB, false),
    (2, "81 | 72 00 CD 80 00 CD 80 00 81", &[(0x03FC, 0x8009)], 0x8000, 0x03FB, true),
    (1, "81 | AE AD FC AD FA 81", &[(0x03FC, 0x8004)], 0x8000, 0x03FB, false),
    (1, "81 | AE AD FC AD FA 81", &[(0x03FC, 0x8006)], 0x8000, 0x03FB, true),
    // A routine that nobody calls, and one that such a routine alone calls.
    (2, "81 | 81", &[(0x03FC, 0x8001)], 0x8000, 0x03FB, false),
    (2, "81 | 81", &[], 0x8000, 0x03FD, false),
    (2, "81 | CD 80 00 81 | 81", &[(0x03FC, 0x8004)], 0x8000, 0x03FB, false),
    (2, "81 | CD 80 00 81 | 81", &[(0x03FE, 0x8004)], 0x8000, 0x03FD, false),
    (2, "81 | CD 80 00 81 | 81", &[], 0x8001, 0x03FD, false),
    (2, "81 | CD 80 00 81 | 81", &[], 0x8005, 0x03FD, true),
    // Main returns to 0000 alone, and a routine that is called never does.
    (2, "81 | CD 80 00 81", &[(0x03FE, 0x8004)], 0x8001, 0x03FD, false),
    (2, "81 | CD 80 00 81", &[], 0x8000, 0x03FD, false),
    (2, "81 | CD 80 00 81", &[(0x03FE, 0x8004)], 0x8000, 0x03FD, false),
    // A start that no run comes to: what JRF never jumps to.
    (2, "21 02 20 01 9D 81", &[], 0x8004, 0x03FD, true),
];

#[test]
fn frames() {
    for &(version, routines, frames, pc, sp, good) in STACKS {
        let bytes = |&(address, word): &(usize, u16)| [(address, (word >> 8) as u8), (address + 1, word as u8)];
        let memory = memory(&frames.iter().flat_map(bytes).collect::<Vec<_>>());
        let expected = if good { SPENT } else { NOT_GOOD };
        assert_eq!(number(&assembled(version, routines), &memory, at(pc, sp)), expected, "{routines}: {pc:04X} {frames:04X?}");
    }
}

/// A depth of 255, so that a byte less and more between the frames is off by one in nine bits.
#[test]
fn the_greatest_depth() {
    let limits = Limits { stack: Area { low: 0x0200, high: 0x03FF }, ..LIMITS };
    let file = assembled(2, "81 | 52 FF CD 80 00 5B FF 81");
    for (sp, good) in [(0x02FC, true), (0x02FB, false), (0x02FD, false), (0x03FB, false), (0x02FA, false)] {
        let memory = memory(&[(usize::from(sp) + 1, 0x80), (usize::from(sp) + 2, 0x06)]);
        let answer = resume_from(&file, &limits, &memory, (at(0x8000, sp), 0), 0).0;
        assert_eq!(answer.number, if good { SPENT } else { NOT_GOOD }, "{sp:04X}");
    }
}

/// PC 0 is good at stack high alone, and nothing of memory is looked at or written.
#[test]
fn main_has_returned() {
    let file = assembled(2, THREE);
    let memory = vec![0xEE; MEMORY_BYTES];
    for sp in (0x0000..=0x0010).chain(0x02F0..=0x0410).chain(0xFFF0..=0xFFFF) {
        let expected = if sp == 0x03FF { FINISHED } else { NOT_GOOD };
        assert_eq!(number(&file, &memory, at(0, sp)), expected, "{sp:04X}");
    }
    for budget in [0, 1, u32::MAX] {
        for steps in [0, 1_000, MOST_IN_0001, MOST_IN_0001 + 1, CEILING - 1, CEILING] {
            let registers = Registers { a: 1, x: 2, y: 3, cc: 4, sp: 0x03FF, pc: 0 };
            let (answer, left) = resume_from(&file, &LIMITS, &memory, (registers, steps), budget);
            assert_eq!(answer, Answer { number: FINISHED, offset: 0, registers, steps, cycles: 0 });
            assert!(left == memory);
        }
    }
}

// The total.

/// Code, PC, the steps before and the budget; the number, the total, PC and cycles of what it comes to.
type Total<'a> = (&'a str, u32, u64, u32, u8, u64, u32, u64);

/// JRA to itself has 2 cycles, NOP 1 and RET 4.
const ENDLESS: &str = "20 FE";
const SHORT: &str = "9D 9D 81";

const TOTALS: &[Total] = &[
    (SHORT, 0x8000, 0, u32::MAX, FINISHED, 3, 0, 6),
    // What version 0001 holds, and more.
    (ENDLESS, 0x8000, 4_294_967_292, 2, SPENT, 4_294_967_294, 0x8000, 4),
    (ENDLESS, 0x8000, 4_294_967_292, 3, SPENT, 4_294_967_295, 0x8000, 6),
    (ENDLESS, 0x8000, 4_294_967_292, 4, SPENT, 4_294_967_296, 0x8000, 8),
    (ENDLESS, 0x8000, 4_294_967_295, 0, SPENT, 4_294_967_295, 0x8000, 0),
    (ENDLESS, 0x8000, 4_294_967_295, 1, SPENT, 4_294_967_296, 0x8000, 2),
    (ENDLESS, 0x8000, 4_294_967_295, 9, SPENT, 4_294_967_304, 0x8000, 18),
    (ENDLESS, 0x8000, 4_294_967_296, 9, SPENT, 4_294_967_305, 0x8000, 18),
    (SHORT, 0x8000, 4_294_967_292, u32::MAX, FINISHED, 4_294_967_295, 0, 6),
    (SHORT, 0x8000, 4_294_967_293, u32::MAX, FINISHED, 4_294_967_296, 0, 6),
    (SHORT, 0x8000, 4_294_967_295, u32::MAX, FINISHED, 4_294_967_298, 0, 6),
    (SHORT, 0x8002, 4_294_967_295, 1, FINISHED, 4_294_967_296, 0, 4),
    // A carry from 32 bits to 64, and the highest bit.
    (ENDLESS, 0x8000, 8_589_934_591, 2, SPENT, 8_589_934_593, 0x8000, 4),
    (ENDLESS, 0x8000, 9_223_372_036_854_775_806, 1, SPENT, 9_223_372_036_854_775_807, 0x8000, 2),
    (ENDLESS, 0x8000, 9_223_372_036_854_775_807, 2, SPENT, 9_223_372_036_854_775_809, 0x8000, 4),
    (SHORT, 0x8000, 9_223_372_036_854_775_807, 9, FINISHED, 9_223_372_036_854_775_810, 0, 6),
    // The steps left to the ceiling are 4,294,967,296 and 4,294,967,298: 0 and 2 in 32 bits.
    (ENDLESS, 0x8000, 18_446_744_069_414_584_319, 5, SPENT, 18_446_744_069_414_584_324, 0x8000, 10),
    (ENDLESS, 0x8000, 18_446_744_069_414_584_317, 5, SPENT, 18_446_744_069_414_584_322, 0x8000, 10),
    // The ceiling.
    (ENDLESS, 0x8000, 18_446_744_073_709_551_612, 2, SPENT, 18_446_744_073_709_551_614, 0x8000, 4),
    (ENDLESS, 0x8000, 18_446_744_073_709_551_612, 3, SPENT, 18_446_744_073_709_551_615, 0x8000, 6),
    (ENDLESS, 0x8000, 18_446_744_073_709_551_612, 4, SPENT, 18_446_744_073_709_551_615, 0x8000, 6),
    (ENDLESS, 0x8000, 18_446_744_073_709_551_612, u32::MAX, SPENT, 18_446_744_073_709_551_615, 0x8000, 6),
    (ENDLESS, 0x8000, 18_446_744_073_709_551_615, 0, SPENT, 18_446_744_073_709_551_615, 0x8000, 0),
    (ENDLESS, 0x8000, 18_446_744_073_709_551_615, 1, SPENT, 18_446_744_073_709_551_615, 0x8000, 0),
    (ENDLESS, 0x8000, 18_446_744_073_709_551_615, u32::MAX, SPENT, 18_446_744_073_709_551_615, 0x8000, 0),
    (SHORT, 0x8000, 18_446_744_073_709_551_611, u32::MAX, FINISHED, 18_446_744_073_709_551_614, 0, 6),
    (SHORT, 0x8000, 18_446_744_073_709_551_612, u32::MAX, FINISHED, 18_446_744_073_709_551_615, 0, 6),
    (SHORT, 0x8000, 18_446_744_073_709_551_612, 3, FINISHED, 18_446_744_073_709_551_615, 0, 6),
    (SHORT, 0x8000, 18_446_744_073_709_551_613, u32::MAX, SPENT, 18_446_744_073_709_551_615, 0x8002, 2),
    (SHORT, 0x8000, 18_446_744_073_709_551_613, 3, SPENT, 18_446_744_073_709_551_615, 0x8002, 2),
    (SHORT, 0x8002, 18_446_744_073_709_551_614, 1, FINISHED, 18_446_744_073_709_551_615, 0, 4),
    (SHORT, 0x8002, 18_446_744_073_709_551_615, 1, SPENT, 18_446_744_073_709_551_615, 0x8002, 0),
];

#[test]
fn totals_and_their_ceiling() {
    for &(code, pc, steps, budget, number, total, pc_then, cycles) in TOTALS {
        let (answer, _) = resume_from(&assembled(2, code), &LIMITS, &memory(&[]), (at(pc, 0x03FD), steps), budget);
        let expected = (number, total, pc_then, cycles);
        assert_eq!((answer.number, answer.steps, answer.registers.pc, answer.cycles), expected, "{code}: {steps} {budget}");
    }
}

// The versions.

/// Saved states typed by hand, and the steps that they say.
const VERSIONS: [(&str, u64); 6] = [
    ("53 4C 53 00 01 80 00 03 FD 12 34 56 78 9A 28 00 00 00 00", 0),
    ("53 4C 53 00 01 80 00 03 FD 12 34 56 78 9A 28 01 02 03 04", 16_909_060),
    ("53 4C 53 00 01 80 00 03 FD 12 34 56 78 9A 28 FF FF FF FF", 4_294_967_295),
    ("53 4C 53 00 02 80 00 03 FD 12 34 56 78 9A 28 00 00 00 00 01 02 03 04", 16_909_060),
    ("53 4C 53 00 02 80 00 03 FD 12 34 56 78 9A 28 01 02 03 04 05 06 07 08", 72_623_859_790_382_856),
    ("53 4C 53 00 02 80 00 03 FD 12 34 56 78 9A 28 FF FF FF FF FF FF FF FF", 18_446_744_073_709_551_615),
];

#[test]
fn what_a_saved_state_says() {
    let (file, memory) = (assembled(2, SHORT), memory(&[]));
    for (bytes, steps) in VERSIONS {
        let (answer, _) = resume(&file, &LIMITS, &memory, &hexadecimal(bytes), 0);
        let registers = Registers { a: 0x12, x: 0x3456, y: 0x789A, cc: 0x28, sp: 0x03FD, pc: 0x8000 };
        assert_eq!(answer, Answer { number: SPENT, offset: 0, registers, steps, cycles: 0 }, "{bytes}");
        if steps <= CEILING - 3 {
            let (answer, _) = resume(&file, &LIMITS, &memory, &hexadecimal(bytes), 9);
            assert_eq!((answer.number, answer.steps, answer.cycles), (FINISHED, steps + 3, 6), "{bytes}");
        }
    }
}

// Refusals.

#[test]
fn length_mark_and_version() {
    let (file, memory) = (assembled(2, "9D 81"), memory(&[]));
    let number = |saved: &[u8]| resume(&file, &LIMITS, &memory, saved, 9).0.number;
    let in_0001 = in_version_0001(BEGIN, 7).expect("room");
    for good in [&in_0001[..], &saved(BEGIN, 7)] {
        assert_eq!(number(good), FINISHED);
        let right = good.len();
        for after in [good, &[0; 30]] {
            let longer = [good, after, &[0; 0x1_0000]].concat();
            for length in (0..=2 * right).chain([0x100 + right, 0x1_0000 + right]).filter(|&length| length != right) {
                assert_eq!(number(&longer[..length]), NOT_SLS, "{right} {length}");
            }
        }
        for byte in 0..5 {
            for value in (0..=255).filter(|&value| value != good[byte]) {
                let mut damaged = good.to_vec();
                damaged[byte] = value;
                assert_eq!(number(&damaged), NOT_SLS, "{damaged:02X?}");
                // 34 comes before 35.
                damaged[5..9].fill(0x90);
                assert_eq!(number(&damaged), NOT_SLS, "{damaged:02X?}");
            }
        }
    }
}

#[test]
fn each_version_has_its_length() {
    let (file, memory) = (assembled(2, "9D 81"), memory(&[]));
    for (bytes, expected) in [
        ("53 4C 53 00 01 80 00 03 FD 00 00 00 00 00 00 00 00 00 07", FINISHED),
        ("53 4C 53 00 02 80 00 03 FD 00 00 00 00 00 00 00 00 00 00 00 00 00 07", FINISHED),
        ("53 4C 53 00 02 80 00 03 FD 00 00 00 00 00 00 00 00 00 07", NOT_SLS),
        ("53 4C 53 00 01 80 00 03 FD 00 00 00 00 00 00 00 00 00 00 00 00 00 07", NOT_SLS),
        ("53 4C 53 00 01 80 00 03 FD 00 00 00 00 00 00 00 00 00 07 00 00 00 00", NOT_SLS),
    ] {
        assert_eq!(resume(&file, &LIMITS, &memory, &hexadecimal(bytes), 9).0.number, expected, "{bytes}");
    }
    for version in ["00 00", "00 03", "01 00", "01 01", "01 02", "02 00", "02 01", "02 02", "80 01", "80 02", "FF FF"] {
        for steps in ["00 00 00 07", "00 00 00 00 00 00 00 07"] {
            let bytes = format!("53 4C 53 {version} 80 00 03 FD 00 00 00 00 00 00 {steps}");
            assert_eq!(resume(&file, &LIMITS, &memory, &hexadecimal(&bytes), 9).0.number, NOT_SLS, "{bytes}");
        }
    }
}

#[test]
fn the_order_of_refusals() {
    let [good, not_good] = [saved(BEGIN, 7), saved(at(0x9000, 0x03FD), 7)];
    let in_0001 = in_version_0001(BEGIN, 7).expect("room");
    let memory = memory(&[]);
    let stack_from = |low| Limits { stack: Area { low, ..LIMITS.stack }, ..LIMITS };
    for saved in [&good[..], &not_good, &in_0001, b"", b"SLS"] {
        let refused = |file: &[u8], limits: &Limits, lent: usize| {
            let (answer, _) = resume(file, limits, &vec![0xEE; lent], saved, 9);
            (answer.number, answer.offset)
        };
        for lent in [0, 100, MEMORY_BYTES - 1, MEMORY_BYTES + 1, MEMORY_BYTES + 0x1_0000] {
            assert_eq!(refused(b"SL", &stack_from(0), lent), (17, 0), "{lent}");
        }
        assert_eq!(refused(b"SL", &stack_from(0), MEMORY_BYTES), (1, 0));
        assert_eq!(refused(b"SL", &LIMITS, MEMORY_BYTES), (2, 0));
        assert_eq!(refused(&assembled(3, "81"), &LIMITS, MEMORY_BYTES), (3, 0));
        assert_eq!(refused(&slu::image(2, 0x8000, &[], &[]), &LIMITS, MEMORY_BYTES), (4, 0));
        assert_eq!(refused(&slu::image(2, 0x8000, &[4_097], &[0x81; 4_097]), &LIMITS, MEMORY_BYTES), (4, 0));
        assert_eq!(refused(&assembled(2, "81"), &stack_from(0x03FF), MEMORY_BYTES), (16, 0));
        for (routines, number, offset) in [
            ("20 01 9D 81", 6, 2),
            ("81 | 27 01 88 81", 7, 1),
            ("9D 8E 81", 8, 1),
            ("9D A6", 9, 1),
            ("27 01 A6 00 81", 10, 0),
            ("9D 84 81", 11, 1),
            ("9D C7 01 00 81", 12, 1),
            ("9D 20 7F", 13, 1),
            ("9D CD 80 00 81", 14, 1),
            ("9D 9D", 15, 1),
        ] {
            assert_eq!(refused(&assembled(2, routines), &LIMITS, MEMORY_BYTES), (number, offset), "{routines}");
        }
    }
    let file = assembled(2, "9D 81");
    for (saved, number) in [(&good[..], FINISHED), (&in_0001, FINISHED), (&not_good, NOT_GOOD), (b"SLS", NOT_SLS), (b"", NOT_SLS)]
    {
        assert_eq!(resume(&file, &LIMITS, &memory, saved, 9).0.number, number, "{saved:02X?}");
    }
}

/// A mark past the code tells nothing of a start, whatever it holds.
#[test]
fn marks_past_the_code() {
    let (file, mut memory) = (assembled(2, "9D 81"), memory(&[]));
    for resume in [library_resume, twin_resume] {
        let mut marks = [1; 9];
        assert_eq!(resume(&file, &LIMITS, &mut marks, &mut memory, &saved(at(0x8002, 0x03FD), 7), 0).number, NOT_GOOD);
        assert_eq!(marks, [1; 9]);
        let mut marks = [4; 9];
        assert_eq!(resume(&file, &LIMITS, &mut marks, &mut memory, &saved(at(0x8003, 0x03FA), 7), 0).number, NOT_GOOD);
        assert_eq!(marks, [1, 1, 4, 4, 4, 4, 4, 4, 4]);
    }
}

/// Marks that are too few are refused with 5 before 34, and left as they were.
#[test]
fn marks_too_few() {
    let (file, mut memory) = (assembled(2, "9D 81"), memory(&[]));
    for saved in [&saved(BEGIN, 7)[..], b"SLS"] {
        for resume in [library_resume, twin_resume] {
            let mut marks = [BLANK];
            assert_eq!(resume(&file, &LIMITS, &mut marks, &mut memory, saved, 9).number, 5);
            assert_eq!(marks, [BLANK]);
        }
    }
}

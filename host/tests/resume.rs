//! Saving and resuming: the bytes of a saved state in either version, that a pause changes nothing, which states are good, the ceiling of
//! the total, and what a refusal leaves.

use gate_host::cells;
use gate_host::{
    Area, Ending, Limits, Refusal, Refused, Registers, Resumed, SavedState, MARKS_ENOUGH, MEMORY_BYTES, SAVED_BYTES,
};

const LIMITS: Limits =
    Limits { grant: Area { low: 0x0000, high: 0x00FF }, stack: Area { low: 0x0300, high: 0x03FF }, second: Area::NONE };

/// Three routines. The first is called by the second, with two bytes pushed, and by main; the second by main, with one byte pushed.
///
/// 8000 PUSH A, 8001 INC A, 8002 POP A, 8003 RET;
/// 8004 PUSHW X, 8005 CALL $8000, 8008 POPW X, 8009 RET;
/// 800A PUSH A, 800B CALL $8004, 800E POP A, 800F INC $10, 8011 CALL $8000, 8014 RET
const IMAGE: &[u8] = b"SLU\x00\x02\x80\x00\x03\x00\x04\x00\x06\x00\x0B\
    \x88\x4C\x84\x81\x89\xCD\x80\x00\x85\x81\x88\xCD\x80\x04\x84\x3C\x10\xCD\x80\x00\x81";

/// The steps of `IMAGE` from the start to the end.
const STEPS: u64 = 18;
/// The most steps that a total holds.
const CEILING: u64 = 18_446_744_073_709_551_615;
/// The most steps that a saved state of version 0001 holds.
const OLD_MOST: u64 = 4_294_967_295;

fn started() -> (Vec<u8>, Registers) {
    let mut memory: Vec<u8> = (0..MEMORY_BYTES).map(|address| address as u8).collect();
    let mut registers = Registers { a: 0x12, x: 0x3456, y: 0x789A, cc: 0x28, ..Registers::default() };
    gate_host::start(IMAGE, &LIMITS, &mut [0; MARKS_ENOUGH], &mut memory, &mut registers).expect("accepted");
    (memory, registers)
}

fn ran(memory: &mut [u8], registers: &mut Registers, budget: u32) -> gate_host::Run {
    gate_host::run(IMAGE, &LIMITS, memory, registers, budget).expect("good limits")
}

fn resume(memory: &mut [u8], saved: impl AsRef<[u8]>, budget: u32) -> Result<Resumed, Refused> {
    gate_host::resume(IMAGE, &LIMITS, &mut [0; MARKS_ENOUGH], memory, saved, budget)
}

fn saved(registers: &Registers, steps: u64) -> SavedState {
    gate_host::save(registers, steps).expect("the PC of a run")
}

/// What saving made of the same before there was version 0002: its steps have 4 bytes.
fn old(registers: &Registers, steps: u64) -> Vec<u8> {
    let state = saved(registers, 0).to_bytes();
    let steps = u32::try_from(steps).expect("steps of 32 bits").to_be_bytes();
    [b"SLS\x00\x01", &state[5..15], &steps].concat()
}

#[test]
fn each_register_and_the_steps_have_their_bytes() {
    let registers = Registers { a: 0x01, x: 0x0203, y: 0x0405, cc: 0x06, sp: 0x0708, pc: 0x090A };
    let expected = b"SLS\x00\x02\x09\x0A\x07\x08\x01\x02\x03\x04\x05\x06\x0B\x0C\x0D\x0E\x0F\x10\x11\x12";
    assert_eq!(&saved(&registers, 0x0B0C_0D0E_0F10_1112).to_bytes(), expected);
    assert_eq!(SavedState::from_bytes(*expected).as_ref(), expected);
}

/// A PC that has no room is refused, and nothing is saved. Steps have room, however many. The other registers are cut to their width.
#[test]
fn a_pc_that_has_no_room_is_refused() {
    let save = |pc: u32, steps: u64| {
        let mut saved = [0xA5; SAVED_BYTES];
        let number = cells::save(&[0xFFFF_FF01, 0xFFFF_0203, 0xFFFF_0405, 0xFFFF_FF06, 0xFFFF_0708, pc], steps, &mut saved);
        (number, saved)
    };
    let good = *b"SLS\x00\x02\xFF\xFF\x07\x08\x01\x02\x03\x04\x05\x06\xFF\xFF\xFF\xFF\xFF\xFF\xFF\xFF";
    assert_eq!(save(0xFFFF, CEILING), (cells::OK, good));
    for (pc, steps) in [(0x1_0000, 0), (0x0100_8000, 0), (u32::MAX, 0), (0x1_0000, CEILING)] {
        assert_eq!(save(pc, steps), (35, [0; SAVED_BYTES]), "PC {pc:X}, {steps} steps");
    }
}

/// Pauses after every step, and goes on with every budget: registers, memory, total and the sum of the cycles are those of one run.
#[test]
fn pausing_anywhere_equals_not_pausing() {
    for first in 0..=STEPS as u32 + 2 {
        for second in 0..=STEPS as u32 + 2 {
            let (mut memory, mut registers) = started();
            let whole = ran(&mut memory, &mut registers, first + second);
            let (mut paused, mut before) = started();
            let part = ran(&mut paused, &mut before, first);
            let resumed = resume(&mut paused, saved(&before, part.steps.into()), second).expect("a state of a run");
            assert_eq!((resumed.registers, resumed.steps), (registers, whole.steps.into()), "{first} and {second}");
            assert_eq!((resumed.finished, part.cycles + resumed.cycles), (whole.ending == Ending::Finished, whole.cycles));
            assert!(paused == memory, "{first} and {second}");
        }
    }
    let (mut memory, mut registers) = started();
    assert_eq!(u64::from(ran(&mut memory, &mut registers, 1_000).steps), STEPS);
}

/// A step at a time, each from the file that the one before it wrote.
#[test]
fn a_pause_after_each_step_changes_nothing() {
    let (mut memory, mut registers) = started();
    let whole = ran(&mut memory, &mut registers, 1_000);
    let (mut paused, start) = started();
    let (mut state, mut cycles) = (saved(&start, 0), 0);
    let last = loop {
        let resumed = resume(&mut paused, state, 1).expect("a state of a run");
        cycles += resumed.cycles;
        state = saved(&resumed.registers, resumed.steps);
        if resumed.finished {
            break resumed;
        }
    };
    assert_eq!((last.registers, last.steps, cycles), (registers, STEPS, whole.cycles));
    assert!(paused == memory);
    assert_eq!(resume(&mut paused, state, 9), Ok(Resumed { cycles: 0, ..last }), "nothing more happens");
}

/// A pause that was saved in version 0001 goes on as one in version 0002 does, from every step on; and so does one at the ends of what
/// version 0001 holds, with a total that then has more than 32 bits.
#[test]
fn an_old_state_goes_on_as_a_new_one() {
    for first in 0..=STEPS as u32 {
        let (mut memory, mut registers) = started();
        let made = u64::from(ran(&mut memory, &mut registers, first).steps);
        for steps in [made, 0, 1 << 31, OLD_MOST - 1, OLD_MOST] {
            for budget in [0, 1, 2, 1_000] {
                let (mut old_memory, mut new_memory) = (memory.clone(), memory.clone());
                let from_old = resume(&mut old_memory, old(&registers, steps), budget).expect("a state of a run");
                let from_new = resume(&mut new_memory, saved(&registers, steps), budget).expect("a state of a run");
                assert_eq!(from_old, from_new, "{first} steps made, {steps} saved, budget {budget}");
                assert_eq!(from_old.steps - steps, (STEPS - u64::from(first)).min(budget.into()));
                assert!(old_memory == new_memory, "{first} steps made, {steps} saved, budget {budget}");
            }
        }
    }
}

/// Memory and registers three frames deep: at 8001, with the byte of 8000, the two bytes of 8004 and the byte of main on the stack.
fn deep() -> (Vec<u8>, Registers) {
    let (mut memory, mut registers) = started();
    ran(&mut memory, &mut registers, 5);
    assert_eq!((registers.pc, registers.sp), (0x8001, 0x03F5));
    assert_eq!(memory[0x03F6..0x0400], [0x12, 0x80, 0x08, 0x34, 0x56, 0x80, 0x0E, 0x12, 0x00, 0x00]);
    (memory, registers)
}

/// The number of a resume with other PC and SP, and other bytes from an address on.
fn number(pc: u32, sp: u16, address: usize, bytes: &[u8]) -> u8 {
    let (mut memory, registers) = deep();
    memory[address..address + bytes.len()].copy_from_slice(bytes);
    let kept = memory.clone();
    let registers = Registers { pc, sp, ..registers };
    let answer = resume(&mut memory, saved(&registers, 5), 0);
    assert_eq!(resume(&mut memory, old(&registers, 5), 0), answer, "in version 0001");
    assert!(memory == kept, "no step is made");
    answer.map_or_else(|refused| refused.refusal.number(), |_| 0)
}

#[test]
fn other_bytes_than_return_addresses_may_be_any() {
    for (address, bytes) in [(0x0000, 0x03F6), (0x03F6, 1), (0x03F9, 2), (0x03FD, 1), (0x0400, 0x7C00)] {
        for byte in [0x00, 0x80, 0xFF] {
            assert_eq!(number(0x8001, 0x03F5, address, &vec![byte; bytes]), 0, "{address:04X}");
        }
    }
}

#[test]
fn each_return_address_follows_a_call_to_its_routine() {
    // One frame below main's: after its call to the first routine, and after the one to the second.
    assert_eq!(number(0x8001, 0x03FA, 0x03FC, &[0x80, 0x14]), 0);
    assert_eq!(number(0x8001, 0x03F9, 0x03FB, &[0x80, 0x0E]), 35, "the depths fit, but it is a call to another routine");
    assert_eq!(number(0x8005, 0x03F8, 0x03FB, &[0x80, 0x0E]), 0);
    assert_eq!(number(0x8005, 0x03F9, 0x03FC, &[0x80, 0x14]), 35, "the depths fit, but it is a call to another routine");
    let good = |address, bytes: &[u8]| number(0x8001, 0x03F5, address, bytes);
    assert_eq!(good(0x03F7, &[0x80, 0x0E]), 35, "after a call to another routine");
    assert_eq!(good(0x03F7, &[0x80, 0x14]), 35, "after main's call, and main's return bytes are not there");
    assert_eq!(good(0x03FB, &[0x80, 0x14]), 35, "after a call to another routine");
    for wrong in [0x8008 - 1, 0x8008 + 1, 0x8005, 0x8000, 0x0008, 0x0000, 0xFFFF_u16] {
        assert_eq!(good(0x03F7, &wrong.to_be_bytes()), 35, "{wrong:04X}");
    }
    for bytes in [[0x00, 0x01], [0x01, 0x00], [0x80, 0x0A]] {
        assert_eq!(good(0x03FE, &bytes), 35, "main's return bytes are {bytes:02X?}");
    }
}

#[test]
fn pc_is_at_a_start_and_sp_at_its_depth() {
    assert_eq!([number(0x8001, 0x03F5, 0, &[]), number(0x8002, 0x03F5, 0, &[])], [0, 0]);
    assert_eq!([number(0x8000, 0x03F6, 0, &[]), number(0x8003, 0x03F6, 0, &[])], [0, 0], "a byte less is in use");
    assert_eq!([number(0x8000, 0x03F5, 0, &[]), number(0x8001, 0x03F6, 0, &[])], [35, 35], "another depth");
    assert_eq!(number(0x8008, 0x03F8, 0, &[]), 0, "back in the second routine");
    assert_eq!([number(0x800E, 0x03FC, 0, &[]), number(0x800A, 0x03FD, 0, &[])], [0, 0], "back in main");
    for pc in [0x8006, 0x8007, 0x8015, 0x7FFF, 0x0001, 0xFFFF] {
        assert_eq!([number(pc, 0x03F5, 0, &[]), number(pc, 0x03FD, 0, &[])], [35, 35], "{pc:04X} is no start");
    }
    for sp in [0x02FF, 0x03F4, 0x03FD, 0x03FE, 0x03FF, 0x0400, 0x7FFF, 0x8000, 0xFFFD, 0xFFFE, 0xFFFF] {
        assert_eq!(number(0x8001, sp, 0, &[]), 35, "SP {sp:04X}");
    }
}

/// Main's return bytes are the top two: the same frames one byte lower are not good.
#[test]
fn main_returns_from_the_very_top() {
    assert_eq!(number(0x800A, 0x03FD, 0, &[]), 0);
    assert_eq!(number(0x800A, 0x03FC, 0x03FD, &[0x00, 0x00]), 35);
    assert_eq!(number(0x800A, 0x03FE, 0x03FF, &[0x00, 0x00]), 35, "past the top");
    assert_eq!([number(0x8000, 0x03FD, 0, &[]), number(0x8004, 0x03FD, 0, &[])], [35, 35], "main alone returns by them");
    assert_eq!(number(0x8001, 0x03F4, 0x03F5, &[0x12, 0x80, 0x08, 0x34, 0x56, 0x80, 0x0E, 0x12, 0x00, 0x00]), 35);
}

#[test]
fn pc_0_is_good_with_sp_at_stack_high() {
    for sp in [0x0000, 0x02FF, 0x03FD, 0x03FE, 0x0400, 0xFFFF] {
        assert_eq!(number(0x0000, sp, 0, &[]), 35, "SP {sp:04X}");
    }
    assert_eq!(number(0x0000, 0x03FF, 0x03FE, &[0xAA, 0xAA]), 0, "whatever is on the stack");
    let (mut memory, registers) = started();
    let registers = Registers { pc: 0, sp: 0x03FF, ..registers };
    let finished = Resumed { finished: true, registers, steps: 7, cycles: 0 };
    assert_eq!([0, 1, u32::MAX].map(|budget| resume(&mut memory, saved(&registers, 7), budget)), [Ok(finished); 3]);
}

/// With another image, or under other limits, it is the same bytes that are good or not.
#[test]
fn goodness_is_of_the_image_and_the_limits() {
    let (mut memory, registers) = deep();
    let state = saved(&registers, 5);
    let mut other = |image: &[u8], limits: &Limits| {
        gate_host::resume(image, limits, &mut [0; MARKS_ENOUGH], &mut memory, state, 0).map_err(|refused| refused.refusal)
    };
    let stack = |low, high| Limits { stack: Area { low, high }, ..LIMITS };
    assert!(other(IMAGE, &stack(0x03F0, 0x03FF)).is_ok(), "a smaller stack with the same top");
    assert_eq!(other(IMAGE, &stack(0x0300, 0x03FE)), Err(Refusal::NotGood));
    assert_eq!(other(IMAGE, &stack(0x0300, 0x04FF)), Err(Refusal::NotGood));
    let mut moved = IMAGE.to_vec();
    moved[24] = 0x9D; // PUSH A of main is a NOP, and POP A too
    moved[28] = 0x9D;
    assert_eq!(other(&moved, &LIMITS), Err(Refusal::NotGood), "{:02X?}", &moved[24..]);
}

/// A loop, which does not end: the total stops at the ceiling, whatever the budget.
#[test]
fn a_total_stops_at_the_ceiling() {
    let image = b"SLU\x00\x02\x80\x00\x01\x00\x02\x20\xFE";
    let (mut memory, registers) = (vec![0; MEMORY_BYTES], Registers { sp: 0x03FD, pc: 0x8000, ..Registers::default() });
    let mut total = |steps, budget| {
        let answer = gate_host::resume(image, &LIMITS, &mut [0; 2], &mut memory, saved(&registers, steps), budget);
        let resumed = answer.expect("a good state");
        assert_eq!((resumed.finished, resumed.registers, resumed.cycles), (false, registers, 2 * (resumed.steps - steps)));
        resumed.steps
    };
    assert_eq!([total(CEILING, 0), total(CEILING, 1), total(CEILING, u32::MAX)], [CEILING; 3]);
    assert_eq!([total(CEILING - 3, 2), total(CEILING - 3, 3), total(CEILING - 3, 4)], [CEILING - 1, CEILING, CEILING]);
    assert_eq!([total(CEILING - 3, u32::MAX), total(0, 5)], [CEILING, 5]);
    // What is left to the ceiling has more than 32 bits, and its low ones are few.
    for left in [1 << 32, (1 << 32) + 1, 1 << 63] {
        assert_eq!(total(CEILING - left, 5), CEILING - left + 5);
    }
}

/// One that finishes with the last step before the ceiling has finished, and so has one that had finished there.
#[test]
fn finished_at_the_ceiling_is_finished() {
    let image = b"SLU\x00\x02\x80\x00\x01\x00\x02\x9D\x81";
    let (mut memory, registers) = (vec![0; MEMORY_BYTES], Registers { sp: 0x03FD, pc: 0x8001, ..Registers::default() });
    let mut total = |registers: &Registers, steps| {
        let answer = gate_host::resume(image, &LIMITS, &mut [0; 2], &mut memory, saved(registers, steps), 9);
        answer.map(|resumed| (resumed.finished, resumed.registers.pc, resumed.steps))
    };
    assert_eq!(total(&registers, CEILING - 1), Ok((true, 0x0000, CEILING)));
    assert_eq!(total(&registers, CEILING), Ok((false, 0x8001, CEILING)));
    assert_eq!(total(&Registers { pc: 0, sp: 0x03FF, ..registers }, CEILING), Ok((true, 0x0000, CEILING)));
}

/// Number, offset and marks of a resume that is refused: all else is zeros, whatever the cells held, and no memory is written.
fn refused(image: &[u8], limits: &Limits, lent: usize, state: &[u8]) -> (u8, u16, Vec<u16>) {
    let (mut marks, mut memory) = (vec![9; IMAGE.len()], vec![0xA5; lent]);
    let mut registers = [0xA5A5_A5A5; 6];
    let (mut steps, mut cycles, mut offset) = ([u64::MAX], [u64::MAX], [0xA5A5]);
    let (total, sum) = (&mut steps, &mut cycles);
    let number = cells::resume(image, limits, &mut marks, &mut memory, state, 9, &mut registers, total, sum, &mut offset);
    assert_eq!((registers, steps, cycles), ([0; 6], [0], [0]), "{number}");
    assert!(memory == vec![0xA5; lent], "{number}");
    (number, offset[0], marks)
}

/// Each fault is answered before those after it: the memory's size, limits, image, code, saved state, and what it stands for.
#[test]
fn refusals_have_an_order() {
    let meeting = Limits { grant: LIMITS.stack, ..LIMITS };
    let small = Limits { stack: Area { low: 0x03FE, high: 0x03FF }, ..LIMITS };
    let outside: Vec<u8> = IMAGE.iter().enumerate().map(|(at, &byte)| if at == 15 { 0x8E } else { byte }).collect();
    let not_good = saved(&Registers { pc: 0x8001, ..Registers::default() }, 0);
    let (untouched, cleared) = (vec![9; IMAGE.len()], [vec![0; 21], vec![9; 14]].concat());
    let mut accepted = vec![9; IMAGE.len()];
    gate_host::check(IMAGE, &LIMITS, &mut accepted).expect("accepted");

    assert_eq!(refused(&IMAGE[1..], &meeting, MEMORY_BYTES - 1, b""), (17, 0, untouched.clone()));
    assert_eq!(refused(&IMAGE[1..], &meeting, MEMORY_BYTES, b""), (1, 0, untouched.clone()));
    assert_eq!(refused(&IMAGE[1..], &small, MEMORY_BYTES, b""), (2, 0, untouched));
    assert_eq!(refused(&outside, &small, MEMORY_BYTES, b""), (8, 1, cleared.clone()));
    assert_eq!(refused(IMAGE, &small, MEMORY_BYTES, b""), (16, 0, cleared));
    assert_eq!(refused(IMAGE, &LIMITS, MEMORY_BYTES, b""), (34, 0, accepted.clone()));
    assert_eq!(refused(IMAGE, &LIMITS, MEMORY_BYTES, not_good.as_ref()), (35, 0, accepted));
}

#[test]
fn another_length_mark_or_version_is_no_saved_state() {
    let registers = started().1;
    for (good, version) in [(saved(&registers, 0).to_bytes().to_vec(), 2), (old(&registers, 0), 1)] {
        let lengths = (0..40).filter(|&length| length != good.len());
        let padded = |length| good.iter().copied().chain([0; 40]).take(length).collect();
        let mut others: Vec<Vec<u8>> = lengths.map(padded).collect();
        for (at, byte) in [(0, b's'), (1, b'l'), (2, b'U'), (3, version), (4, 0), (4, 3 - version), (4, 3), (4, version << 4)] {
            let mut changed = good.clone();
            changed[at] = byte;
            others.push(changed);
        }
        for other in others {
            assert_eq!(resume(&mut started().0, &other, 9), Err(Refusal::NotSls.into()), "{other:02X?}");
        }
        assert!(resume(&mut started().0, good, 9).is_ok());
    }
}

/// The guarantee from a good state that no run came to, with other bytes in all of memory but the return addresses.
#[test]
fn a_good_state_that_no_run_came_to_runs_to_the_end() {
    for byte in 0..=255 {
        let mut memory = vec![byte; MEMORY_BYTES];
        memory[0x03F7..0x03F9].copy_from_slice(&[0x80, 0x08]);
        memory[0x03FB..0x03FD].copy_from_slice(&[0x80, 0x0E]);
        memory[0x03FE..0x0400].copy_from_slice(&[0x00, 0x00]);
        let mut expected = memory.clone();
        let registers = Registers { a: byte, x: 0xFFFF, y: 0xFFFF, cc: byte, sp: 0x03F5, pc: 0x8001 };
        let resumed = resume(&mut memory, saved(&registers, 1_000), 1_000).expect("a good state");
        assert_eq!((resumed.finished, resumed.steps), (true, 1_000 + STEPS - 5));
        assert_eq!(
            (resumed.registers.a, resumed.registers.x, resumed.registers.sp),
            (byte, u16::from_be_bytes([byte; 2]), 0x03FF)
        );
        expected[0x0010] = byte.wrapping_add(1);
        expected[0x03FB..0x03FE].copy_from_slice(&[byte, 0x80, 0x14]);
        assert!(memory == expected, "{byte:02X}");
    }
}

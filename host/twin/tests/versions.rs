//! W-212: SLU version 0002 leaves CALLR out of the set, and changes nothing else. Through the library and through the twin.

mod both;
mod checks;

use both::{assembled, run, step, BEGIN, LIMITS};
use checks::{accepted, check, check_and_marks, refused, Verdict, BLANK};
use gate_host::{Ending, Refusal, Registers, Run, Step, Trap, MARKS_ENOUGH, MEMORY_BYTES};
use gate_twin::{self as twin, slu};

/// A call by CALLR, after a routine that is RET alone.
const CALLR: &str = "81 | AD FD 81";

/// Routines, and the verdicts on them in versions 0001 and 0002.
fn all_checked(table: &[(&str, Verdict, Verdict)]) {
    for &(routines, first, second) in table {
        assert_eq!(check(&assembled(1, routines), &LIMITS, MARKS_ENOUGH), first, "{routines} in version 0001");
        assert_eq!(check(&assembled(2, routines), &LIMITS, MARKS_ENOUGH), second, "{routines} in version 0002");
    }
}

#[test]
fn two_versions_alone() {
    let memory = vec![0xAA; MEMORY_BYTES];
    for version in [1, 2] {
        let file = assembled(version, "9D 81");
        assert_eq!(check(&file, &LIMITS, 2), accepted(2, 2));
        assert_eq!(step(&file, &LIMITS, BEGIN, &memory).0, Ok(Step::Made { cycles: 1 }));
    }
    for version in [0x0000, 0x0003, 0x0004, 0x0100, 0x0101, 0x0102, 0x0200, 0x0201, 0x8002, 0xFF01, 0xFFFF] {
        let file = assembled(version, "9D 81");
        assert_eq!(check(&file, &LIMITS, 2), refused(3, 0), "{version:04X}");
        let (answer, after, left) = step(&file, &LIMITS, BEGIN, &memory);
        assert_eq!((answer, after), (Err(Refusal::UnknownVersion), BEGIN), "{version:04X}");
        assert!(left == memory);
        let (answer, after, left) = run(&file, &LIMITS, BEGIN, &memory, 9);
        assert_eq!((answer, after), (Err(Refusal::UnknownVersion), BEGIN), "{version:04X}");
        assert!(left == memory);
    }
}

/// 3 comes after 1 and 2, and before 4, 5 and all that is in the code.
#[test]
fn order_of_the_version() {
    let file = slu::image(3, 0x7FFF, &[9], &[0xAD]);
    assert_eq!(check(&file, &LIMITS, 0), refused(3, 0));
    assert_eq!(check(&file[..7], &LIMITS, 0), refused(2, 0));
    assert_eq!(check(&[b"slu", &file[3..]].concat(), &LIMITS, 0), refused(2, 0));
    let mut limits = LIMITS;
    limits.stack.low = 0;
    assert_eq!(check(&file, &limits, 0), refused(1, 0));
    assert_eq!(check(&slu::image(2, 0x7FFF, &[9], &[0xAD]), &LIMITS, 0), refused(4, 0));
    assert_eq!(check(&slu::image(2, 0x8000, &[1], &[0xAD]), &LIMITS, 0), refused(5, 0));
}

#[test]
fn callr_in_a_check() {
    all_checked(&[
        (CALLR, accepted(4, 3), refused(8, 1)),
        ("81 | CD 80 00 81", accepted(4, 3), accepted(4, 3)),
        // The lowest of two.
        ("81 | 9D AD FC AD FA 81", accepted(4, 5), refused(8, 2)),
        // 8 comes before what version 0001 tests later: 13, 6, 7, 11, 12 and 14.
        ("20 7F AD 00 81", refused(13, 0), refused(8, 2)),
        ("81 | 81 AD FC 81", refused(6, 2), refused(8, 2)),
        ("81 | 27 01 88 AD FA 81", refused(7, 1), refused(8, 4)),
        ("81 | 84 AD FC 81", refused(11, 1), refused(8, 2)),
        ("81 | C7 01 00 AD FA 81", refused(12, 1), refused(8, 4)),
        ("81 | AD FE 81", refused(14, 1), refused(8, 1)),
        // The lower start first.
        ("81 | AD FD 8E", refused(8, 3), refused(8, 1)),
        ("81 | AD FD A6", refused(9, 3), refused(8, 1)),
        ("81 | AD FD 9D", refused(15, 3), refused(8, 1)),
        ("8E AD 00 81", refused(8, 0), refused(8, 0)),
        // A routine before it is tested wholly.
        ("88 81 | AD FC 81", refused(11, 1), refused(11, 1)),
        ("27 01 88 81 | AD FA 81", refused(7, 0), refused(7, 0)),
    ]);
    // 16 comes last of all.
    let mut limits = LIMITS;
    limits.stack.low = 0x03FD;
    assert_eq!(check(&assembled(1, CALLR), &limits, 4), refused(16, 0));
    assert_eq!(check(&assembled(2, CALLR), &limits, 4), refused(8, 1));
    let (verdict, marks) = check_and_marks(&assembled(1, CALLR), &LIMITS, 5);
    assert_eq!((verdict, &marks[..]), (accepted(4, 3), &[1, 1, 0, 1, BLANK][..]));
}

/// Outside the set no operand is missing, so 8 comes where 9 was.
#[test]
fn op_code_of_callr_at_the_end_of_a_routine() {
    all_checked(&[
        ("AD", refused(9, 0), refused(8, 0)),
        ("81 AD", refused(9, 1), refused(8, 1)),
        ("AD | 81", refused(9, 0), refused(8, 0)),
        ("81 | 81 AD", refused(9, 2), refused(8, 2)),
        ("81 AD | 00 81", refused(9, 1), refused(8, 1)),
        // It is whole, and falls off.
        ("AD 00", refused(15, 0), refused(8, 0)),
        ("81 | AD FD", refused(15, 1), refused(8, 1)),
        // Another op-code is cut short as before.
        ("CD AD", refused(9, 0), refused(9, 0)),
        ("A6", refused(9, 0), refused(9, 0)),
    ]);
}

/// AD is the op-code of CALLR without pre-code alone, and any operand.
#[test]
fn byte_ad_elsewhere() {
    for (routines, verdict) in [
        ("A6 AD 81", accepted(2, 2)),
        ("C6 AD AD 81", accepted(2, 2)),
        ("AE AD AD 81", accepted(2, 2)),
        ("4B AD 84 81", accepted(3, 3)),
        ("72 00 AD AD 00 81", accepted(2, 2)),
        ("90 A3 AD AD 81", accepted(2, 2)),
        ("72 AD 00 81", refused(8, 0)),
        ("90 AD 00 81", refused(8, 0)),
        ("81 | CD AD AD 81", refused(14, 1)),
    ] {
        all_checked(&[(routines, verdict, verdict)]);
    }
}

#[test]
fn callr_in_a_start() {
    let (given, memory) = (Registers { a: 1, x: 2, y: 3, cc: 4, sp: 5, pc: 6 }, vec![0xAA; MEMORY_BYTES]);
    for start in [gate_host::start, twin::start] {
        let (mut left, mut marks, mut registers) = (memory.clone(), [BLANK; 4], given);
        assert_eq!(start(&assembled(1, CALLR), &LIMITS, &mut marks, &mut left, &mut registers), accepted(4, 3));
        assert_eq!(registers, Registers { sp: 0x03FD, pc: 0x8001, ..given });
        let (mut left, mut marks, mut registers) = (memory.clone(), [BLANK; 4], given);
        assert_eq!(start(&assembled(2, CALLR), &LIMITS, &mut marks, &mut left, &mut registers), refused(8, 1));
        assert_eq!((registers, marks), (Registers::default(), [0; 4]));
        assert!(left == memory);
    }
}

/// The trap of a step, which changes nothing.
fn trapped(file: &[u8], registers: Registers) -> Trap {
    let memory = vec![0xAA; MEMORY_BYTES];
    match step(file, &LIMITS, registers, &memory) {
        (Ok(Step::Trapped(trap)), after, left) if after == registers && left == memory => trap,
        other => panic!("{:?}", other.0),
    }
}

#[test]
fn callr_in_a_step() {
    let memory = vec![0xAA; MEMORY_BYTES];
    let at_call = Registers { pc: 0x8001, ..BEGIN };
    let (answer, after, left) = step(&assembled(1, CALLR), &LIMITS, at_call, &memory);
    assert_eq!((answer, after), (Ok(Step::Made { cycles: 4 }), Registers { sp: 0x03FB, pc: 0x8000, ..at_call }));
    assert_eq!(left[0x03FC..0x03FE], [0x80, 0x03]);
    assert_eq!(trapped(&assembled(2, CALLR), at_call), Trap::Outside);
    // 21, PC outside the code, and finished come first.
    for version in [1, 2] {
        let file = assembled(version, CALLR);
        assert_eq!(trapped(&file, Registers { sp: 0x0400, ..at_call }), Trap::Sp);
        assert_eq!(trapped(&file, Registers { pc: 0x8004, ..BEGIN }), Trap::Pc);
        assert_eq!(step(&file, &LIMITS, Registers { pc: 0, ..BEGIN }, &memory).0, Ok(Step::Finished));
        assert_eq!(trapped(&assembled(version, "72 AD 00"), BEGIN), Trap::Outside);
        assert_eq!(trapped(&assembled(version, "90 AD 00"), BEGIN), Trap::Outside);
        assert_eq!(step(&assembled(version, "A6 AD"), &LIMITS, BEGIN, &memory).1.a, 0xAD);
    }
    // An operand is an op-code where PC is at it.
    assert_eq!(step(&assembled(1, "A6 AD FE"), &LIMITS, at_call, &memory).0, Ok(Step::Made { cycles: 4 }));
    assert_eq!(trapped(&assembled(2, "A6 AD FE"), at_call), Trap::Outside);
}

/// 23 comes before what is missing: the operand, room on the stack, an address to return to.
#[test]
fn callr_in_a_step_that_version_0001_traps() {
    let file = |version, base| slu::image(version, base, &[1], &[0xAD]);
    assert_eq!(trapped(&file(1, 0x8000), BEGIN), Trap::Pc);
    assert_eq!(trapped(&file(2, 0x8000), BEGIN), Trap::Outside);
    let full = Registers { sp: 0x0300, ..BEGIN };
    assert_eq!(trapped(&assembled(1, "AD 00"), full), Trap::Stack);
    assert_eq!(trapped(&assembled(2, "AD 00"), full), Trap::Outside);
    let top = |version| slu::image(version, 0xFFFE, &[2], &[0xAD, 0x00]);
    let at_top = Registers { pc: 0xFFFE, ..BEGIN };
    assert_eq!(trapped(&top(1), at_top), Trap::Pc);
    assert_eq!(trapped(&top(2), at_top), Trap::Outside);
    let last = Registers { pc: 0xFFFF, ..BEGIN };
    assert_eq!(trapped(&file(1, 0xFFFF), last), Trap::Pc);
    assert_eq!(trapped(&file(2, 0xFFFF), last), Trap::Outside);
}

#[test]
fn callr_in_a_run() {
    let (at_main, memory) = (Registers { pc: 0x8001, ..BEGIN }, vec![0; MEMORY_BYTES]);
    let (finished, registers, _) = run(&assembled(1, "81 | 9D AD FC 81"), &LIMITS, at_main, &memory, 9);
    assert_eq!(finished, Ok(Run { ending: Ending::Finished, steps: 4, cycles: 1 + 4 + 4 + 4 }));
    assert_eq!(registers, Registers { sp: 0x03FF, pc: 0, ..BEGIN });
    let (trapped, registers, left) = run(&assembled(2, "81 | 9D AD FC 81"), &LIMITS, at_main, &memory, 9);
    assert_eq!(trapped, Ok(Run { ending: Ending::Trapped(Trap::Outside), steps: 1, cycles: 1 }));
    assert_eq!(registers, Registers { pc: 0x8002, ..BEGIN });
    assert!(left == memory);
}

/// Loose bytes are of no version.
#[test]
fn decode_keeps_callr() {
    let decoded = gate_host::decode(&[0xAD, 0xFE], 0x8000).expect("CALLR");
    assert_eq!((decoded.length, decoded.text.as_str()), (2, "CALLR $8000"));
    assert_eq!(gate_host::decode(&[0xAD], 0x8000), Err(Refusal::Truncated));
    let (instruction, length) = twin::decode(&[0xAD, 0xFE]).expect("CALLR");
    assert_eq!(twin::text(instruction, length, 0x8000), decoded.text);
    assert_eq!(twin::decode(&[0xAD]), Err(twin::Undecodable::Truncated));
}

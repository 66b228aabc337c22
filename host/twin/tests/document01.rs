//! Document 01's own examples, as W-202, W-205 and W-212 have them, and what a careless reader of these gets wrong, through the
//! library and through the twin. Tables and steps are tried in either version, for none of them has CALLR.

mod both;
mod checks;

use both::{assembled, run, BEGIN, LIMITS};
use checks::{accepted, check, check_and_marks, refused, BLANK};
use gate_host::{Area, Ending, Limits, Refusal, Registers, Run, Step, Trap, MARKS_ENOUGH, MEMORY_BYTES};
use gate_twin::{self as twin, slu};

/// A second grant in data EEPROM.
const TRIM: Limits = Limits { second: Area { low: 0x4000, high: 0x401F }, ..LIMITS };
const VERSIONS: [u16; 2] = [1, 2];

fn stack_from(low: u16) -> Limits {
    Limits { stack: Area { low, ..LIMITS.stack }, ..LIMITS }
}

/// The stack of `LIMITS` and these grants, low and high.
fn grants(first: (u16, u16), second: (u16, u16)) -> Limits {
    let [grant, second] = [first, second].map(|(low, high)| Area { low, high });
    Limits { grant, second, ..LIMITS }
}

fn image(routines: &[&[u8]]) -> Vec<u8> {
    slu::image_of(1, 0x8000, routines)
}

/// Routines, and the number and offset that they are refused with.
fn all_refused(table: &[(&str, u8, u16)]) {
    for (&(routines, number, offset), version) in table.iter().flat_map(|row| VERSIONS.map(|version| (row, version))) {
        let verdict = check(&assembled(version, routines), &LIMITS, MARKS_ENOUGH);
        assert_eq!(verdict, refused(number, offset), "{routines} in version {version}");
    }
}

/// Routines that are accepted, and their need and count.
fn all_accepted(table: &[(&str, u16, u16)]) {
    for (&(routines, need, count), version) in table.iter().flat_map(|row| VERSIONS.map(|version| (row, version))) {
        let verdict = check(&assembled(version, routines), &LIMITS, MARKS_ENOUGH);
        assert_eq!(verdict, accepted(need, count), "{routines} in version {version}");
    }
}

/// A step that is not refused, and is the same in either version.
fn step_under(limits: &Limits, code: &[u8], registers: Registers, memory: &[u8]) -> (Step, Registers, Vec<u8>) {
    let [first, second] = VERSIONS.map(|version| both::step(&slu::image_of(version, 0x8000, &[code]), limits, registers, memory));
    assert!(first == second, "{code:02X?}");
    let (answer, after, left) = first;
    (answer.expect("not refused"), after, left)
}

fn step(code: &[u8], registers: Registers, memory: &[u8]) -> (Step, Registers, Vec<u8>) {
    step_under(&LIMITS, code, registers, memory)
}

#[test]
fn refusals_of_the_table() {
    let ret = image(&[&[0x81]]);
    assert_eq!(check(&ret, &stack_from(0x0000), 1), refused(1, 0));
    assert_eq!(check(&[0x53, 0x4C], &LIMITS, 1), refused(2, 0));
    assert_eq!(check(&assembled(3, "81"), &LIMITS, 1), refused(3, 0));
    assert_eq!(check(b"SLU\x00\x01\x80\x00\x00", &LIMITS, 1), refused(4, 0));
    assert_eq!(check(&image(&[&[0x9D, 0x9D, 0x81]]), &LIMITS, 2), refused(5, 0));
    all_refused(&[
        ("81 9D", 15, 1),
        ("27 01 88 81", 7, 0),
        ("8E 81", 8, 0),
        ("A6", 9, 0),
        ("72", 9, 0),
        ("90", 9, 0),
        ("27 01 A6 00 81", 10, 0),
        ("84 81", 11, 0),
        ("C7 01 00 81", 12, 0),
        ("20 7F", 13, 0),
        ("CD 80 00 81", 14, 0),
        ("9D", 15, 0),
    ]);
    assert_eq!(check(&ret, &stack_from(0x03FF), 1), refused(16, 0));
}

#[test]
fn need_and_count() {
    let file = image(&[&[0x88, 0x84, 0x81], &[0xCD, 0x80, 0x00, 0x81]]);
    assert_eq!(check(&file, &LIMITS, 9), accepted(5, 5));
    assert_eq!(check(&file, &stack_from(0x03FB), 7), accepted(5, 5));
    assert_eq!(check(&file, &stack_from(0x03FC), 7), refused(16, 0));
    assert_eq!(check(&image(&[&[0x20, 0xFE]]), &LIMITS, 2), accepted(2, 1));
    let (verdict, marks) = check_and_marks(&image(&[&[0x88, 0x84, 0x81]]), &LIMITS, 4);
    assert_eq!((verdict, &marks[..]), (accepted(3, 3), &[1, 2, 1, BLANK][..]));
    // A depth of 255 is allowed.
    let deep = stack_from(0x0200);
    let (verdict, marks) = check_and_marks(&assembled(1, "52 FF 5B FF 81"), &deep, 5);
    assert_eq!((verdict, &marks[..]), (accepted(257, 3), &[1, 0, 256, 0, 1][..]));
    all_accepted(&[
        // A call leaves the depth as it is.
        ("81 | CD 80 00 81", 4, 3),
        // What nobody calls is counted, and not needed.
        ("52 10 5B 10 81 | 81", 2, 4),
        ("52 00 81", 2, 2),
    ]);
}

/// W-202: each group of refusals is tested over the whole routine before the next group.
#[test]
fn order_of_the_refusals() {
    all_refused(&[
        // 8, 9 and 15 come first, at starts that nothing reaches too.
        ("81 8E", 8, 1),
        ("81 A6", 9, 1),
        ("81 72", 9, 1),
        ("20 7F 8E", 8, 2),
        ("20 FF A6", 9, 2),
        ("27 7F 9D", 15, 2),
        ("84 9D", 15, 1),
        ("CD 80 00", 15, 0),
        ("26 FE", 15, 0),
        // Then 13 and 10, at jumps that nothing reaches too; the lower jump first.
        ("81 20 7F", 13, 1),
        ("81 20 FF", 10, 1),
        ("27 FF 20 7F", 10, 0),
        ("27 7F 20 FF", 13, 0),
        ("20 01 A6 81 81", 10, 0),
        ("84 27 FF 81", 10, 1),
        // Then 6, wherever the others would be.
        ("27 04 88 27 01 84 81 81", 6, 7),
        ("84 81 81", 6, 2),
        ("C7 01 00 81 81", 6, 4),
        ("CD 80 00 81 81", 6, 4),
        // Then 7.
        ("27 04 88 27 01 84 81", 7, 0),
        ("84 27 01 88 81", 7, 0),
        ("C7 01 00 27 01 88 81", 7, 0),
        ("CD 80 00 27 01 88 81", 7, 0),
        // Then 11, 12 and 14: the lower start first, and at one start in that order.
        ("C7 01 00 84 81", 12, 0),
        ("CD 80 00 84 81", 14, 0),
        ("84 C7 01 00 81", 11, 0),
        ("32 01 00 81", 11, 0),
        ("20 04 CD 80 00 81 84 20 F9", 11, 2),
    ]);
    // 16 comes last of all.
    let none = stack_from(0x03FF);
    assert_eq!(check(&assembled(1, "81 | 84 81"), &none, 3), refused(11, 1));
}

/// W-202: a routine is tested wholly before the next one, and offsets count over the whole code.
#[test]
fn one_routine_after_the_other() {
    all_refused(&[
        ("9D | 8E", 15, 0),
        ("27 01 88 81 | 8E", 7, 0),
        ("88 81 | 81 9D", 11, 1),
        ("81 | 27 01 88 81", 7, 1),
        ("81 | 81 81", 6, 2),
        ("81 | 27 01 A6 00 81", 10, 1),
        // An instruction ends with its routine, and a jump stays in it, whatever the next one begins with.
        ("9D 72 | 10 00 10 81", 9, 1),
        ("20 00 | 81", 13, 0),
        ("81 | 20 FD", 13, 1),
        ("CD 80 04 81 | 81", 14, 0),
        ("9D 81 | CD 80 01 81", 14, 2),
    ]);
}

#[test]
fn jumps() {
    all_refused(&[
        ("20 00", 13, 0),
        ("20 80", 13, 0),
        // Into the jump itself, into an instruction before it, into one after it.
        ("20 FF", 10, 0),
        ("A6 00 26 FD 81", 10, 2),
        ("20 01 A6 00 81", 10, 0),
        // JRF, BTJT and BTJF are jumps like the others.
        ("21 7F 81", 13, 0),
        ("21 01 A6 00 81", 10, 0),
        ("21 01 88 81", 7, 0),
        ("72 00 00 10 7F 81", 13, 0),
        ("72 00 00 10 01 A6 00 81", 10, 0),
        ("72 00 00 10 01 88 81", 7, 0),
        ("72 01 00 10 01 88 81", 7, 0),
    ]);
    all_accepted(&[
        ("20 FE", 2, 1),
        ("27 00 81", 2, 2),
        ("21 01 81 81", 2, 3),
        // The byte that is tested may lie outside the grant.
        ("72 00 FF FF 01 81 81", 2, 3),
    ]);
}

#[test]
fn stores() {
    all_refused(&[
        // At SP, by the depth before the instruction; a word's last byte counts.
        ("6B 01 81", 12, 0),
        ("88 6B 00 84 81", 12, 1),
        ("88 6B 02 84 81", 12, 1),
        ("88 1F 01 84 81", 12, 1),
        ("CF 00 FF 81", 12, 0),
        ("CF FF FF 81", 12, 0),
        ("88 32 01 00 81", 12, 1),
    ]);
    all_accepted(&[
        ("88 6B 01 84 81", 3, 4),
        ("89 1F 01 85 81", 4, 4),
        ("CF 00 FE 81", 2, 2),
        // PUSH, TNZ, BCP and BTJT store nothing.
        ("3B 01 00 84 81", 3, 3),
        ("72 5D 01 00 81", 2, 2),
        ("C5 01 00 81", 2, 2),
        ("72 00 01 00 00 81", 2, 2),
    ]);
}

#[test]
fn loops_tested_at_the_bottom() {
    let (verdict, marks) = check_and_marks(&assembled(1, "20 01 4A 26 FD 81"), &LIMITS, 7);
    assert_eq!((verdict, &marks[..]), (accepted(2, 4), &[1, 0, 1, 1, 0, 1, BLANK][..]));
    // The test pushes and the body pops.
    let (verdict, marks) = check_and_marks(&assembled(1, "20 02 84 9D 88 26 FB 84 81"), &LIMITS, 9);
    assert_eq!((verdict, &marks[..]), (accepted(3, 7), &[1, 0, 2, 1, 1, 2, 0, 2, 1][..]));
    all_accepted(&[
        // A call in the body.
        ("81 | 20 03 CD 80 00 26 FB 81", 4, 5),
        // A way out of the body.
        ("20 03 27 03 81 26 FB 81", 2, 5),
        // Reached from below, and from there from below again.
        ("20 04 81 9D 20 FC 20 FB", 2, 5),
        // Jumps that are never made.
        ("20 01 4A 21 FD 81", 2, 4),
    ]);
}

/// A start is not reached by itself, nor from another start that is not reached.
#[test]
fn islands() {
    all_refused(&[
        ("20 02 20 FE 81", 6, 2),
        ("20 02 27 FE 81", 6, 2),
        ("20 03 9D 20 FD 81", 6, 2),
        ("20 04 20 00 20 FC 81", 6, 2),
        ("20 01 9D 81", 6, 2),
        ("81 20 FD", 6, 1),
        ("81 81", 6, 1),
    ]);
}

/// Depths are counted on below 0 and above 255 until all paths are seen to agree.
#[test]
fn depths_of_paths() {
    all_refused(&[
        // A depth below 0 is not "not reached".
        ("84 88 81", 11, 0),
        ("88 85 81", 11, 1),
        ("88 81", 11, 1),
        ("52 FF 88 84 5B FF 81", 11, 2),
        ("52 FE 89 85 5B FE 81", 11, 2),
        ("52 FF 52 FF 5B FF 5B FF 81", 11, 2),
        ("52 FF 52 01 81", 11, 2),
        // The lowest start, though the depth leaves its range at a higher one first.
        ("20 02 88 81 84 20 FB", 11, 2),
        ("20 01 81 88 20 FC", 11, 2),
        // Each turn of the loop has another depth, so no depth is tested.
        ("88 26 FD 81", 7, 0),
        ("84 26 FD 81", 7, 0),
        ("88 20 FD", 7, 0),
        ("52 FF 26 FC 81", 7, 0),
        ("20 01 88 26 FD 81", 7, 0),
        // The paths' depths are the same in 8 bits.
        ("27 04 52 FF 52 01 81", 7, 0),
    ]);
}

/// Two paths to the same RET: one through these instructions of two bytes, the other past them.
fn beside(instructions: &[[u8; 2]]) -> Vec<u8> {
    let mut code = vec![0x27, 0];
    let mut offset = 1;
    // No jump leads past all of them: after each 60 stands a JRA, for the other path, to the next such JRA.
    for part in instructions.chunks(60) {
        code.extend(part.concat());
        code.extend([0x20, 0x02]);
        code[offset] = (code.len() - (offset + 1)) as u8;
        code.extend([0x20, 0x00]);
        offset = code.len() - 1;
    }
    code.push(0x81);
    code
}

#[test]
fn depths_beyond_16_bits() {
    let moves = |opcode: u8, depth: usize| [vec![[opcode, 0xFF]; depth / 255], vec![[opcode, (depth % 255) as u8]]].concat();
    let push = |depth| moves(0x52, depth);
    let pop = |depth| moves(0x5B, depth);
    let verdict = |code: &[u8]| check(&image(&[code]), &LIMITS, MARKS_ENOUGH);
    // The paths' depths are the same in 16 bits.
    assert_eq!(verdict(&beside(&push(0x1_0000))), refused(7, 0));
    assert_eq!(verdict(&beside(&pop(0x1_0000))), refused(7, 0));
    assert_eq!(verdict(&beside(&push(0x2_0000))), refused(7, 0));
    assert_eq!(verdict(&beside(&[push(153_000), pop(153_000 - 0x2_0000)].concat())), refused(7, 0));
    // They are the same.
    assert_eq!(verdict(&beside(&[push(0x1_0000), pop(0x1_0000)].concat())), refused(11, 4));
    assert_eq!(verdict(&beside(&[pop(0x1_0000), push(0x1_0000)].concat())), refused(11, 2));
    // There is one path.
    assert_eq!(verdict(&[push(0x1_0000).concat(), vec![0x81]].concat()), refused(11, 2));
}

#[test]
fn start_and_run() {
    let file = image(&[&[0xA6, 0x05, 0xB7, 0x10, 0x81]]);
    let given = Registers { a: 1, x: 2, y: 3, cc: 4, sp: 5, pc: 6 };
    let (mut memory, mut marks, mut registers) = (vec![0xAA; MEMORY_BYTES], [0; 5], given);
    assert_eq!(gate_host::start(&file, &LIMITS, &mut marks, &mut memory, &mut registers), accepted(2, 3));
    assert_eq!(registers, Registers { sp: 0x03FD, pc: 0x8000, ..given });
    assert_eq!((memory[0x03FD], memory[0x03FE], memory[0x03FF]), (0xAA, 0, 0));
    let (spent, registers, memory) = run(&file, &LIMITS, registers, &memory, 2);
    assert_eq!(spent, Ok(Run { ending: Ending::Spent, steps: 2, cycles: 2 }));
    let (finished, mut registers, mut memory) = run(&file, &LIMITS, registers, &memory, 9);
    assert_eq!(finished, Ok(Run { ending: Ending::Finished, steps: 1, cycles: 4 }));
    assert_eq!(registers, Registers { a: 5, cc: 0, sp: 0x03FF, pc: 0, ..given });
    assert_eq!(memory[0x10], 5);
    assert_eq!(gate_host::step(&file, &LIMITS, &mut memory, &mut registers).0, Ok(Step::Finished));
    let short = gate_host::start(&file, &LIMITS, &mut marks, &mut memory[..100], &mut registers);
    assert_eq!(short, refused(17, 0));
    assert_eq!(registers, Registers::default());
}

#[test]
fn traps_of_the_table() {
    let memory = vec![0; MEMORY_BYTES];
    let trapped = |code: &[u8], registers| match step(code, registers, &memory) {
        (Step::Trapped(trap), after, left) if after == registers && left == memory => trap,
        other => panic!("{:?}", other.0),
    };
    assert_eq!(trapped(&[0x81], Registers { sp: 0x0400, ..BEGIN }), Trap::Sp);
    assert_eq!(trapped(&[0x81], Registers { pc: 0x9000, ..BEGIN }), Trap::Pc);
    assert_eq!(trapped(&[0x8E], BEGIN), Trap::Outside);
    assert_eq!(trapped(&[0x84], Registers { sp: 0x03FF, ..BEGIN }), Trap::Stack);
    assert_eq!(trapped(&[0xC7, 0x01, 0x00], BEGIN), Trap::Store);
}

/// Whether a direct store of one byte or two is allowed: the check and a step, which must agree, say so.
fn is_allowed(limits: &Limits, address: u16, bytes: usize) -> bool {
    let [high, low] = address.to_be_bytes();
    // LD $..,A or LDW $..,X
    let code = [if bytes == 1 { 0xC7 } else { 0xCF }, high, low, 0x81];
    let given = Registers { a: 0x5A, x: 0x5AA5, ..BEGIN };
    let mut memory = vec![0; MEMORY_BYTES];
    let (answer, after, left) = step_under(limits, &code, given, &memory);
    let verdict = check(&image(&[&code]), limits, code.len());
    let allowed = verdict == accepted(2, 2);
    if allowed {
        memory[usize::from(address)..][..bytes].copy_from_slice(&[0x5A, 0xA5][..bytes]);
        assert!(matches!(answer, Step::Made { .. }), "{answer:?}");
    } else {
        assert_eq!(verdict, refused(12, 0));
        assert_eq!((answer, after), (Step::Trapped(Trap::Store), given));
    }
    assert!(left == memory, "{limits:04X?}, {bytes} at {address:04X}");
    allowed
}

/// Addresses, and the most bytes that may be stored there.
fn all_stores(limits: &Limits, table: &[(u16, usize)]) {
    for &(address, most) in table {
        for bytes in [1, 2] {
            assert_eq!(is_allowed(limits, address, bytes), bytes <= most, "{limits:04X?}, {bytes} at {address:04X}");
        }
    }
}

#[test]
fn borders_of_the_grants() {
    all_stores(&TRIM, &[(0x3FFF, 0), (0x4000, 2), (0x401E, 2), (0x401F, 1), (0x4020, 0)]);
    all_stores(&TRIM, &[(0x0000, 2), (0x00FE, 2), (0x00FF, 1), (0x0100, 0), (0xFFFF, 0)]);
    let one_byte = grants((0x0000, 0x00FF), (0x4000, 0x4000));
    all_stores(&one_byte, &[(0x3FFF, 0), (0x4000, 1), (0x4001, 0)]);
    let from_0000 = grants((0x4000, 0x401F), (0x0000, 0x00FF));
    all_stores(&from_0000, &[(0x0000, 2), (0x00FF, 1), (0x0100, 0), (0xFFFF, 0)]);
    let to_7fff = grants((0x0000, 0x00FF), (0x7FF0, 0x7FFF));
    all_stores(&to_7fff, &[(0x7FEF, 0), (0x7FFE, 2), (0x7FFF, 1), (0x8000, 0)]);
}

/// A word with a byte in each of two grants lies wholly in neither.
#[test]
fn seam_of_two_grants() {
    let (lower, upper) = ((0x0010, 0x00FF), (0x0100, 0x01FF));
    for limits in [grants(lower, upper), grants(upper, lower)] {
        all_stores(&limits, &[(0x000F, 0), (0x0010, 2), (0x00FE, 2), (0x00FF, 1)]);
        all_stores(&limits, &[(0x0100, 2), (0x01FE, 2), (0x01FF, 1), (0x0200, 0)]);
    }
    let bytes = grants((0x0010, 0x0010), (0x0011, 0x0011));
    all_stores(&bytes, &[(0x000F, 0), (0x0010, 1), (0x0011, 1), (0x0012, 0)]);
}

/// Low above high is none, whatever the values: apart from the other areas, in one of them, or around them.
#[test]
fn no_second_grant() {
    for (low, high) in [(0xFFFF, 0x0000), (0x0005, 0x0004), (0x9000, 0x8FFF), (0x0340, 0x033F), (0x7FFF, 0x0000)] {
        let limits = grants((0x0100, 0x01FF), (low, high));
        all_stores(&limits, &[(high, 0), (low, 0), (low - 1, 0), (high + 1, 0)]);
        all_stores(&limits, &[(0x00FF, 0), (0x0100, 2), (0x01FE, 2), (0x01FF, 1), (0x0200, 0)]);
    }
    let in_the_grant = grants((0x0100, 0x01FF), (0x0181, 0x0180));
    all_stores(&in_the_grant, &[(0x017F, 2), (0x0180, 2), (0x0181, 2)]);
}

/// A second grant obeys the first one's rules, and meets neither that one nor the stack.
#[test]
fn rules_of_the_second_grant() {
    let ret = image(&[&[0x81]]);
    let verdict = |first, second| check(&ret, &grants(first, second), 1);
    let above = [(0x4000, 0x8000), (0x7FFF, 0x8000), (0x8000, 0x8000), (0x8000, 0x9000), (0xFFFF, 0xFFFF)];
    let at_stack = [(0x0280, 0x0300), (0x03FF, 0x0480), (0x0340, 0x0340), (0x0300, 0x03FF), (0x0280, 0x0480)];
    let at_grant = [(0x0080, 0x0100), (0x01FF, 0x0280), (0x0180, 0x0180), (0x0100, 0x01FF), (0x0080, 0x0280)];
    for second in [above, at_stack, at_grant].concat() {
        assert_eq!(verdict((0x0100, 0x01FF), second), refused(1, 0), "{second:04X?}");
    }
    for second in [(0x0080, 0x00FF), (0x0200, 0x02FF), (0x0400, 0x0480), (0x0000, 0x0000), (0x7FFF, 0x7FFF), (0x4000, 0x7FFF)] {
        assert_eq!(verdict((0x0100, 0x01FF), second), accepted(2, 1), "{second:04X?}");
    }
    // A second grant of zeros is not none.
    assert_eq!(verdict((0x0000, 0x00FF), (0x0000, 0x0000)), refused(1, 0));
    // The first grant and the stack obey their rules as before.
    assert_eq!(verdict((0x0080, 0x0300), (0x4000, 0x401F)), refused(1, 0));
    assert_eq!(verdict((0x0005, 0x0004), (0x4000, 0x401F)), refused(1, 0));
}

/// 1 comes after 17 and before 2, whatever area it is of.
#[test]
fn order_of_a_bad_second_grant() {
    let bad = grants((0x0000, 0x00FF), (0x03FF, 0x0400));
    assert_eq!(check(&[0x53, 0x4C], &bad, 1), refused(1, 0));
    let file = image(&[&[0xC7, 0x03, 0xFF, 0x81]]);
    let (mut memory, mut marks) = (vec![0xAA; MEMORY_BYTES], [BLANK; 4]);
    let mut registers = BEGIN;
    assert_eq!(gate_host::step(&file, &bad, &mut memory, &mut registers).0, Err(Refusal::Limits));
    assert_eq!(gate_host::step(&file, &bad, &mut memory[..100], &mut registers).0, Err(Refusal::Memory));
    assert_eq!(gate_host::run(&file, &bad, &mut memory, &mut registers, 9), Err(Refusal::Limits));
    assert_eq!(registers, BEGIN);
    assert_eq!(twin::step(&file, &bad, &mut memory, &mut registers).0, Err(Refusal::Limits));
    assert_eq!(twin::run(&file, &bad, &mut memory, &mut registers, 9), Err(Refusal::Limits));
    assert_eq!(registers, BEGIN);
    assert_eq!(gate_host::start(&file, &bad, &mut marks, &mut memory[..100], &mut registers), refused(17, 0));
    assert_eq!(gate_host::start(&file, &bad, &mut marks, &mut memory, &mut registers), refused(1, 0));
    assert_eq!(registers, Registers::default());
    assert!(marks == [BLANK; 4] && memory.iter().all(|&byte| byte == 0xAA));
}

/// Each kind of direct store may go to either grant, and to no other place.
#[test]
fn direct_stores_of_every_kind() {
    let verdict = |limits: &Limits, code: &str| check(&assembled(1, code), limits, MARKS_ENOUGH);
    let bits = ["72 1E 40 1F 81", "72 1F 40 1F 81", "90 1E 40 1F 81", "90 1F 40 1F 81"];
    let bytes = ["C7 40 1F 81", "72 5C 40 1F 81", "35 05 40 1F 81", "55 00 00 40 1F 81"];
    let words = ["CF 40 1E 81", "90 CF 40 1E 81"];
    for code in bits.into_iter().chain(bytes).chain(words) {
        assert_eq!(verdict(&TRIM, code), accepted(2, 2), "{code}");
        assert_eq!(verdict(&LIMITS, code), refused(12, 0), "{code}");
    }
    assert_eq!(verdict(&TRIM, "88 32 40 1F 81"), accepted(3, 3));
    assert_eq!(verdict(&LIMITS, "88 32 40 1F 81"), refused(12, 1));
    let short = grants((0x4000, 0x401F), (0x0010, 0x001F));
    for (inside, outside) in [("B7 1F 81", "B7 20 81"), ("3C 10 81", "3C 0F 81"), ("45 20 10 81", "45 10 20 81")] {
        assert_eq!(verdict(&short, inside), accepted(2, 2), "{inside}");
        assert_eq!(verdict(&short, outside), refused(12, 0), "{outside}");
    }
}

#[test]
fn steps_of_document_01() {
    let memory = vec![0; MEMORY_BYTES];
    let made = |code: &[u8], registers| match step(code, registers, &memory) {
        (Step::Made { .. }, after, _) => after,
        other => panic!("{:?}", other.0),
    };
    let add = made(&[0xAB, 0x94], Registers { a: 0xB5, ..BEGIN });
    assert_eq!((add.a, add.cc), (0x49, 0x81));
    let neg = made(&[0x40], Registers { a: 0x80, ..BEGIN });
    assert_eq!((neg.a, neg.cc), (0x80, 0x85));
    let mul = made(&[0x42], Registers { a: 0xFF, x: 0x12FF, cc: 0x11, ..BEGIN });
    assert_eq!((mul.x, mul.cc), (0xFE01, 0));
    let btjf = made(&[0x72, 0x01, 0x00, 0x10, 0xFB], Registers { cc: 1, ..BEGIN });
    assert_eq!((btjf.pc, btjf.cc), (0x8000, 0));
    let load = made(&[0xE6, 0x20], Registers { a: 1, x: 0xFFF0, ..BEGIN });
    assert_eq!((load.a, load.cc), (0, 2));
}

#[test]
fn decode_and_its_text() {
    let decoded = gate_host::decode(&[0x72, 0x01, 0x00, 0x10, 0xFB], 0x8000).expect("BTJF");
    assert_eq!((decoded.length, decoded.text.as_str()), (5, "BTJF $0010,#0,$8000"));
    assert_eq!(gate_host::decode(&[0x8E], 0), Err(Refusal::Outside));
    assert_eq!(gate_host::decode(&[0x72], 0), Err(Refusal::Truncated));
    assert_eq!(gate_host::decode(&[], 0), Err(Refusal::Truncated));
}

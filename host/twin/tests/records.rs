//! W-201: the records of steps, and stepping back by them and by records made by hand. Through the library and through the twin;
//! which bytes an instruction overwrites is typed from the manual's pages.

mod both;

use both::{assembled, run, step, step_and_record, step_back, BEGIN, LIMITS};
use gate_host::{Area, Ending, History, Limits, Overwritten, Record, Refusal, Registers, Run, Step, Trap, MEMORY_BYTES};
use gate_twin::slu;

/// A second grant that has 1234 and 1235.
const GRANTS: Limits = Limits { second: Area { low: 0x1200, high: 0x12FF }, ..LIMITS };
/// No two registers are alike, and the stack has bytes on either side of SP.
const GIVEN: Registers = Registers { a: 0x5A, x: 0x1357, y: 0x2468, cc: 0x29, sp: 0x0380, pc: 0x8000 };

/// A memory in which each byte holds the low byte of its address.
fn memory() -> Vec<u8> {
    (0..MEMORY_BYTES).map(|address| address as u8).collect()
}

/// A record of these addresses and values. The bytes that it does not count are zeros.
fn record(registers: Registers, bytes: &[(u32, u8)]) -> Record {
    let mut record = Record { registers, count: bytes.len() as u32, ..Record::default() };
    for (cell, &(address, value)) in record.bytes.iter_mut().zip(bytes) {
        *cell = Overwritten { address, value };
    }
    record
}

/// A step that is made overwrites these bytes.
fn overwrites(code: &str, given: Registers, bytes: &[(u32, u8)]) {
    overwrites_under(&GRANTS, code, given, bytes);
}

fn overwrites_under(limits: &Limits, code: &str, given: Registers, bytes: &[(u32, u8)]) {
    let ((answer, ..), made) = step_and_record(&assembled(1, code), limits, given, &memory());
    assert!(matches!(answer, Ok(Step::Made { .. })), "{code}: {answer:?}");
    assert_eq!(made, record(given, bytes), "{code}");
}

// Of made steps.

#[test]
fn direct_stores() {
    let [low, high, word] = [&[(0x0010, 0x10)][..], &[(0x1234, 0x34)], &[(0x1234, 0x34), (0x1235, 0x35)]];
    // LD and LDW
    overwrites("B7 10", GIVEN, low);
    overwrites("C7 12 34", GIVEN, high);
    overwrites("CF 12 34", GIVEN, word);
    overwrites("90 CF 12 34", GIVEN, word);
    // INC and CLR
    overwrites("3C 10", GIVEN, low);
    overwrites("72 5F 12 34", GIVEN, high);
    // BSET, BRES, BCPL, BCCM
    for code in ["72 10 00 10", "72 19 00 10", "90 10 00 10", "90 11 00 10"] {
        overwrites(code, GIVEN, low);
    }
    // MOV: the source precedes the destination.
    overwrites("35 77 12 34", GIVEN, high);
    overwrites("45 11 10", GIVEN, low);
    overwrites("55 00 11 12 34", GIVEN, high);
    // POP $1234
    overwrites("32 12 34", GIVEN, high);
}

#[test]
fn stores_on_the_stack() {
    // LD ($01,SP),A; LDW ($01,SP),X and Y
    overwrites("6B 01", GIVEN, &[(0x0381, 0x81)]);
    overwrites("1F 01", GIVEN, &[(0x0381, 0x81), (0x0382, 0x82)]);
    overwrites("17 7E", GIVEN, &[(0x03FE, 0xFE), (0x03FF, 0xFF)]);
    // PUSH A, #byte and longmem
    for code in ["88", "4B A5", "3B 12 34"] {
        overwrites(code, GIVEN, &[(0x0380, 0x80)]);
    }
    // PUSHW X and Y, CALL and CALLR push the low byte first, so the high byte lies lower.
    for code in ["89", "90 89", "CD 80 00", "AD FE"] {
        overwrites(code, GIVEN, &[(0x037F, 0x7F), (0x0380, 0x80)]);
    }
}

#[test]
fn pushes_at_the_ends_of_the_stack() {
    let at = |sp| Registers { sp, ..GIVEN };
    overwrites("88", at(0x0300), &[(0x0300, 0x00)]);
    overwrites("89", at(0x0301), &[(0x0300, 0x00), (0x0301, 0x01)]);
    overwrites("CD 80 00", at(0x0301), &[(0x0300, 0x00), (0x0301, 0x01)]);
    overwrites("89", at(0x03FF), &[(0x03FE, 0xFE), (0x03FF, 0xFF)]);
    // One byte less has no room.
    overwrites_nothing("89", at(0x0300), Step::Trapped(Trap::Stack));
    overwrites_nothing("88", at(0x02FF), Step::Trapped(Trap::Stack));
    let whole = Limits { stack: Area { low: 0x0100, high: 0x7FFF }, ..LIMITS };
    overwrites_under(&whole, "88", at(0x7FFF), &[(0x7FFF, 0xFF)]);
    let lowest = Limits { grant: Area { low: 0x0000, high: 0x0000 }, stack: Area { low: 0x0001, high: 0x0400 }, ..LIMITS };
    overwrites_under(&lowest, "89", at(0x0002), &[(0x0001, 0x01), (0x0002, 0x02)]);
}

/// A byte is listed, whether its value changes or not.
#[test]
fn stores_of_what_is_there() {
    overwrites("B7 10", Registers { a: 0x10, ..GIVEN }, &[(0x0010, 0x10)]);
    let word = [(0x1234, 0x34), (0x1235, 0x35)];
    for x in [0x3435, 0x3400, 0x0035] {
        overwrites("CF 12 34", Registers { x, ..GIVEN }, &word);
    }
    overwrites("88", Registers { a: 0x80, ..GIVEN }, &[(0x0380, 0x80)]);
    overwrites("89", Registers { x: 0x7F80, ..GIVEN }, &[(0x037F, 0x7F), (0x0380, 0x80)]);
    // BSET of bit 4 and BRES of bit 0, as they are; MOV of a byte to itself
    overwrites("72 18 00 10", GIVEN, &[(0x0010, 0x10)]);
    overwrites("72 11 00 10", GIVEN, &[(0x0010, 0x10)]);
    overwrites("45 10 10", GIVEN, &[(0x0010, 0x10)]);
}

#[test]
fn steps_that_store_nothing() {
    // NOP, INC A, LD A,(X), LDW X,$1234, MUL X,A, JRA; TNZ $10 and $1234, BCP A,$10, BTJT, BTJF; POP A, POPW X, RET, SUB SP, ADDW SP
    for code in [
        "9D",
        "4C",
        "F6",
        "CE 12 34",
        "42",
        "20 02",
        "3D 10",
        "72 5D 12 34",
        "B5 10",
        "72 00 00 10 02",
        "72 01 00 10 02",
        "84",
        "85",
        "81",
        "52 04",
        "5B 04",
    ] {
        overwrites(code, GIVEN, &[]);
    }
}

// Of steps that are not made.

/// A step that is not made: its record has the registers alone.
fn overwrites_nothing(code: &str, given: Registers, expected: Step) {
    let ((answer, after, left), made) = step_and_record(&assembled(1, code), &GRANTS, given, &memory());
    assert_eq!((answer, after), (Ok(expected), given), "{code}");
    assert!(left == memory(), "{code}");
    assert_eq!(made, record(given, &[]), "{code}");
}

#[test]
fn trapped_and_finished_steps() {
    for (code, trap) in [
        ("8E", Trap::Outside),
        ("A6", Trap::Pc),
        ("5B FF", Trap::Stack),
        // A store outside the grants, a word with its last byte outside, one in neither; at SP too
        ("C7 01 00", Trap::Store),
        ("CF 12 FF", Trap::Store),
        ("CF 00 FF", Trap::Store),
        ("6B 00", Trap::Store),
        ("1F 7F", Trap::Store),
        // POP has read its byte by then.
        ("32 01 00", Trap::Store),
    ] {
        overwrites_nothing(code, GIVEN, Step::Trapped(trap));
    }
    overwrites_nothing("88", Registers { sp: 0x0400, ..GIVEN }, Step::Trapped(Trap::Sp));
    overwrites_nothing("88", Registers { pc: 0x9000, ..GIVEN }, Step::Trapped(Trap::Pc));
    overwrites_nothing("88", Registers { pc: u32::MAX, ..GIVEN }, Step::Trapped(Trap::Pc));
    overwrites_nothing("88", Registers { pc: 0, ..GIVEN }, Step::Finished);
    // A call whose next address is 10000 traps after all else was tested.
    let (given, file) = (Registers { pc: 0xFFFD, ..GIVEN }, slu::image(1, 0xFFFD, &[3], &[0xCD, 0xFF, 0xFD]));
    let ((answer, ..), made) = step_and_record(&file, &GRANTS, given, &memory());
    assert_eq!((answer, made), (Ok(Step::Trapped(Trap::Pc)), record(given, &[])));
}

#[test]
fn refused_steps() {
    // PUSH A, which would be made
    let good = assembled(1, "88");
    let refused = |file: &[u8], limits: &Limits, memory: &[u8]| {
        let ((answer, after, left), made) = step_and_record(file, limits, GIVEN, memory);
        assert_eq!((after, made), (GIVEN, record(GIVEN, &[])));
        assert!(left == memory);
        answer.expect_err("refused")
    };
    for bytes in [0, 100, MEMORY_BYTES - 1, MEMORY_BYTES + 1] {
        assert_eq!(refused(&good, &GRANTS, &vec![0xAA; bytes]), Refusal::Memory, "{bytes}");
    }
    let meeting = Limits { second: GRANTS.stack, ..GRANTS };
    assert_eq!(refused(&good, &meeting, &memory()), Refusal::Limits);
    assert_eq!(refused(&good[1..], &GRANTS, &memory()), Refusal::NotSlu);
    assert_eq!(refused(&assembled(3, "88"), &GRANTS, &memory()), Refusal::UnknownVersion);
    assert_eq!(refused(&good[..good.len() - 1], &GRANTS, &memory()), Refusal::Layout);
}

// Made by hand.

/// What stepping back by a record answers, and the bytes of memory that changed by it. Registers are always the record's.
fn given_back(record: &Record, memory: &[u8]) -> (Result<(), Refusal>, Vec<(u32, u8)>) {
    let (answer, registers, left) = step_back(record, BEGIN, memory);
    assert_eq!(registers, record.registers);
    let changed = left.iter().zip(memory).enumerate().filter(|(_, (now, then))| now != then);
    (answer, changed.map(|(address, (&now, _))| (address as u32, now)).collect())
}

/// A record that is not refused changes just these bytes.
fn writes(record: &Record, expected: &[(u32, u8)]) {
    assert_eq!(given_back(record, &memory()), (Ok(()), expected.to_vec()), "{record:04X?}");
}

fn is_refused(record: &Record) {
    assert_eq!(given_back(record, &memory()), (Err(Refusal::Record), Vec::new()), "{record:04X?}");
}

/// Registers from which no step is made.
const BY_HAND: Registers = Registers { a: 1, x: 2, y: 3, cc: 4, sp: 0xFFFF, pc: u32::MAX };

#[test]
fn counts() {
    let both = record(BY_HAND, &[(0x0010, 0x77), (0x0011, 0x88)]);
    writes(&Record { count: 0, ..both }, &[]);
    writes(&Record { count: 1, ..both }, &[(0x0010, 0x77)]);
    writes(&both, &[(0x0010, 0x77), (0x0011, 0x88)]);
    for count in [3, 4, 255, 256, 0x0001_0000, 0x0001_0001, u32::MAX] {
        is_refused(&Record { count, ..both });
    }
}

#[test]
fn addresses() {
    // A record has no limits: it may write outside every grant.
    writes(&record(BY_HAND, &[(0x0000, 0x77), (0x7FFF, 0x88)]), &[(0x0000, 0x77), (0x7FFF, 0x88)]);
    writes(&record(BY_HAND, &[(0x7FFF, 0x88)]), &[(0x7FFF, 0x88)]);
    for address in [0x8000, 0xFFFF, 0x0001_0000, 0x0001_7FFF, u32::MAX] {
        is_refused(&record(BY_HAND, &[(address, 0x77)]));
        // Both are tested before the first is written.
        is_refused(&record(BY_HAND, &[(0x0010, 0x77), (address, 0x88)]));
        is_refused(&record(BY_HAND, &[(address, 0x77), (0x0010, 0x88)]));
        is_refused(&record(BY_HAND, &[(address, 0x77), (address, 0x88)]));
    }
}

#[test]
fn order_of_the_bytes() {
    writes(&record(BY_HAND, &[(0x0011, 0x77), (0x0010, 0x88)]), &[(0x0010, 0x88), (0x0011, 0x77)]);
    writes(&record(BY_HAND, &[(0x0010, 0x77), (0x0010, 0x88)]), &[(0x0010, 0x88)]);
    // The later one is what was there.
    writes(&record(BY_HAND, &[(0x0010, 0x77), (0x0010, 0x10)]), &[]);
}

#[test]
fn cells_that_are_not_counted() {
    for address in [0x0010, 0x8000, 0xFFFF, 0x0001_0000, u32::MAX] {
        let unused = Overwritten { address, value: 0x99 };
        writes(&Record { registers: BY_HAND, count: 0, bytes: [unused, unused] }, &[]);
        let first = Overwritten { address: 0x0011, value: 0x77 };
        writes(&Record { registers: BY_HAND, count: 1, bytes: [first, unused] }, &[(0x0011, 0x77)]);
    }
}

/// 17 comes first, whatever the record.
#[test]
fn memory_before_the_record() {
    let both = record(BY_HAND, &[(0x0000, 0x77), (0x0010, 0x88)]);
    let above = record(BY_HAND, &[(0x0000, 0x77), (0x8000, 0x88)]);
    for record in [both, above, Record { count: 0, ..both }, Record { count: 3, ..both }, Record { count: 255, ..above }] {
        for bytes in [0, 1, 100, MEMORY_BYTES - 1, MEMORY_BYTES + 1, MEMORY_BYTES + 0x1_0000] {
            let refused = (Err(Refusal::Memory), Vec::new());
            assert_eq!(given_back(&record, &vec![0xAA; bytes]), refused, "{bytes} bytes, {record:04X?}");
        }
    }
}

#[test]
fn number_of_the_refusal() {
    assert_eq!(Refusal::Record.number(), 26);
    assert_eq!(Refusal::from_number(26), Some(Refusal::Record));
    assert_eq!(Trap::from_number(26), None);
}

// Several steps.

/// Adds 10, 9 and so on down to 1 to the word at 0020, by a routine that is called ten times: 104 steps.
const SUM_TO_TEN: &str = "BB 21 B7 21 B6 20 A9 00 B7 20 81 | 3F 20 3F 21 AE 00 0A 9F CD 80 00 5A 26 F9 81";
const AT_MAIN: Registers = Registers { pc: 0x800B, ..BEGIN };

/// A memory in which main returns to 0000.
fn started() -> Vec<u8> {
    let mut memory = memory();
    memory[0x03FE..=0x03FF].fill(0);
    memory
}

#[test]
fn routine_there_and_back() {
    let file = assembled(2, SUM_TO_TEN);
    let mut states = vec![(AT_MAIN, started())];
    let mut records = Vec::new();
    while let Some((registers, memory)) = states.last().filter(|(registers, _)| registers.pc != 0) {
        let ((answer, after, left), record) = step_and_record(&file, &LIMITS, *registers, memory);
        assert!(matches!(answer, Ok(Step::Made { .. })), "{answer:?}");
        records.push(record);
        states.push((after, left));
    }
    let (mut registers, mut memory) = states.pop().expect("the end");
    assert_eq!((states.len(), &memory[0x20..0x22]), (104, &[0, 55][..]));
    for (record, (before, expected)) in records.iter().zip(states).rev() {
        (_, registers, memory) = step_back(record, registers, &memory);
        assert_eq!(registers, before);
        assert!(memory == expected, "at {:04X}", before.pc);
    }
}

#[test]
fn history_of_a_routine() {
    let file = assembled(2, SUM_TO_TEN);
    let (mut history, mut registers, mut memory) = (History::new(), AT_MAIN, started());
    let mut states = Vec::new();
    while registers.pc != 0 {
        states.push((registers, memory.clone()));
        let expected = step(&file, &LIMITS, registers, &memory);
        let answer = history.step(&file, &LIMITS, &mut memory, &mut registers);
        assert!(expected == (answer, registers, memory.clone()), "{answer:?}");
        assert_eq!(history.len(), states.len());
    }
    let (whole, at_end, left) = run(&file, &LIMITS, AT_MAIN, &started(), 200);
    assert!(matches!(whole, Ok(Run { ending: Ending::Finished, steps: 104, .. })), "{whole:?}");
    assert!((registers, &memory) == (at_end, &left));
    while let Some((before, expected)) = states.pop() {
        assert_eq!(history.step_back(&mut memory, &mut registers), Ok(true));
        assert_eq!((registers, history.len()), (before, states.len()));
        assert!(memory == expected, "at {:04X}", before.pc);
    }
    assert!(history.is_empty());
    assert_eq!(history.step_back(&mut memory, &mut registers), Ok(false));
    assert!((registers, memory) == (AT_MAIN, started()));
}

/// There is nothing to go back over where no step was made.
#[test]
fn history_keeps_made_steps() {
    let mut history = History::default();
    let mut not_made = |file: &[u8], limits: &Limits, given: Registers, bytes: usize| {
        let (mut memory, mut registers) = (vec![0xAA; bytes], given);
        let answer = history.step(file, limits, &mut memory, &mut registers);
        assert!(history.is_empty(), "{answer:?}");
        answer
    };
    let file = assembled(1, "88 8E");
    assert_eq!(not_made(&file, &LIMITS, Registers { pc: 0, ..BEGIN }, MEMORY_BYTES), Ok(Step::Finished));
    let trapped = not_made(&file, &LIMITS, Registers { pc: 0x8001, ..BEGIN }, MEMORY_BYTES);
    assert_eq!(trapped, Ok(Step::Trapped(Trap::Outside)));
    assert_eq!(not_made(&file, &LIMITS, BEGIN, 100), Err(Refusal::Memory));
    assert_eq!(not_made(&file[1..], &LIMITS, BEGIN, MEMORY_BYTES), Err(Refusal::NotSlu));
}

#[test]
fn history_refused_and_cleared() {
    // PUSH A twice
    let file = assembled(1, "88 88");
    let (mut history, mut registers, mut memory) = (History::new(), GIVEN, memory());
    for _ in 0..2 {
        assert_eq!(history.step(&file, &LIMITS, &mut memory, &mut registers), Ok(Step::Made { cycles: 1 }));
    }
    // With another memory it gives the registers alone, and the step is still there to go back over.
    let after_one = Registers { sp: 0x037F, pc: 0x8001, ..GIVEN };
    assert_eq!(history.step_back(&mut memory[..100], &mut registers), Err(Refusal::Memory));
    assert_eq!((registers, history.len()), (after_one, 2));
    assert_eq!(memory[0x037F..=0x0380], [0x5A, 0x5A]);
    assert_eq!(history.step_back(&mut memory, &mut registers), Ok(true));
    assert_eq!((registers, history.len()), (after_one, 1));
    assert_eq!(memory[0x037F..=0x0380], [0x7F, 0x5A]);
    history.clear();
    assert_eq!((history.len(), history.step_back(&mut memory, &mut registers)), (0, Ok(false)));
    assert_eq!((registers, &memory[0x037F..=0x0380]), (after_one, &[0x7F, 0x5A][..]));
}

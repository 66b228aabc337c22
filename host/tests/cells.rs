//! The cells of the C interface: each function writes those that it is given, and none beside them.

use gate_host::cells::{self, LayoutCells, RecordCells};
use gate_host::{Area, Limits, MEMORY_BYTES, SAVED_BYTES, TEXT_BYTES};
use std::hint::black_box;

const LIMITS: Limits =
    Limits { grant: Area { low: 0x0000, high: 0x00FF }, stack: Area { low: 0x0300, high: 0x03FF }, second: Area::NONE };
const IMAGE: &[u8] = b"SLU\x00\x01\x80\x00\x01\x00\x05\xA6\x05\xB7\x10\x81";
const GUARD: [u8; 16] = [0xA5; 16];

/// Cells with guards on either side. The guards are bytes, so that nothing lies between.
#[repr(C)]
struct Guarded<T> {
    before: [u8; 16],
    cells: T,
    after: [u8; 16],
}

impl<T> Guarded<T> {
    fn new(cells: T) -> Guarded<T> {
        Guarded { before: GUARD, cells, after: GUARD }
    }

    fn is_whole(&mut self) -> bool {
        let guarded = black_box(self);
        guarded.before == GUARD && guarded.after == GUARD
    }
}

#[test]
fn decode_writes_its_cells_alone() {
    for bytes in [&[0x72, 0x01, 0x00, 0x10, 0xFB][..], &[0x8E], &[]] {
        let mut text = Guarded::new([0; TEXT_BYTES]);
        let mut length = Guarded::new([0]);
        let mut cycles = Guarded::new([0; 2]);
        cells::decode(bytes, 0x8000, &mut text.cells, &mut length.cells, &mut cycles.cells);
        assert!(text.is_whole(), "text");
        assert!(length.is_whole(), "length");
        assert!(cycles.is_whole(), "cycles");
    }
}

#[test]
fn all_others_write_their_cells_alone() {
    let mut marks = Guarded::new([0; 5]);
    let mut report = Guarded::new([0; 3]);
    assert_eq!(cells::check(IMAGE, &LIMITS, &mut marks.cells, &mut report.cells), cells::OK);
    assert!(marks.is_whole() && report.is_whole(), "check");
    let (mut offset, mut turn) = (Guarded::new([0]), Guarded::new([0]));
    assert_eq!(cells::turn(IMAGE, &LIMITS, &mut marks.cells, &mut offset.cells, &mut turn.cells), cells::OK);
    assert!(marks.is_whole() && offset.is_whole() && turn.is_whole(), "turn");
    let mut layout = Guarded::new(LayoutCells::default());
    assert_eq!(cells::layout(IMAGE, &mut layout.cells), cells::OK);
    assert!(layout.is_whole(), "layout");
    let mut memory = Box::new(Guarded::new([0; MEMORY_BYTES]));
    let mut registers = Guarded::new([0; 6]);
    let (lent, given) = (&mut memory.cells, &mut registers.cells);
    assert_eq!(cells::start(IMAGE, &LIMITS, &mut marks.cells, lent, given, &mut report.cells), cells::OK);
    assert!(marks.is_whole() && report.is_whole() && memory.is_whole() && registers.is_whole(), "start");
    let mut cycles = Guarded::new([0]);
    let mut record = Guarded::new(RecordCells::default());
    let (lent, given) = (&mut memory.cells, &mut registers.cells);
    assert_eq!(cells::step(IMAGE, &LIMITS, lent, given, &mut cycles.cells, &mut record.cells), cells::OK);
    assert!(memory.is_whole() && registers.is_whole() && cycles.is_whole() && record.is_whole(), "step");
    let (lent, given) = (&mut memory.cells, &mut registers.cells);
    assert_eq!(cells::step_back(&record.cells, lent, given), cells::OK);
    assert!(memory.is_whole() && registers.is_whole() && record.is_whole(), "step back");
    let mut steps = Guarded::new([0]);
    let (lent, given) = (&mut memory.cells, &mut registers.cells);
    assert_eq!(cells::run(IMAGE, &LIMITS, lent, given, 9, &mut steps.cells, &mut cycles.cells), cells::FINISHED);
    assert!(memory.is_whole() && registers.is_whole() && steps.is_whole() && cycles.is_whole(), "run");
}

#[test]
fn save_and_resume_write_their_cells_alone() {
    let mut memory = Box::new(Guarded::new([0; MEMORY_BYTES]));
    let (mut registers, mut saved) = (Guarded::new([0, 0, 0, 0, 0x03FD, 0x8000]), Guarded::new([0; SAVED_BYTES]));
    assert_eq!(cells::save(&registers.cells, 0, &mut saved.cells), cells::OK);
    assert!(registers.is_whole() && saved.is_whole(), "save");
    let (mut marks, mut offset) = (Guarded::new([0; 5]), Guarded::new([0]));
    let (mut steps, mut cycles) = (Guarded::new([0]), Guarded::new([0]));
    for (version, length, expected) in [(2, SAVED_BYTES, cells::FINISHED), (1, 19, cells::FINISHED), (2, SAVED_BYTES - 1, 34)] {
        saved.cells[4] = version;
        let (lent, state, given) = (&mut memory.cells, &saved.cells[..length], &mut registers.cells);
        let (total, sum, at) = (&mut steps.cells, &mut cycles.cells, &mut offset.cells);
        assert_eq!(cells::resume(IMAGE, &LIMITS, &mut marks.cells, lent, state, 9, given, total, sum, at), expected);
        assert!(marks.is_whole() && memory.is_whole() && saved.is_whole() && registers.is_whole(), "resume, {expected}");
        assert!(steps.is_whole() && cycles.is_whole() && offset.is_whole(), "resume, {expected}");
    }
}

#[test]
fn registers_are_read_by_their_width() {
    let mut memory = vec![0; MEMORY_BYTES];
    let mut registers = [0x0501, 0x0006_0002, 0x0007_0003, 0x0804, 0x0009_03FD, 0x0000_8000];
    let mut record = RecordCells::default();
    assert_eq!(cells::step(IMAGE, &LIMITS, &mut memory, &mut registers, &mut [0], &mut record), cells::OK);
    assert_eq!(registers, [5, 2, 3, 0, 0x03FD, 0x8002]);
    assert_eq!(record.registers, [1, 2, 3, 4, 0x03FD, 0x8000]);
}

/// Registers and values by their low bits, count and addresses whole; what is not counted is not looked at.
#[test]
fn records_are_read_by_their_width() {
    let registers = [0x0501, 0x0006_0002, 0x0007_0003, 0x0804, 0x0009_03FD, 0x8000_0000];
    let back = |count, bytes| {
        let (mut memory, mut after) = (vec![0xAA; MEMORY_BYTES], [0xA5A5_A5A5; 6]);
        let number = cells::step_back(&RecordCells { registers, count, bytes }, &mut memory, &mut after);
        assert_eq!(after, [1, 2, 3, 4, 0x03FD, 0x8000_0000]);
        (number, memory[0x0010], memory[0x0011])
    };
    let good = [[0x0010, 0xFFFF_FF77], [0x0011, 0x0100]];
    assert_eq!(back(2, good), (cells::OK, 0x77, 0x00));
    assert_eq!(back(1, good), (cells::OK, 0x77, 0xAA));
    assert_eq!(back(1, [good[0], [u32::MAX, 0]]), (cells::OK, 0x77, 0xAA));
    assert_eq!(back(0, [[u32::MAX, 0]; 2]), (cells::OK, 0xAA, 0xAA));
    for count in [3, 255, 0x0100, 0x0102, 0x0001_0000, 0x0001_0002, 0x8000_0001, u32::MAX] {
        assert_eq!(back(count, good), (26, 0xAA, 0xAA), "count {count:X}");
    }
    for address in [0x8000, 0x8011, 0x0001_0011, 0x0100_0011, 0x8000_0011, u32::MAX] {
        assert_eq!(back(2, [good[0], [address, 0]]), (26, 0xAA, 0xAA), "address {address:X}");
        assert_eq!(back(2, [[address, 0], good[1]]), (26, 0xAA, 0xAA), "address {address:X}");
    }
}

/// What a cell of cycles holds before a call: another number in each of its bytes than any that is written there.
const BLANK: u64 = 0xA5A5_A5A5_A5A5_A5A5;
/// The same for the cells of a record.
const BLANK_RECORD: RecordCells = RecordCells { registers: [0xA5A5_A5A5; 6], count: 0xA5A5_A5A5, bytes: [[0xA5A5_A5A5; 2]; 2] };

/// The number and cycles of a step, and the number, steps and cycles of a run, from the same SP and PC. Nothing is stored, so the
/// step's record has the registers and zeros.
fn step_and_run(image: &[u8], limits: &Limits, lent: usize, sp: u32, pc: u32) -> ((u8, u64), (u8, u32, u64)) {
    let mut memory = vec![0; lent];
    let (mut steps, mut cycles) = ([0xA5A5_A5A5], [BLANK]);
    let (given, mut record) = ([1, 2, 3, 4, sp, pc], BLANK_RECORD);
    let step = cells::step(image, limits, &mut memory, &mut given.clone(), &mut cycles, &mut record);
    assert_eq!(record, RecordCells { registers: given, ..RecordCells::default() }, "the record of {step}");
    let step = (step, cycles[0]);
    cycles = [BLANK];
    let run = cells::run(image, limits, &mut memory, &mut [0, 0, 0, 0, sp, pc], 9, &mut steps, &mut cycles);
    (step, (run, steps[0], cycles[0]))
}

/// A step that is finished, trapped or refused takes no cycles and overwrites no byte, and the cells say so.
#[test]
fn cycles_and_records_are_written_whatever_the_answer() {
    let none = |number: u8| ((number, 0), (number, 0, 0));
    let good = |sp, pc| step_and_run(IMAGE, &LIMITS, MEMORY_BYTES, sp, pc);
    assert_eq!(good(0x03FD, 0x8000), ((cells::OK, 1), (cells::FINISHED, 3, 6)));
    assert_eq!(good(0x03FD, 0x0000), none(cells::FINISHED));
    assert_eq!(good(0x0400, 0x8000), none(21));
    assert_eq!(good(0x03FD, 0x9000), none(22));
    assert_eq!(good(0x03FD, 0x8001), none(23));
    assert_eq!(good(0x03FF, 0x8004), none(24));
    let outside = Limits { grant: Area { low: 0x0011, high: 0x00FF }, ..LIMITS };
    assert_eq!(step_and_run(IMAGE, &outside, MEMORY_BYTES, 0x03FD, 0x8002), none(25));
    assert_eq!(step_and_run(IMAGE, &LIMITS, 100, 0x03FD, 0x8000), none(17));
    let meeting = Limits { grant: LIMITS.stack, ..LIMITS };
    assert_eq!(step_and_run(IMAGE, &meeting, MEMORY_BYTES, 0x03FD, 0x8000), none(1));
    assert_eq!(step_and_run(&IMAGE[1..], &LIMITS, MEMORY_BYTES, 0x03FD, 0x8000), none(2));
    let version = [&IMAGE[..4], &[3], &IMAGE[5..]].concat();
    assert_eq!(step_and_run(&version, &LIMITS, MEMORY_BYTES, 0x03FD, 0x8000), none(3));
    assert_eq!(step_and_run(&IMAGE[..14], &LIMITS, MEMORY_BYTES, 0x03FD, 0x8000), none(4));
}

/// Both cells are 0 where there is no instruction.
#[test]
fn cycles_of_no_instruction() {
    let decode = |bytes: &[u8]| {
        let mut cycles = [0xA5; 2];
        (cells::decode(bytes, 0x8000, &mut [0; TEXT_BYTES], &mut [0], &mut cycles), cycles)
    };
    assert_eq!(decode(&[0x21, 0x00]), (cells::OK, [1, 2]));
    assert_eq!(decode(&[0x8E]), (8, [0, 0]));
    assert_eq!(decode(&[0x72, 0x00, 0x00, 0x10]), (9, [0, 0]));
    assert_eq!(decode(&[]), (9, [0, 0]));
}

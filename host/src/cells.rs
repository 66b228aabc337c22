//! The functions of `include/gate.h` with slices for pointers: the same numbers and the same cells. All unsafe code of this
//! package is here.
//!
//! The functions at the top of the crate are these with a `Result` for the number.

use crate::types::{Limits, ROUTINES, SAVED_BYTES, TEXT_BYTES};
use std::mem::size_of;

/// The answer of a step that was made or gone back over, a check that accepted, a turn that is given, a state that was saved, bytes
/// that were decoded.
pub const OK: u8 = 0;
/// The answer of a step that began at PC 0, and of a run that reached it or was resumed there.
pub const FINISHED: u8 = 64;
/// The answer of a run that used up its budget, and of a resumed one whose total is 18,446,744,073,709,551,615.
pub const SPENT: u8 = 65;
/// The answer where there is no turn, since some jump goes to its own or a lower address.
pub const NO_TURN: u8 = 66;
/// The answer where the turn is above 4,294,967,295.
pub const OVER: u8 = 67;

/// The cells of a report: offset, need, count.
pub type ReportCells = [u16; 3];
/// The cells of a register set: A, X, Y, CC, SP, PC.
pub type RegisterCells = [u32; 6];
/// The cells of the cycles of an instruction: not taken, taken.
pub type CycleCells = [u8; 2];

/// The cells of the record of a step: the registers, and the bytes, so many of them, each as its address and its value.
#[derive(Clone, Copy, Debug, Default, PartialEq, Eq)]
#[repr(C)]
pub struct RecordCells {
    /// Those before the step.
    pub registers: RegisterCells,
    /// How many bytes are meant.
    pub count: u32,
    /// Address and value of each.
    pub bytes: [[u32; 2]; 2],
}

/// The cells of the layout of an image.
#[derive(Clone, Copy, Debug, Default, PartialEq, Eq)]
#[repr(C)]
pub struct LayoutCells {
    /// 1 or 2.
    pub version: u16,
    /// The address of the first code byte.
    pub base: u16,
    /// How many routines there are.
    pub routines: u16,
    /// The index in the image of the first code byte.
    pub code: u16,
    /// The number of code bytes.
    pub size: u16,
    /// The offset from the first code byte at which each routine begins, 0 past the routines.
    pub begins: [u16; ROUTINES],
}

// The library reads limits as six 16-bit cells, reads and writes a record as eleven of 32 bits, and writes a layout as 37 of 16 bits.
const _: () = assert!(size_of::<Limits>() == 6 * size_of::<u16>());
const _: () = assert!(size_of::<RecordCells>() == 11 * size_of::<u32>());
const _: () = assert!(size_of::<LayoutCells>() == 37 * size_of::<u16>());

mod c {
    use super::{CycleCells, LayoutCells, Limits, RecordCells, RegisterCells, ReportCells, SAVED_BYTES, TEXT_BYTES};

    // The archive is named by build.rs; the signatures are those of include/gate.h.
    extern "C" {
        pub fn gate_library_version() -> u32;
        pub fn gate_layout(image: *const u8, image_length: usize, layout: *mut LayoutCells) -> u8;
        pub fn gate_check(
            image: *const u8,
            image_length: usize,
            limits: *const Limits,
            marks: *mut u16,
            marks_length: usize,
            report: *mut ReportCells,
        ) -> u8;
        pub fn gate_turn(
            image: *const u8,
            image_length: usize,
            limits: *const Limits,
            marks: *mut u16,
            marks_length: usize,
            offset: *mut [u16; 1],
            turn: *mut [u32; 1],
        ) -> u8;
        pub fn gate_start(
            image: *const u8,
            image_length: usize,
            limits: *const Limits,
            marks: *mut u16,
            marks_length: usize,
            memory: *mut u8,
            memory_length: usize,
            registers: *mut RegisterCells,
            report: *mut ReportCells,
        ) -> u8;
        pub fn gate_step(
            image: *const u8,
            image_length: usize,
            limits: *const Limits,
            memory: *mut u8,
            memory_length: usize,
            registers: *mut RegisterCells,
            cycles: *mut [u64; 1],
            record: *mut RecordCells,
        ) -> u8;
        pub fn gate_step_back(
            record: *const RecordCells,
            memory: *mut u8,
            memory_length: usize,
            registers: *mut RegisterCells,
        ) -> u8;
        pub fn gate_run(
            image: *const u8,
            image_length: usize,
            limits: *const Limits,
            memory: *mut u8,
            memory_length: usize,
            registers: *mut RegisterCells,
            budget: u32,
            steps: *mut [u32; 1],
            cycles: *mut [u64; 1],
        ) -> u8;
        pub fn gate_save(registers: *const RegisterCells, steps: u64, saved: *mut [u8; SAVED_BYTES]) -> u8;
        pub fn gate_resume(
            image: *const u8,
            image_length: usize,
            limits: *const Limits,
            marks: *mut u16,
            marks_length: usize,
            memory: *mut u8,
            memory_length: usize,
            saved: *const u8,
            saved_length: usize,
            budget: u32,
            registers: *mut RegisterCells,
            steps: *mut [u64; 1],
            cycles: *mut [u64; 1],
            offset: *mut [u16; 1],
        ) -> u8;
        pub fn gate_decode(
            bytes: *const u8,
            bytes_length: usize,
            address: u16,
            text: *mut [u8; TEXT_BYTES],
            length: *mut [usize; 1],
            cycles: *mut CycleCells,
        ) -> u8;
    }
}

/// The version of the library, as `gate_library_version` answers it: major * 65536 + minor * 256 + patch.
///
/// ```
/// assert_eq!(gate_host::cells::library_version() >> 16, 0);
/// ```
pub fn library_version() -> u32 {
    // SAFETY: the function has no arguments, and nothing is written.
    unsafe { c::gate_library_version() }
}

/// Reads the layout of an image, as `gate_layout` does.
///
/// ```
/// use gate_host::cells::{self, LayoutCells};
/// let image = b"SLU\x00\x01\x80\x00\x01\x00\x05\xA6\x05\xB7\x10\x81";
/// let mut layout = LayoutCells::default();
/// assert_eq!(cells::layout(image, &mut layout), cells::OK);
/// assert_eq!((layout.code, layout.size, layout.begins[0]), (10, 5, 0));
/// ```
pub fn layout(image: &[u8], layout: &mut LayoutCells) -> u8 {
    // SAFETY: as for `check`: every pointer comes with its length from one reference, and what is written from `&mut`. `LayoutCells`
    // is `repr(C)`: 37 `u16` in the order of gate.h's struct, with nothing between them.
    unsafe { c::gate_layout(image.as_ptr(), image.len(), layout) }
}

/// Checks an image under limits, as `gate_check` does.
///
/// ```
/// # use gate_host::cells::{self, ReportCells};
/// # use gate_host::{Area, Limits};
/// # let area = |low, high| Area { low, high };
/// # let limits = Limits { grant: area(0x0000, 0x00FF), stack: area(0x0300, 0x03FF), second: Area::NONE };
/// # let image = b"SLU\x00\x01\x80\x00\x01\x00\x05\xA6\x05\xB7\x10\x81";
/// let (mut marks, mut report) = ([0; 5], ReportCells::default());
/// assert_eq!(cells::check(image, &limits, &mut marks, &mut report), cells::OK);
/// assert_eq!((marks, report), ([1, 0, 1, 0, 1], [0, 2, 3]));
/// ```
pub fn check(image: &[u8], limits: &Limits, marks: &mut [u16], report: &mut ReportCells) -> u8 {
    // SAFETY: each pointer comes from a reference that lives through the call, so it is not null (an empty slice's neither),
    // aligned, and leads to as many cells as the length beside it or its array type says. `Limits` is `repr(C)`: six `u16` in the
    // order of gate.h's struct, with nothing between them. What is written comes from `&mut`, so it lies in no other argument.
    unsafe { c::gate_check(image.as_ptr(), image.len(), limits, marks.as_mut_ptr(), marks.len(), report) }
}

/// Works out the turn of an image, as `gate_turn` does.
///
/// ```
/// # use gate_host::cells;
/// # use gate_host::{Area, Limits};
/// # let area = |low, high| Area { low, high };
/// # let limits = Limits { grant: area(0x0000, 0x00FF), stack: area(0x0300, 0x03FF), second: Area::NONE };
/// # let image = b"SLU\x00\x01\x80\x00\x01\x00\x05\xA6\x05\xB7\x10\x81";
/// let (mut marks, mut offset, mut turn) = ([0; 5], [0], [0]);
/// assert_eq!(cells::turn(image, &limits, &mut marks, &mut offset, &mut turn), cells::OK);
/// assert_eq!((marks, offset, turn), ([1, 0, 1, 0, 1], [0], [3]));
/// ```
pub fn turn(image: &[u8], limits: &Limits, marks: &mut [u16], offset: &mut [u16; 1], turn: &mut [u32; 1]) -> u8 {
    // SAFETY: as for `check`: every pointer comes with its length from one reference, and what is written from `&mut`.
    unsafe { c::gate_turn(image.as_ptr(), image.len(), limits, marks.as_mut_ptr(), marks.len(), offset, turn) }
}

/// Starts a routine, as `gate_start` does.
///
/// ```
/// # use gate_host::cells::{self, ReportCells};
/// # use gate_host::{Area, Limits, MEMORY_BYTES};
/// # let area = |low, high| Area { low, high };
/// # let limits = Limits { grant: area(0x0000, 0x00FF), stack: area(0x0300, 0x03FF), second: Area::NONE };
/// # let image = b"SLU\x00\x01\x80\x00\x01\x00\x05\xA6\x05\xB7\x10\x81";
/// let (mut marks, mut memory, mut registers) = ([0; 5], vec![0xFF; MEMORY_BYTES], [1, 2, 3, 4, 5, 6]);
/// let number = cells::start(image, &limits, &mut marks, &mut memory, &mut registers, &mut ReportCells::default());
/// assert_eq!((number, registers), (cells::OK, [1, 2, 3, 4, 0x03FD, 0x8000]));
/// ```
pub fn start(
    image: &[u8],
    limits: &Limits,
    marks: &mut [u16],
    memory: &mut [u8],
    registers: &mut RegisterCells,
    report: &mut ReportCells,
) -> u8 {
    // SAFETY: as for `check`: every pointer comes with its length from one reference, and what is written from `&mut`.
    unsafe {
        c::gate_start(
            image.as_ptr(),
            image.len(),
            limits,
            marks.as_mut_ptr(),
            marks.len(),
            memory.as_mut_ptr(),
            memory.len(),
            registers,
            report,
        )
    }
}

/// Makes one step, as `gate_step` does.
///
/// ```
/// # use gate_host::cells::{self, RecordCells};
/// # use gate_host::{Area, Limits, MEMORY_BYTES};
/// # let area = |low, high| Area { low, high };
/// # let limits = Limits { grant: area(0x0000, 0x00FF), stack: area(0x0300, 0x03FF), second: Area::NONE };
/// # let image = b"SLU\x00\x01\x80\x00\x01\x00\x05\xA6\x05\xB7\x10\x81";
/// let (mut memory, mut registers) = (vec![0xAA; MEMORY_BYTES], [5, 0, 0, 0, 0x03FD, 0x8002]);
/// let (mut cycles, mut record) = ([0], RecordCells::default());
/// assert_eq!(cells::step(image, &limits, &mut memory, &mut registers, &mut cycles, &mut record), cells::OK);
/// assert_eq!((memory[0x0010], registers[5], cycles), (0x05, 0x8004, [1]));
/// assert_eq!((record.count, record.bytes[0]), (1, [0x0010, 0xAA]));
/// ```
pub fn step(
    image: &[u8],
    limits: &Limits,
    memory: &mut [u8],
    registers: &mut RegisterCells,
    cycles: &mut [u64; 1],
    record: &mut RecordCells,
) -> u8 {
    // SAFETY: as for `check`: every pointer comes with its length from one reference, and what is written from `&mut`. `RecordCells`
    // is `repr(C)`: eleven `u32` in the order of gate.h's struct, with nothing between them.
    unsafe { c::gate_step(image.as_ptr(), image.len(), limits, memory.as_mut_ptr(), memory.len(), registers, cycles, record) }
}

/// Steps back by a record, as `gate_step_back` does.
///
/// ```
/// # use gate_host::cells::{self, RecordCells};
/// let record = RecordCells { registers: [5, 0, 0, 0, 0x03FD, 0x8002], count: 1, bytes: [[0x0010, 0xAA], [0, 0]] };
/// let (mut memory, mut registers) = (vec![0; gate_host::MEMORY_BYTES], [0; 6]);
/// assert_eq!(cells::step_back(&record, &mut memory, &mut registers), cells::OK);
/// assert_eq!((memory[0x0010], registers), (0xAA, record.registers));
/// ```
pub fn step_back(record: &RecordCells, memory: &mut [u8], registers: &mut RegisterCells) -> u8 {
    // SAFETY: as for `step`.
    unsafe { c::gate_step_back(record, memory.as_mut_ptr(), memory.len(), registers) }
}

/// Makes steps until the routine finishes, traps or `budget` steps are made, as `gate_run` does.
///
/// ```
/// # use gate_host::cells;
/// # use gate_host::{Area, Limits, MEMORY_BYTES};
/// # let area = |low, high| Area { low, high };
/// # let limits = Limits { grant: area(0x0000, 0x00FF), stack: area(0x0300, 0x03FF), second: Area::NONE };
/// # let image = b"SLU\x00\x01\x80\x00\x01\x00\x05\xA6\x05\xB7\x10\x81";
/// let (mut memory, mut registers) = (vec![0; MEMORY_BYTES], [0, 0, 0, 0, 0x03FD, 0x8000]);
/// let (mut steps, mut cycles) = ([0], [0]);
/// assert_eq!(cells::run(image, &limits, &mut memory, &mut registers, 2, &mut steps, &mut cycles), cells::SPENT);
/// assert_eq!((registers[5], steps, cycles), (0x8004, [2], [2]));
/// ```
pub fn run(
    image: &[u8],
    limits: &Limits,
    memory: &mut [u8],
    registers: &mut RegisterCells,
    budget: u32,
    steps: &mut [u32; 1],
    cycles: &mut [u64; 1],
) -> u8 {
    // SAFETY: as for `check`: every pointer comes with its length from one reference, and what is written from `&mut`.
    unsafe {
        c::gate_run(image.as_ptr(), image.len(), limits, memory.as_mut_ptr(), memory.len(), registers, budget, steps, cycles)
    }
}

/// Saves registers and steps, as `gate_save` does.
///
/// ```
/// # use gate_host::cells;
/// let mut saved = [0xAA; gate_host::SAVED_BYTES];
/// assert_eq!(cells::save(&[0x05, 0x1234, 0x5678, 0x28, 0x03FD, 0x8002], 1, &mut saved), cells::OK);
/// assert_eq!(&saved, b"SLS\x00\x02\x80\x02\x03\xFD\x05\x12\x34\x56\x78\x28\x00\x00\x00\x00\x00\x00\x00\x01");
/// ```
pub fn save(registers: &RegisterCells, steps: u64, saved: &mut [u8; SAVED_BYTES]) -> u8 {
    // SAFETY: as for `check`: each pointer comes from a reference to as many cells as its array type says, and what is written from
    // `&mut`.
    unsafe { c::gate_save(registers, steps, saved) }
}

/// Resumes from a saved state, of version 0002 or 0001, as `gate_resume` does.
///
/// ```
/// # use gate_host::cells;
/// # use gate_host::{Area, Limits, MEMORY_BYTES};
/// # let area = |low, high| Area { low, high };
/// # let limits = Limits { grant: area(0x0000, 0x00FF), stack: area(0x0300, 0x03FF), second: Area::NONE };
/// # let image = b"SLU\x00\x01\x80\x00\x01\x00\x05\xA6\x05\xB7\x10\x81";
/// // After the first of three steps, as it is saved and as it was saved before library 0.5.0.
/// let saved = b"SLS\x00\x02\x80\x02\x03\xFD\x05\x00\x00\x00\x00\x00\x00\x00\x00\x00\x00\x00\x00\x01";
/// let old = b"SLS\x00\x01\x80\x02\x03\xFD\x05\x00\x00\x00\x00\x00\x00\x00\x00\x01";
/// for saved in [&saved[..], old] {
///     let (mut marks, mut memory, mut registers) = ([0; 5], vec![0; MEMORY_BYTES], [0; 6]);
///     let (mut steps, mut cycles, mut offset) = ([0], [0], [0]);
///     let (total, sum, at) = (&mut steps, &mut cycles, &mut offset);
///     let number = cells::resume(image, &limits, &mut marks, &mut memory, saved, 9, &mut registers, total, sum, at);
///     assert_eq!((number, registers), (cells::FINISHED, [5, 0, 0, 0, 0x03FF, 0]));
///     assert_eq!((memory[0x0010], steps, cycles, offset), (0x05, [3], [5], [0]));
/// }
/// ```
#[allow(clippy::too_many_arguments)]
pub fn resume(
    image: &[u8],
    limits: &Limits,
    marks: &mut [u16],
    memory: &mut [u8],
    saved: &[u8],
    budget: u32,
    registers: &mut RegisterCells,
    steps: &mut [u64; 1],
    cycles: &mut [u64; 1],
    offset: &mut [u16; 1],
) -> u8 {
    // SAFETY: as for `check`: every pointer comes with its length from one reference, and what is written from `&mut`.
    unsafe {
        c::gate_resume(
            image.as_ptr(),
            image.len(),
            limits,
            marks.as_mut_ptr(),
            marks.len(),
            memory.as_mut_ptr(),
            memory.len(),
            saved.as_ptr(),
            saved.len(),
            budget,
            registers,
            steps,
            cycles,
            offset,
        )
    }
}

/// Decodes the instruction at the front of bytes, as `gate_decode` does.
///
/// ```
/// # use gate_host::cells;
/// let (mut text, mut length, mut cycles) = ([0; gate_host::TEXT_BYTES], [0], [0; 2]);
/// assert_eq!(cells::decode(&[0x26, 0xFE], 0x8000, &mut text, &mut length, &mut cycles), cells::OK);
/// assert_eq!((&text[..10], length, cycles), (&b"JRNE $8000"[..], [2], [1, 2]));
/// ```
pub fn decode(bytes: &[u8], address: u16, text: &mut [u8; TEXT_BYTES], length: &mut [usize; 1], cycles: &mut CycleCells) -> u8 {
    // SAFETY: as for `check`: every pointer comes with its length from one reference, and what is written from `&mut`.
    unsafe { c::gate_decode(bytes.as_ptr(), bytes.len(), address, text, length, cycles) }
}

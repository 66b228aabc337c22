//! The gate loader for Rust: a safe interface over the proved static library `libgate_c.a`.
//!
//! Every function is total: whatever the bytes, numbers and lengths, it returns. `include/gate.h` says what each leaves in each
//! cell; [`cells`] has the same functions with those very cells. Refusals and traps are errors, so `?` hands them on:
//!
//! ```
//! use gate_host::{Area, Limits, Registers, MARKS_ENOUGH, MEMORY_BYTES};
//!
//! fn main() -> Result<(), Box<dyn std::error::Error>> {
//!     // One routine, which stores 05 at 0010.
//!     let image = b"SLU\x00\x01\x80\x00\x01\x00\x05\xA6\x05\xB7\x10\x81";
//!     let limits = Limits {
//!         grant: Area { low: 0x0000, high: 0x00FF },
//!         stack: Area { low: 0x0300, high: 0x03FF },
//!         second: Area::NONE, // or another grant, such as 4000-401F
//!     };
//!     let mut marks = [0; MARKS_ENOUGH];
//!     let accepted = gate_host::check(image, &limits, &mut marks)?;
//!     println!("accepted: {} stack bytes, {} instructions", accepted.need, accepted.count);
//!
//!     let mut memory = vec![0; MEMORY_BYTES];
//!     let mut registers = Registers::default();
//!     gate_host::start(image, &limits, &mut marks, &mut memory, &mut registers)?;
//!     while !gate_host::run(image, &limits, &mut memory, &mut registers, 1_000)?.finished()? {}
//!     println!("finished: 0010 holds {:02X}", memory[0x0010]);
//!     Ok(())
//! }
//! ```

#![deny(missing_docs, unsafe_code)]

#[allow(unsafe_code)]
pub mod cells;
mod history;
mod layout;
mod numbers;
mod types;
mod version;

pub use history::History;
pub use layout::{layout, Layout};
pub use numbers::number_text;
pub use types::*;
pub use version::{library_version, Version, VERSION};

use cells::{CycleCells, RecordCells, RegisterCells, ReportCells};

/// Checks an image under limits.
///
/// Accepted, each start's mark is its depth + 1 and every other code byte's is 0; after refusals 6 to 16 all code marks are 0;
/// after 1 to 5 none has changed. Marks past the code never change.
///
/// ```
/// # use gate_host::{Area, Ending, Limits, Refusal, Refused, Registers, Run, Step, Trap, MEMORY_BYTES};
/// # let area = |low, high| Area { low, high };
/// # let limits = Limits { grant: area(0x0000, 0x00FF), stack: area(0x0300, 0x03FF), second: Area::NONE };
/// # let image = b"SLU\x00\x01\x80\x00\x01\x00\x05\xA6\x05\xB7\x10\x81";
/// let mut marks = [0; 5];
/// let accepted = gate_host::check(image, &limits, &mut marks)?;
/// assert_eq!((accepted.need, accepted.count, marks), (2, 3, [1, 0, 1, 0, 1]));
///
/// let narrow = Limits { grant: Area { low: 0x0011, high: 0x00FF }, ..limits };
/// let refused = gate_host::check(image, &narrow, &mut marks).unwrap_err();
/// assert_eq!(refused, Refused { refusal: Refusal::Store, offset: 2 });
/// assert_eq!(refused.to_string(), "refused with 12 at offset 2: store not allowed");
/// # Ok::<(), Refused>(())
/// ```
pub fn check(image: &[u8], limits: &Limits, marks: &mut [u16]) -> Result<Accepted, Refused> {
    let mut report = ReportCells::default();
    let number = cells::check(image, limits, marks, &mut report);
    verdict(number, report)
}

/// Works out the turn of an image, which is checked as [`check`] does, with the same refusals and marks.
///
/// A routine's turn is the sum over its instructions of 1, plus the callee's turn at calls; the image's is main's. There is none if
/// some jump, of any routine, goes to its own or a lower address: JRF counts as the other jumps do, and a call is no jump.
///
/// ```
/// # use gate_host::{Area, Limits, Registers, Turn, MARKS_ENOUGH, MEMORY_BYTES};
/// # let area = |low, high| Area { low, high };
/// # let limits = Limits { grant: area(0x0000, 0x00FF), stack: area(0x0300, 0x03FF), second: Area::NONE };
/// // Two routines: PUSH A, POP A, RET; and main, which calls it.
/// let image = b"SLU\x00\x02\x80\x00\x02\x00\x03\x00\x04\x88\x84\x81\xCD\x80\x00\x81";
/// let mut marks = [0; MARKS_ENOUGH];
/// assert_eq!(gate_host::turn(image, &limits, &mut marks)?, Turn::Within(5));
///
/// let (mut memory, mut registers) = (vec![0; MEMORY_BYTES], Registers::default());
/// gate_host::start(image, &limits, &mut marks, &mut memory, &mut registers)?;
/// assert_eq!(gate_host::run(image, &limits, &mut memory, &mut registers, 5)?.finished(), Ok(true));
/// # Ok::<(), Box<dyn std::error::Error>>(())
/// ```
pub fn turn(image: &[u8], limits: &Limits, marks: &mut [u16]) -> Result<Turn, Refused> {
    let (mut offset, mut turn) = ([0], [0]);
    match cells::turn(image, limits, marks, &mut offset, &mut turn) {
        cells::OK => Ok(Turn::Within(turn[0])),
        cells::NO_TURN => Ok(Turn::None),
        cells::OVER => Ok(Turn::Over),
        number => Err(Refused { refusal: refusal(number), offset: offset[0] }),
    }
}

/// Starts a routine: the memory's size, then the whole check.
///
/// Accepted, 00 is written to the top two stack bytes, and SP and PC are set; A, X, Y and CC stay. Refused, no memory is written
/// and all registers are 0. Marks are as [`check`] leaves them, and unchanged where the memory is refused.
///
/// ```
/// # use gate_host::{Area, Ending, Limits, Refusal, Refused, Registers, Run, Step, Trap, MEMORY_BYTES};
/// # let area = |low, high| Area { low, high };
/// # let limits = Limits { grant: area(0x0000, 0x00FF), stack: area(0x0300, 0x03FF), second: Area::NONE };
/// # let image = b"SLU\x00\x01\x80\x00\x01\x00\x05\xA6\x05\xB7\x10\x81";
/// let (mut marks, mut memory) = ([0; 5], vec![0xFF; MEMORY_BYTES]);
/// let mut registers = Registers { a: 7, ..Registers::default() };
/// gate_host::start(image, &limits, &mut marks, &mut memory, &mut registers)?;
/// assert_eq!(registers, Registers { a: 7, sp: 0x03FD, pc: 0x8000, ..Registers::default() });
/// assert_eq!(memory[0x03FD..0x0400], [0xFF, 0x00, 0x00]);
/// # Ok::<(), Refused>(())
/// ```
pub fn start(
    image: &[u8],
    limits: &Limits,
    marks: &mut [u16],
    memory: &mut [u8],
    registers: &mut Registers,
) -> Result<Accepted, Refused> {
    let mut report = ReportCells::default();
    let mut cells = registers.to_cells();
    let number = cells::start(image, limits, marks, memory, &mut cells, &mut report);
    *registers = Registers::from_cells(&cells);
    verdict(number, report)
}

/// Makes one step. Unless it is made, registers and memory stay as they were, and it takes no cycles.
///
/// The record is of every step, whatever the answer: the registers before it and, where it was made, the bytes that it overwrote.
///
/// ```
/// # use gate_host::{Area, Ending, Limits, Refusal, Refused, Registers, Run, Step, Trap, MEMORY_BYTES};
/// # let area = |low, high| Area { low, high };
/// # let limits = Limits { grant: area(0x0000, 0x00FF), stack: area(0x0300, 0x03FF), second: Area::NONE };
/// # let image = b"SLU\x00\x01\x80\x00\x01\x00\x05\xA6\x05\xB7\x10\x81";
/// let mut memory = vec![0xAA; MEMORY_BYTES];
/// let before = Registers { a: 5, sp: 0x03FD, pc: 0x8002, ..Registers::default() };
/// let mut registers = before;
/// let (answer, record) = gate_host::step(image, &limits, &mut memory, &mut registers);
/// assert_eq!(answer?, Step::Made { cycles: 1 });
/// assert_eq!((registers.pc, memory[0x0010]), (0x8004, 0x05));
/// assert_eq!((record.registers, record.count), (before, 1));
/// assert_eq!((record.bytes[0].address, record.bytes[0].value), (0x0010, 0xAA));
/// # Ok::<(), Refusal>(())
/// ```
pub fn step(image: &[u8], limits: &Limits, memory: &mut [u8], registers: &mut Registers) -> (Result<Step, Refusal>, Record) {
    let mut cells = registers.to_cells();
    let (mut cycles, mut record) = ([0], RecordCells::default());
    let number = cells::step(image, limits, memory, &mut cells, &mut cycles, &mut record);
    *registers = Registers::from_cells(&cells);
    let answer = match number {
        cells::OK => Ok(Step::Made { cycles: cycles[0] }),
        cells::FINISHED => Ok(Step::Finished),
        _ => trap_or_refusal(number).map(Step::Trapped),
    };
    (answer, Record::from_cells(&record))
}

/// Steps back by a record: writes the bytes that it counts, in its order. Refused with 17 or 26, it writes none. Registers are the
/// record's, whatever the answer.
///
/// Given the record of a step and the memory as that step left it, registers and memory are again what they were before the step.
/// The records of several steps are given back in the reverse order; [`History`] keeps them so. A run makes no records, and those
/// from before it are of no use after it.
///
/// ```
/// # use gate_host::{Area, Ending, Limits, Refusal, Refused, Registers, Run, Step, Trap, MEMORY_BYTES};
/// # let area = |low, high| Area { low, high };
/// # let limits = Limits { grant: area(0x0000, 0x00FF), stack: area(0x0300, 0x03FF), second: Area::NONE };
/// # let image = b"SLU\x00\x01\x80\x00\x01\x00\x05\xA6\x05\xB7\x10\x81";
/// let mut memory = vec![0xAA; MEMORY_BYTES];
/// let before = Registers { a: 5, sp: 0x03FD, pc: 0x8002, ..Registers::default() };
/// let mut registers = before;
/// let (_, record) = gate_host::step(image, &limits, &mut memory, &mut registers);
/// gate_host::step_back(&record, &mut memory, &mut registers)?;
/// assert_eq!((registers, memory[0x0010]), (before, 0xAA));
/// # Ok::<(), Refusal>(())
/// ```
pub fn step_back(record: &Record, memory: &mut [u8], registers: &mut Registers) -> Result<(), Refusal> {
    let mut cells = RegisterCells::default();
    let number = cells::step_back(&record.to_cells(), memory, &mut cells);
    *registers = Registers::from_cells(&cells);
    match number {
        cells::OK => Ok(()),
        _ => Err(refusal(number)),
    }
}

/// Makes steps until the routine finishes, traps or `budget` steps are made.
///
/// ```
/// # use gate_host::{Area, Ending, Limits, Refusal, Refused, Registers, Run, Step, Trap, MEMORY_BYTES};
/// # let area = |low, high| Area { low, high };
/// # let limits = Limits { grant: area(0x0000, 0x00FF), stack: area(0x0300, 0x03FF), second: Area::NONE };
/// # let image = b"SLU\x00\x01\x80\x00\x01\x00\x05\xA6\x05\xB7\x10\x81";
/// let mut memory = vec![0; MEMORY_BYTES];
/// let mut registers = Registers { sp: 0x03FD, pc: 0x8000, ..Registers::default() };
/// let run = gate_host::run(image, &limits, &mut memory, &mut registers, 1)?;
/// assert_eq!(run, Run { ending: Ending::Spent, steps: 1, cycles: 1 });
/// let run = gate_host::run(image, &limits, &mut memory, &mut registers, 1_000)?; // goes on
/// assert_eq!(run, Run { ending: Ending::Finished, steps: 2, cycles: 5 });
/// registers.pc = 0x9000;
/// let run = gate_host::run(image, &limits, &mut memory, &mut registers, 1_000)?;
/// assert_eq!(run.ending, Ending::Trapped(Trap::Pc));
/// # Ok::<(), Refusal>(())
/// ```
pub fn run(image: &[u8], limits: &Limits, memory: &mut [u8], registers: &mut Registers, budget: u32) -> Result<Run, Refusal> {
    let mut cells = registers.to_cells();
    let (mut steps, mut cycles) = ([0], [0]);
    let number = cells::run(image, limits, memory, &mut cells, budget, &mut steps, &mut cycles);
    *registers = Registers::from_cells(&cells);
    let ending = match number {
        cells::FINISHED => Ending::Finished,
        cells::SPENT => Ending::Spent,
        _ => Ending::Trapped(trap_or_refusal(number)?),
    };
    Ok(Run { ending, steps: steps[0], cycles: cycles[0] })
}

/// Saves registers and steps, to [`resume`] from later. It is refused with 35 where PC is above FFFF, to which no accepted routine comes.
///
/// The steps are those made since the start: the sum over the runs and single steps since then, or the total of a resumed run and those
/// made since. The memory is not saved. Whoever wants to resume keeps all of it, as it is now, beside the saved state.
///
/// ```
/// # use gate_host::{Refusal, Registers};
/// let registers = Registers { a: 5, sp: 0x03FD, pc: 0x8002, ..Registers::default() };
/// let saved = gate_host::save(&registers, 1)?;
/// assert_eq!(&saved.to_bytes(), b"SLS\x00\x02\x80\x02\x03\xFD\x05\x00\x00\x00\x00\x00\x00\x00\x00\x00\x00\x00\x00\x01");
/// assert_eq!(gate_host::save(&Registers { pc: 0x1_0000, ..registers }, 1), Err(Refusal::NotGood));
/// # Ok::<(), Refusal>(())
/// ```
pub fn save(registers: &Registers, steps: u64) -> Result<SavedState, Refusal> {
    let mut saved = [0; SAVED_BYTES];
    match cells::save(&registers.to_cells(), steps, &mut saved) {
        cells::OK => Ok(SavedState::from_bytes(saved)),
        number => Err(refusal(number)),
    }
}

/// Resumes from a saved state, or from the bytes of a file: makes steps from its registers, on the memory as it is lent, until the routine
/// finishes, `budget` steps are made or their total is 18,446,744,073,709,551,615. What was saved before library 0.5.0, 19 bytes of
/// version 0001, is taken as it is and comes to the same as the 23 bytes of version 0002 that [`save`] makes of the same registers and
/// steps.
///
/// It is refused as a start is; then with 34, where the saved state has another mark or version, or not its version's length; then with
/// 35, where it is not good. It is good where PC is 0 and SP equals stack high; or where PC is at a start, and the stack above SP holds
/// the addresses after the calls that lead there, at the depths of those calls, down to main, whose return bytes are 00 00 at the very
/// top. Every state that steps and runs from a start come to is good, and from a good one all holds that is guaranteed after a start.
///
/// Given the image, the limits and the memory as they were when it was saved, it comes to what would have come without the pause.
/// Refused, no memory is written. Marks are as [`check`] leaves them, after 34 and 35 too, and unchanged where the memory is refused.
///
/// ```
/// # use gate_host::{Area, Limits, Refusal, Refused, Registers, Resumed, MEMORY_BYTES};
/// # let area = |low, high| Area { low, high };
/// # let limits = Limits { grant: area(0x0000, 0x00FF), stack: area(0x0300, 0x03FF), second: Area::NONE };
/// # let image = b"SLU\x00\x01\x80\x00\x01\x00\x05\xA6\x05\xB7\x10\x81";
/// let (mut marks, mut memory, mut registers) = ([0; 5], vec![0; MEMORY_BYTES], Registers::default());
/// gate_host::start(image, &limits, &mut marks, &mut memory, &mut registers)?;
/// let run = gate_host::run(image, &limits, &mut memory, &mut registers, 1)?;
/// let saved = gate_host::save(&registers, run.steps.into())?;
///
/// // Later, with the same memory: two more steps, which are three in all.
/// let resumed = gate_host::resume(image, &limits, &mut marks, &mut memory, saved, 1_000)?;
/// let finished = Registers { a: 5, sp: 0x03FF, pc: 0, ..Registers::default() };
/// assert_eq!(resumed, Resumed { finished: true, registers: finished, steps: 3, cycles: 5 });
/// assert_eq!(memory[0x0010], 0x05);
///
/// // A file of the same pause that was written before library 0.5.0.
/// let old = b"SLS\x00\x01\x80\x02\x03\xFD\x05\x00\x00\x00\x00\x00\x00\x00\x00\x01";
/// assert_eq!(gate_host::resume(image, &limits, &mut marks, &mut memory, old, 1_000)?, resumed);
///
/// let refused = gate_host::resume(image, &limits, &mut marks, &mut memory, b"SLS", 1_000).unwrap_err();
/// assert_eq!(refused, Refused { refusal: Refusal::NotSls, offset: 0 });
/// # Ok::<(), Box<dyn std::error::Error>>(())
/// ```
pub fn resume(
    image: &[u8],
    limits: &Limits,
    marks: &mut [u16],
    memory: &mut [u8],
    saved: impl AsRef<[u8]>,
    budget: u32,
) -> Result<Resumed, Refused> {
    let mut registers = RegisterCells::default();
    let (mut steps, mut cycles, mut offset) = ([0], [0], [0]);
    let (saved, total, sum) = (saved.as_ref(), &mut steps, &mut cycles);
    let number = cells::resume(image, limits, marks, memory, saved, budget, &mut registers, total, sum, &mut offset);
    match number {
        cells::FINISHED | cells::SPENT => Ok(Resumed {
            finished: number == cells::FINISHED,
            registers: Registers::from_cells(&registers),
            steps: steps[0],
            cycles: cycles[0],
        }),
        _ => Err(Refused { refusal: refusal(number), offset: offset[0] }),
    }
}

/// Decodes the instruction at the front of `bytes`, which are of no image: by the whole set, CALLR included. Its text is that of
/// the instruction as it stands at `address`.
///
/// ```
/// let decoded = gate_host::decode(&[0x26, 0xFE, 0x81], 0x8000)?;
/// assert_eq!((decoded.text.as_str(), decoded.length), ("JRNE $8000", 2));
/// assert_eq!((decoded.cycles.untaken, decoded.cycles.taken), (1, 2));
/// assert_eq!(gate_host::decode(&[0x8E], 0x8000), Err(gate_host::Refusal::Outside)); // HALT
/// # Ok::<(), gate_host::Refusal>(())
/// ```
pub fn decode(bytes: &[u8], address: u16) -> Result<Decoded, Refusal> {
    let mut text = [0; TEXT_BYTES];
    let mut length = [0];
    let mut cycles = CycleCells::default();
    match cells::decode(bytes, address, &mut text, &mut length, &mut cycles) {
        cells::OK => Ok(Decoded { length: length[0], text: Text(text), cycles: Cycles::from_cells(&cycles) }),
        number => Err(refusal(number)),
    }
}

impl Registers {
    /// The register array of the C interface.
    ///
    /// ```
    /// let registers = gate_host::Registers { a: 1, x: 2, y: 3, cc: 4, sp: 5, pc: 6 };
    /// assert_eq!(registers.to_cells(), [1, 2, 3, 4, 5, 6]);
    /// ```
    pub fn to_cells(&self) -> RegisterCells {
        [self.a.into(), self.x.into(), self.y.into(), self.cc.into(), self.sp.into(), self.pc]
    }

    /// Each cell is read by its low 8 bits (A, CC), 16 bits (X, Y, SP) or 32 bits (PC).
    ///
    /// ```
    /// let registers = gate_host::Registers::from_cells(&[0x0101, 2, 3, 4, 5, 6]);
    /// assert_eq!((registers.a, registers.pc), (1, 6));
    /// ```
    pub fn from_cells(cells: &RegisterCells) -> Registers {
        let [a, x, y, cc, sp, pc] = *cells;
        Registers { a: a as u8, x: x as u16, y: y as u16, cc: cc as u8, sp: sp as u16, pc }
    }
}

impl Record {
    /// The record struct of the C interface.
    ///
    /// ```
    /// # use gate_host::{Overwritten, Record};
    /// let bytes = [Overwritten { address: 0x0010, value: 0xAA }, Overwritten::default()];
    /// let cells = Record { count: 1, bytes, ..Record::default() }.to_cells();
    /// assert_eq!((cells.count, cells.bytes), (1, [[0x0010, 0xAA], [0, 0]]));
    /// ```
    pub fn to_cells(&self) -> RecordCells {
        let bytes = self.bytes.map(|Overwritten { address, value }| [address, value.into()]);
        RecordCells { registers: self.registers.to_cells(), count: self.count, bytes }
    }

    /// Registers are read as [`Registers::from_cells`] does, a value by its low 8 bits, count and addresses whole.
    ///
    /// ```
    /// # use gate_host::{cells::RecordCells, Record};
    /// let cells = RecordCells { registers: [1, 2, 3, 4, 5, 6], count: 1, bytes: [[0x0010, 0x01AA], [0, 0]] };
    /// let record = Record::from_cells(&cells);
    /// assert_eq!((record.registers.x, record.bytes[0].value), (2, 0xAA));
    /// ```
    pub fn from_cells(cells: &RecordCells) -> Record {
        let bytes = cells.bytes.map(|[address, value]| Overwritten { address, value: value as u8 });
        Record { registers: Registers::from_cells(&cells.registers), count: cells.count, bytes }
    }
}

impl Cycles {
    /// The cycle array of the C interface.
    ///
    /// ```
    /// assert_eq!(gate_host::Cycles { untaken: 1, taken: 2 }.to_cells(), [1, 2]);
    /// ```
    pub fn to_cells(&self) -> CycleCells {
        [self.untaken, self.taken]
    }

    /// The cycles of such an array.
    ///
    /// ```
    /// assert_eq!(gate_host::Cycles::from_cells(&[1, 2]).taken, 2);
    /// ```
    pub fn from_cells(&[untaken, taken]: &CycleCells) -> Cycles {
        Cycles { untaken, taken }
    }
}

fn verdict(number: u8, [offset, need, count]: ReportCells) -> Result<Accepted, Refused> {
    match number {
        cells::OK => Ok(Accepted { need, count }),
        _ => Err(Refused { refusal: refusal(number), offset }),
    }
}

fn trap_or_refusal(number: u8) -> Result<Trap, Refusal> {
    Trap::from_number(number).ok_or_else(|| refusal(number))
}

fn refusal(number: u8) -> Refusal {
    Refusal::from_number(number).unwrap_or_else(|| panic!("gate.h lists no answer {number}"))
}

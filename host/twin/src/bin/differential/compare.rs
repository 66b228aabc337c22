//! One call to the library and to the twin, every cell compared, and the tally of answers.

use crate::back::Undo;
use crate::cycles::{self, Timing};
use crate::limits::Second;
use crate::memories::{Memories, BLANK};
use crate::met::Met;
use crate::not_sls::NotSls;
use crate::program::{Case, Known};
use crate::records::Records;
use crate::resumes::Resumes;
use crate::shape::Shape;
use crate::totals::Totals;
use crate::turns::Turns;
use crate::versions::Versions;
use gate_host::cells::{self, LayoutCells, RecordCells, RegisterCells, ReportCells};
use gate_host::{Accepted, Ending, Limits, Refusal, Refused, Registers, Run, Step, Trap, Turn, ROUTINES, TEXT_BYTES};
use gate_twin::{self as twin, Instruction};
use std::fmt::Debug;

/// What differed, in words, or nothing.
pub type Compared<T> = Result<T, String>;

/// `BLANK` in each byte of a cell of cycles, for all of them are to be written.
const BLANK_CYCLES: [u64; 1] = [u64::from_ne_bytes([BLANK; 8])];
/// The same for the cells of a record.
const BLANK_RECORD: RecordCells = {
    let blank = u32::from_ne_bytes([BLANK; 4]);
    RecordCells { registers: [blank; 6], count: blank, bytes: [[blank; 2]; 2] }
};
/// The same for the cells of a layout.
const BLANK_LAYOUT: LayoutCells = {
    let blank = u16::from_ne_bytes([BLANK; 2]);
    LayoutCells { version: blank, base: blank, routines: blank, code: blank, size: blank, begins: [blank; ROUTINES] }
};

/// How often each function gave each answer.
#[derive(Default)]
pub struct Tally {
    pub layout: Answers,
    pub check: Answers,
    pub turn: Answers,
    pub start: Answers,
    pub step: Answers,
    pub step_back: Answers,
    pub run: Answers,
    pub save: Answers,
    pub resume: Answers,
    pub decode: Answers,
    /// The steps that runs made.
    pub run_steps: u64,
    /// Steps made one by one, for each op-code of the three pages.
    pub opcodes: Vec<[u64; 256]>,
    /// Shapes of the images that were checked as they were made, in the order of `Shape::ALL`.
    pub shapes: [u64; Shape::ALL.len()],
    pub second: Met<Second>,
    pub versions: Met<Versions>,
    pub timing: Met<Timing>,
    pub records: Met<Records>,
    pub turns: Met<Turns>,
    pub resumes: Met<Resumes>,
    pub totals: Met<Totals>,
    /// Made from saved states of version 0001, and of 0002.
    pub not_sls: [Met<NotSls>; 2],
    /// Trap 22: PC not in the code, bytes that run out, a call whose next address is 10000.
    pub trap_22: [u64; 3],
}

impl Tally {
    pub fn new() -> Tally {
        Tally { opcodes: vec![[0; 256]; 3], ..Tally::default() }
    }

    pub fn note_shapes(&mut self, case: &Case) {
        for (times, &shape) in self.shapes.iter_mut().zip(&Shape::ALL) {
            *times += u64::from(case.shapes.contains(&shape));
        }
    }

    /// The op-codes of which a step was made.
    pub fn opcodes_met(&self) -> usize {
        self.opcodes.iter().flatten().filter(|&&times| times > 0).count()
    }
}

/// How often each number was answered.
pub struct Answers([u64; 256]);

impl Default for Answers {
    fn default() -> Answers {
        Answers([0; 256])
    }
}

impl Answers {
    pub fn total(&self) -> u64 {
        self.0.iter().sum()
    }

    pub fn times(&self, number: u8) -> u64 {
        self.0[usize::from(number)]
    }

    pub fn add(&mut self, number: u8) {
        self.0[usize::from(number)] += 1;
    }
}

pub fn same<T: PartialEq + Debug>(what: &str, library: &T, twin: &T) -> Compared<()> {
    if library == twin {
        Ok(())
    } else {
        Err(format!("{what}\n  library {library:?}\n  twin    {twin:?}"))
    }
}

/// As `same`, for long slices: only the first cell that differs is named.
pub fn same_cells<T: PartialEq + Debug>(what: &str, library: &[T], twin: &[T]) -> Compared<()> {
    if library == twin {
        return Ok(());
    }
    let at = library.iter().zip(twin).position(|(one, other)| one != other).unwrap_or(0);
    same(&format!("{what} {at:04X}"), &library[at], &twin[at])
}

/// As `same`, for what both answered, or one of them, and what it must be by another call.
pub fn as_expected<T: PartialEq + Debug>(what: &str, expected: &T, answered: &T) -> Compared<()> {
    if expected == answered {
        Ok(())
    } else {
        Err(format!("{what}\n  expected {expected:?}\n  answered {answered:?}"))
    }
}

fn report_cells(verdict: Result<Accepted, Refused>) -> (u8, ReportCells) {
    match verdict {
        Ok(Accepted { need, count }) => (cells::OK, [0, need, count]),
        Err(Refused { refusal, offset }) => (refusal.number(), [offset, 0, 0]),
    }
}

/// What a check answered, the marks that it left, and the turn, if it is accepted.
pub struct Checked {
    pub number: u8,
    pub report: ReportCells,
    pub marks: Vec<u16>,
    pub turn: Option<Turn>,
}

/// Reads the layout, which has nothing to do with limits and marks.
fn layout(image: &[u8], tally: &mut Tally) -> Compared<()> {
    let mut library = BLANK_LAYOUT;
    let number = cells::layout(image, &mut library);
    let expected = match twin::Image::parse(image) {
        Ok(parsed) => (cells::OK, layout_cells(&parsed, image.len())),
        Err(refusal) => (refusal.number(), LayoutCells::default()),
    };
    tally.layout.add(number);
    same("layout: number, and cells", &(number, library), &expected)
}

fn layout_cells(image: &twin::Image<'_>, length: usize) -> LayoutCells {
    let size = image.code.len();
    let mut cells = LayoutCells { version: image.version, base: image.base as u16, size: size as u16, ..LayoutCells::default() };
    cells.code = (length - size) as u16;
    for (begin, (first, _)) in cells.begins.iter_mut().zip(image.routines()) {
        *begin = first as u16;
        cells.routines += 1;
    }
    cells
}

/// Checks, works out the turn, and gives what both answered.
pub fn check(case: &Case, marks: &[u16], tally: &mut Tally) -> Compared<Checked> {
    layout(&case.image, tally)?;
    let (mut library, mut other) = (marks.to_vec(), marks.to_vec());
    let mut report = [u16::from(BLANK); 3];
    let number = cells::check(&case.image, &case.limits, &mut library, &mut report);
    let verdict = twin::check(&case.image, &case.limits, &mut other);
    same("check: number, and offset, need, count", &(number, report), &report_cells(verdict))?;
    same_cells("check: mark", &library, &other)?;
    tally.check.add(number);
    let refused = code_from(&case.image, report[0].into()).and_then(instruction);
    tally.second.note(Second::of_refusal(&case.limits, number, refused));
    tally.versions.note(Versions::of_check(&case.image, number, report[0], &library));
    if let Some(known) = &case.known {
        by_construction(known, number, report, &library)?;
    }
    let turn = turn(case, marks, tally)?;
    as_expected("turn, by the check: number and offset of a refusal", &(number, report[0]), &turn.refused)?;
    same_cells("turn, by the check: mark", &turn.marks, &library)?;
    Ok(Checked { number, report, marks: library, turn: turn.turn })
}

/// What the working out of a turn answered.
struct Turned {
    /// Number and offset, zeros where it is accepted.
    refused: (u8, u16),
    turn: Option<Turn>,
    marks: Vec<u16>,
}

/// Works out the turn, and gives what both answered.
fn turn(case: &Case, marks: &[u16], tally: &mut Tally) -> Compared<Turned> {
    let (mut library, mut other) = (marks.to_vec(), marks.to_vec());
    let (mut offset, mut cell) = ([u16::from_ne_bytes([BLANK; 2])], [u32::from_ne_bytes([BLANK; 4])]);
    let number = cells::turn(&case.image, &case.limits, &mut library, &mut offset, &mut cell);
    let answer = twin::turn(&case.image, &case.limits, &mut other);
    same("turn: number, offset, turn", &(number, offset[0], cell[0]), &turn_cells(answer))?;
    same_cells("turn: mark", &library, &other)?;
    tally.turn.add(number);
    if let (Ok(turn), Some(Known::Accepted(_, known))) = (answer, &case.known) {
        as_expected("turn, by construction", &known.turn(), &turn)?;
        tally.turns.note(Turns::of_known(known));
    }
    if answer == Ok(Turn::None) {
        tally.turns.note(Turns::of_jumps_back(&case.image));
    }
    let refused = answer.map_or_else(|Refused { refusal, offset }| (refusal.number(), offset), |_| (cells::OK, 0));
    Ok(Turned { refused, turn: answer.ok(), marks: library })
}

/// An answer of the twin.
fn turn_cells(answer: Result<Turn, Refused>) -> (u8, u16, u32) {
    match answer {
        Ok(Turn::Within(turn)) => (cells::OK, 0, turn),
        Ok(Turn::None) => (cells::NO_TURN, 0, 0),
        Ok(Turn::Over) => (cells::OVER, 0, 0),
        Err(Refused { refusal, offset }) => (refusal.number(), offset, 0),
    }
}

/// An image is answered as it was made to be: with the depths that it was made with, or with the first refusal that it has.
fn by_construction(known: &Known, number: u8, report: ReportCells, marks: &[u16]) -> Compared<()> {
    match (known, number) {
        (Known::Accepted(depths, _), cells::OK) => {
            let count = depths.iter().filter(|&&mark| mark != 0).count();
            same("check: count, against construction", &usize::from(report[2]), &count)?;
            same_cells("check: mark, against construction", &marks[..depths.len()], depths)
        }
        (Known::Accepted(..), 16) => Ok(()),
        (Known::Accepted(..), _) => {
            Err(format!("check: an image that was made to be accepted is refused {number} {}", report[0]))
        }
        (Known::Refused(refusal, offset), _) if (number, report[0]) == (*refusal, *offset) => Ok(()),
        (Known::Refused(refusal, offset), _) => {
            Err(format!("check: an image that was made to be refused {refusal} {offset} is answered {number} {}", report[0]))
        }
    }
}

/// Starts, and gives the registers that both answered.
pub fn start(
    case: &Case,
    marks: &[u16],
    memories: &mut Memories,
    lent: usize,
    given: RegisterCells,
    tally: &mut Tally,
) -> Compared<(u8, RegisterCells)> {
    memories.as_told()?;
    let (mut library, mut other) = (marks.to_vec(), marks.to_vec());
    let (mut registers, mut twin_registers) = (given, Registers::from_cells(&given));
    let mut report = [u16::from(BLANK); 3];
    let number =
        cells::start(&case.image, &case.limits, &mut library, &mut memories.library[..lent], &mut registers, &mut report);
    let verdict = twin::start(&case.image, &case.limits, &mut other, &mut memories.twin[..lent], &mut twin_registers);
    same("start: number, and offset, need, count", &(number, report), &report_cells(verdict))?;
    same("start: registers", &registers, &twin_registers.to_cells())?;
    same_cells("start: mark", &library, &other)?;
    memories.same()?;
    memories.follow_all();
    tally.start.add(number);
    Ok((number, registers))
}

/// What a step answered.
#[derive(Clone, Copy, Debug, PartialEq)]
pub struct Stepped {
    pub number: u8,
    pub registers: RegisterCells,
    pub cycles: u64,
    pub record: RecordCells,
}

/// Makes one step, steps back over it and makes it once more, and gives what both answered.
pub fn step(
    image: &[u8],
    limits: &Limits,
    memories: &mut Memories,
    lent: usize,
    given: RegisterCells,
    tally: &mut Tally,
) -> Compared<Stepped> {
    let (step, answer) = step_once(image, limits, memories, lent, given)?;
    memories.same()?;
    let bytes = bytes_at(image, given);
    tally.step.add(step.number);
    tally.timing.note(Timing::of_step(&step, bytes.and_then(instruction)));
    tally.records.note(Records::of_step(&step, memories));
    if let Ok(answer) = answer {
        note_step(answer, bytes, limits, tally);
        tally.versions.note(bytes.and_then(|bytes| Versions::of_step(image, bytes, answer)));
    }
    if let (cells::OK, Some(bytes)) = (step.number, bytes) {
        cycles::as_pc_tells(&step, bytes, given[5])?;
    }
    Undo { given, step }.undo(memories, lent, tally)?;
    memories.has_back(&step.record)?;
    // To compare all of the memory each time would take long; a byte that is wrong elsewhere stays so until it is compared.
    if tally.step.times(step.number) % 8 == 1 {
        memories.as_told()?;
    }
    let (again, _) = step_once(image, limits, memories, lent, given)?;
    as_expected("step, once more after stepping back", &step, &again)?;
    memories.follow(&step.record);
    Ok(step)
}

/// Makes one step, and gives what both answered, as cells and as the twin has it. The memory is not compared.
fn step_once(
    image: &[u8],
    limits: &Limits,
    memories: &mut Memories,
    lent: usize,
    given: RegisterCells,
) -> Compared<(Stepped, Result<Step, Refusal>)> {
    let (mut registers, mut twin_registers) = (given, Registers::from_cells(&given));
    let (mut cycles, mut record) = (BLANK_CYCLES, BLANK_RECORD);
    let number = cells::step(image, limits, &mut memories.library[..lent], &mut registers, &mut cycles, &mut record);
    let (answer, twin_record) = twin::step(image, limits, &mut memories.twin[..lent], &mut twin_registers);
    let library = Stepped { number, registers, cycles: cycles[0], record };
    same("step", &library, &step_cells(answer, twin_registers.to_cells(), twin_record.to_cells()))?;
    Ok((library, answer))
}

/// An answer of the twin.
fn step_cells(answer: Result<Step, Refusal>, registers: RegisterCells, record: RecordCells) -> Stepped {
    let (number, cycles) = match answer {
        Ok(Step::Made { cycles }) => (cells::OK, cycles),
        Ok(Step::Finished) => (cells::FINISHED, 0),
        Ok(Step::Trapped(trap)) => (trap.number(), 0),
        Err(refusal) => (refusal.number(), 0),
    };
    Stepped { number, registers, cycles, record }
}

/// Notes what was met by a step at these code bytes.
fn note_step(answer: Step, bytes: Option<&[u8]>, limits: &Limits, tally: &mut Tally) {
    let instruction = bytes.and_then(instruction);
    match answer {
        Step::Made { .. } => {
            note_opcode(bytes, tally);
            tally.second.note(instruction.and_then(|made| Second::of_step(limits, made)));
        }
        Step::Trapped(Trap::Pc) => note_trap_22(bytes, tally),
        Step::Trapped(Trap::Store) => tally.second.note(instruction.and_then(|trapped| Second::of_trap(limits, trapped))),
        _ => {}
    }
}

/// The code bytes from PC on, where PC is in the code of a good image.
pub fn bytes_at(image: &[u8], registers: RegisterCells) -> Option<&[u8]> {
    let base = twin::Image::parse(image).ok()?.base;
    code_from(image, registers[5].wrapping_sub(base) as usize)
}

/// The code bytes from `offset` on, where that is in the code of a good image.
fn code_from(image: &[u8], offset: usize) -> Option<&[u8]> {
    twin::Image::parse(image).ok()?.code.get(offset..).filter(|bytes| !bytes.is_empty())
}

/// The instruction at the front of `bytes`.
fn instruction(bytes: &[u8]) -> Option<Instruction> {
    twin::decode(bytes).ok().map(|(instruction, _)| instruction)
}

fn note_opcode(bytes: Option<&[u8]>, tally: &mut Tally) {
    let (page, opcode) = match bytes {
        Some([0x72, opcode, ..]) => (1, *opcode),
        Some([0x90, opcode, ..]) => (2, *opcode),
        Some([opcode, ..]) => (0, *opcode),
        _ => return,
    };
    tally.opcodes[page][usize::from(opcode)] += 1;
}

fn note_trap_22(bytes: Option<&[u8]>, tally: &mut Tally) {
    let why = match bytes.map(twin::decode) {
        None => 0,
        Some(Err(_)) => 1,
        Some(Ok(_)) => 2,
    };
    tally.trap_22[why] += 1;
}

/// What a run answered.
#[derive(Clone, Copy, Debug, PartialEq)]
pub struct Ran {
    pub number: u8,
    pub steps: u32,
    pub cycles: u64,
    pub registers: RegisterCells,
}

/// Runs, and gives what both answered.
pub fn run(
    image: &[u8],
    limits: &Limits,
    memories: &mut Memories,
    lent: usize,
    given: RegisterCells,
    budget: u32,
    tally: &mut Tally,
) -> Compared<Ran> {
    memories.as_told()?;
    let (mut registers, mut twin_registers) = (given, Registers::from_cells(&given));
    let (mut steps, mut cycles) = ([u32::from(BLANK)], BLANK_CYCLES);
    let number = cells::run(image, limits, &mut memories.library[..lent], &mut registers, budget, &mut steps, &mut cycles);
    let answer = twin::run(image, limits, &mut memories.twin[..lent], &mut twin_registers, budget);
    let library = Ran { number, steps: steps[0], cycles: cycles[0], registers };
    same(&format!("run of {budget}"), &library, &run_cells(answer, twin_registers.to_cells()))?;
    memories.same()?;
    memories.follow_all();
    tally.run.add(number);
    tally.run_steps += u64::from(steps[0]);
    tally.timing.note(Timing::of_run(&library));
    Ok(library)
}

/// An answer of the twin.
fn run_cells(answer: Result<Run, Refusal>, registers: RegisterCells) -> Ran {
    let (number, steps, cycles) = match answer {
        Ok(Run { ending: Ending::Finished, steps, cycles }) => (cells::FINISHED, steps, cycles),
        Ok(Run { ending: Ending::Spent, steps, cycles }) => (cells::SPENT, steps, cycles),
        Ok(Run { ending: Ending::Trapped(trap), steps, cycles }) => (trap.number(), steps, cycles),
        Err(refusal) => (refusal.number(), 0, 0),
    };
    Ran { number, steps, cycles, registers }
}

pub fn decode(bytes: &[u8], address: u16, tally: &mut Tally) -> Compared<()> {
    let mut text = [BLANK; TEXT_BYTES];
    let mut length = [usize::from(BLANK)];
    let mut cycles = [BLANK; 2];
    let number = cells::decode(bytes, address, &mut text, &mut length, &mut cycles);
    let expected = match twin::decode(bytes) {
        Ok((instruction, length)) => {
            (cells::OK, length, twin::text(instruction, length, address).0, instruction.cycles().to_cells())
        }
        Err(twin::Undecodable::Outside) => (8, 0, [0; TEXT_BYTES], [0, 0]),
        Err(twin::Undecodable::Truncated) => (9, 0, [0; TEXT_BYTES], [0, 0]),
    };
    let what = format!("decode of {bytes:02X?} at {address:04X}: number, length, text, cycles");
    same(&what, &(number, length[0], text, cycles), &expected)?;
    tally.decode.add(number);
    tally.timing.note(Timing::of_decode(cycles));
    Ok(())
}

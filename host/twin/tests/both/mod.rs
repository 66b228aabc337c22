//! The library and the twin at the same step, step back or run, where they must agree on every cell.

use gate_host::{Area, Limits, Record, Refusal, Registers, Run, Step};
use gate_twin::{self as twin, slu};
use std::fmt::Debug;

/// Document 01's limits.
pub const LIMITS: Limits =
    Limits { grant: Area { low: 0x0000, high: 0x00FF }, stack: Area { low: 0x0300, high: 0x03FF }, second: Area::NONE };
/// At the first code byte, as `LIMITS` have the stack.
pub const BEGIN: Registers = Registers { a: 0, x: 0, y: 0, cc: 0, sp: 0x03FD, pc: 0x8000 };

/// The image of routines in hexadecimal, with | between two.
pub fn assembled(version: u16, routines: &str) -> Vec<u8> {
    let routines: Vec<Vec<u8>> = routines.split('|').map(hexadecimal).collect();
    slu::image_of(version, 0x8000, &routines)
}

/// Bytes in hexadecimal.
pub fn hexadecimal(bytes: &str) -> Vec<u8> {
    bytes.split_whitespace().map(|digits| u8::from_str_radix(digits, 16).expect("hexadecimal")).collect()
}

/// What came of a call: its answer, and registers and memory after it.
type Called<T> = (T, Registers, Vec<u8>);
pub type Outcome<T> = Called<Result<T, Refusal>>;

pub fn step(file: &[u8], limits: &Limits, registers: Registers, memory: &[u8]) -> Outcome<Step> {
    step_and_record(file, limits, registers, memory).0
}

/// A step and its record, by which a step back comes to the registers and the memory before it.
pub fn step_and_record(file: &[u8], limits: &Limits, registers: Registers, memory: &[u8]) -> (Outcome<Step>, Record) {
    let library = called(registers, memory, |memory, registers| gate_host::step(file, limits, memory, registers));
    let twin = called(registers, memory, |memory, registers| twin::step(file, limits, memory, registers));
    let ((answer, record), after, left) = agreed(file, library, twin);
    let (back, before, restored) = step_back(&record, after, &left);
    let expected = if answer == Err(Refusal::Memory) { Err(Refusal::Memory) } else { Ok(()) };
    assert_eq!((back, before), (expected, registers), "step back: {file:02X?}");
    assert!(restored == memory, "memory after a step back: {file:02X?}");
    ((answer, after, left), record)
}

pub fn step_back(record: &Record, registers: Registers, memory: &[u8]) -> Outcome<()> {
    let library = called(registers, memory, |memory, registers| gate_host::step_back(record, memory, registers));
    let twin = called(registers, memory, |memory, registers| twin::step_back(record, memory, registers));
    agreed(record, library, twin)
}

pub fn run(file: &[u8], limits: &Limits, registers: Registers, memory: &[u8], budget: u32) -> Outcome<Run> {
    let library = called(registers, memory, |memory, registers| gate_host::run(file, limits, memory, registers, budget));
    let twin = called(registers, memory, |memory, registers| twin::run(file, limits, memory, registers, budget));
    agreed(file, library, twin)
}

fn called<T>(mut registers: Registers, memory: &[u8], call: impl FnOnce(&mut [u8], &mut Registers) -> T) -> Called<T> {
    let mut memory = memory.to_vec();
    let answer = call(&mut memory, &mut registers);
    (answer, registers, memory)
}

fn agreed<T: PartialEq + Debug>(of: &(impl Debug + ?Sized), library: Called<T>, twin: Called<T>) -> Called<T> {
    assert_eq!((&library.0, &library.1), (&twin.0, &twin.1), "{of:02X?}");
    assert!(library.2 == twin.2, "memory: {of:02X?}");
    library
}

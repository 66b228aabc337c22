//! The library keeps nothing between calls: threads that use it at the same time, with images and limits that they share and memories
//! of their own, get what a single thread gets.

use gate_host::cells::{self, LayoutCells};
use gate_host::{
    Accepted, Area, Decoded, History, Limits, Refusal, Refused, Registers, Resumed, Run, Step, Turn, MARKS_ENOUGH, MEMORY_BYTES,
};
use std::sync::Barrier;
use std::thread;

const THREADS: usize = 8;
const ROUNDS: usize = 100;

const LIMITS: Limits = Limits {
    grant: Area { low: 0x0000, high: 0x00FF },
    stack: Area { low: 0x0300, high: 0x03FF },
    second: Area { low: 0x4000, high: 0x401F },
};

/// A store; a loop with calls; a store in the second grant; a loop that does not end; and images that are refused with 12, 7 and 4.
const SMALL: [&[u8]; 7] = [
    b"SLU\x00\x01\x80\x00\x01\x00\x05\xA6\x05\xB7\x10\x81",
    b"SLU\x00\x01\x80\x00\x02\x00\x0B\x00\x0F\xBB\x21\xB7\x21\xB6\x20\xA9\x00\xB7\x20\x81\
      \x3F\x20\x3F\x21\xAE\x00\x64\x9F\xCD\x80\x00\x5A\x26\xF9\x81",
    b"SLU\x00\x02\x90\x00\x01\x00\x0A\x72\x5C\x40\x00\x55\x40\x00\x00\x19\x81",
    b"SLU\x00\x02\xFF\x00\x01\x00\x04\x3C\x10\x20\xFC",
    b"SLU\x00\x01\x80\x00\x01\x00\x04\xC7\x01\x00\x81",
    b"SLU\x00\x01\x80\x00\x01\x00\x04\x27\x01\x88\x81",
    b"SLU\x00\x01\x80\x00\x01\x00\x05\x81",
];

/// A long image, accepted: each routine pushes so many bytes, pops them and returns, over and over.
fn long(routines: usize, pushes: usize) -> Vec<u8> {
    let turn = [vec![0x88; pushes], vec![0x84; pushes]].concat();
    let routine = [turn.repeat(127 / turn.len()), vec![0x81]].concat();
    let mut image = [b"SLU\x00\x02\x80\x00", &[routines as u8][..]].concat();
    (0..routines).for_each(|_| image.extend((routine.len() as u16).to_be_bytes()));
    image.extend(routine.repeat(routines));
    image
}

/// Registers, and the bytes that a routine under these limits may change.
type State = (Registers, Vec<u8>);

#[derive(Debug, PartialEq)]
struct Outcome {
    layout: (u8, LayoutCells),
    check: (Result<Accepted, Refused>, Vec<u16>),
    turn: (Result<Turn, Refused>, Vec<u16>),
    start: (Result<Accepted, Refused>, State),
    steps: Vec<(Result<Step, Refusal>, State)>,
    back: State,
    resume: (Result<Resumed, Refused>, Vec<u16>, State),
    run: (Result<Run, Refusal>, State),
    texts: Vec<Result<Decoded, Refusal>>,
}

/// All that the library does with an image.
fn outcome(image: &[u8], limits: &Limits) -> Outcome {
    let mut layout = LayoutCells::default();
    let layout = (cells::layout(image, &mut layout), layout);
    let (mut marks, mut memory, mut registers) = (vec![0; MARKS_ENOUGH], vec![0; MEMORY_BYTES], Registers::default());
    let state = |registers: &Registers, memory: &[u8]| (*registers, [&memory[..0x0400], &memory[0x4000..0x4020]].concat());
    let check = (gate_host::check(image, limits, &mut marks), marks.clone());
    let turn = (gate_host::turn(image, limits, &mut marks), marks.clone());
    let start = gate_host::start(image, limits, &mut marks, &mut memory, &mut registers);
    let start = (start, state(&registers, &memory));
    let mut history = History::new();
    let step = |_| (history.step(image, limits, &mut memory, &mut registers), state(&registers, &memory));
    let steps = (0..12).map(step).collect();
    while history.step_back(&mut memory, &mut registers).expect("the right memory") {}
    let back = state(&registers, &memory);
    let saved = gate_host::save(&registers, 0).expect("the PC of a start");
    let mut resumed = memory.clone();
    let resume = gate_host::resume(image, limits, &mut marks, &mut resumed, saved, 1_000);
    let resume = (resume, marks.clone(), state(&registers, &resumed));
    let run = (gate_host::run(image, limits, &mut memory, &mut registers, 2_000), state(&registers, &memory));
    let texts = (0..image.len()).map(|at| gate_host::decode(&image[at..], 0x8000)).collect();
    Outcome { layout, check, turn, start, steps, back, resume, run, texts }
}

#[test]
fn threads_get_what_one_gets() {
    let images = [SMALL.map(Vec::from).to_vec(), vec![long(32, 3), long(32, 20), long(31, 63)]].concat();
    let alone: Vec<Outcome> = images.iter().map(|image| outcome(image, &LIMITS)).collect();
    assert_eq!(alone.iter().filter(|outcome| outcome.check.0.is_ok()).count(), 7);
    assert!(alone.iter().all(|outcome| outcome.start.1 == outcome.back));
    let together = Barrier::new(THREADS);
    let work = |thread: usize| {
        together.wait();
        for round in 0..ROUNDS * images.len() {
            let number = (thread + round) % images.len();
            assert!(outcome(&images[number], &LIMITS) == alone[number], "thread {thread}, image {number}");
        }
    };
    let work = &work;
    thread::scope(|scope| (0..THREADS).for_each(|thread| _ = scope.spawn(move || work(thread))));
}

//! The turn of an image: what it comes to, that runs meet it, and that refusals and marks are those of a check.

use gate_host::cells;
use gate_host::{Area, Ending, Limits, Registers, Run, Turn, MARKS_ENOUGH, MEMORY_BYTES};

const LIMITS: Limits =
    Limits { grant: Area { low: 0x0000, high: 0x00FF }, stack: Area { low: 0x0300, high: 0x03FF }, second: Area::NONE };
const NOP: u8 = 0x9D;
const RET: u8 = 0x81;

fn image(routines: &[Vec<u8>]) -> Vec<u8> {
    let mut image = [b"SLU\x00\x02\x80\x00", &[routines.len() as u8][..]].concat();
    routines.iter().for_each(|routine| image.extend((routine.len() as u16).to_be_bytes()));
    image.extend(routines.concat());
    image
}

/// So many routines, the first as given and each other one calling the one before it twice, with so many NOPs in main. Where the
/// first is RET alone, routine n, from 0, has a turn of 2^(n + 2) - 3.
fn doubling(first: &[u8], routines: usize, nops: usize) -> Vec<u8> {
    let mut all = vec![first.to_vec()];
    while all.len() < routines {
        let before: usize = all[..all.len() - 1].iter().map(Vec::len).sum();
        let [high, low] = (0x8000 + before as u16).to_be_bytes();
        all.push(vec![0xCD, high, low, 0xCD, high, low, RET]);
    }
    let main = all.last_mut().expect("a routine");
    main.splice(0..0, vec![NOP; nops]);
    image(&all)
}

fn turn(image: &[u8]) -> Turn {
    gate_host::turn(image, &LIMITS, &mut [0; MARKS_ENOUGH]).expect("accepted")
}

/// A start with these flags, and runs with these budgets.
fn runs(image: &[u8], cc: u8, budgets: &[u32]) -> Vec<Run> {
    let (mut memory, mut registers) = (vec![0; MEMORY_BYTES], Registers { cc, ..Registers::default() });
    gate_host::start(image, &LIMITS, &mut [0; MARKS_ENOUGH], &mut memory, &mut registers).expect("accepted");
    let mut run = |&budget: &u32| gate_host::run(image, &LIMITS, &mut memory, &mut registers, budget).expect("good limits");
    budgets.iter().map(&mut run).collect()
}

#[test]
fn code_without_jumps_takes_just_its_turn() {
    for routines in 1..=14 {
        let image = doubling(&[RET], routines, 0);
        let steps = (1 << (routines + 1)) - 3;
        assert_eq!(turn(&image), Turn::Within(steps));
        let ended = |budgets: &[u32]| runs(&image, 0, budgets).last().map(|run| (run.ending, run.steps));
        assert_eq!(ended(&[steps]), Some((Ending::Finished, steps)));
        assert_eq!(ended(&[steps - 1]), Some((Ending::Spent, steps - 1)));
        assert_eq!(ended(&[steps / 3, steps - steps / 3]), Some((Ending::Finished, steps - steps / 3)));
    }
}

#[test]
fn a_jump_over_something_takes_less() {
    let image = image(&[vec![0x27, 0x02, NOP, NOP, RET]]); // JREQ
    assert_eq!(turn(&image), Turn::Within(4));
    let steps = |cc| runs(&image, cc, &[4]).into_iter().map(|run| (run.ending, run.steps)).collect::<Vec<_>>();
    assert_eq!((steps(0x00), steps(0x02)), (vec![(Ending::Finished, 4)], vec![(Ending::Finished, 2)]));
}

#[test]
fn there_is_none_where_a_jump_goes_to_its_own_or_a_lower_address() {
    let of = |routines: &[&[u8]]| turn(&image(&routines.iter().map(|routine| routine.to_vec()).collect::<Vec<_>>()));
    assert_eq!([of(&[&[0x20, 0xFE]]), of(&[&[NOP, 0x20, 0xFD]])], [Turn::None; 2]); // JRA
    assert_eq!(of(&[&[0x20, 0x00, RET]]), Turn::Within(2)); // to the next instruction
    for jump in 0x21..=0x2F {
        // JRF, which never jumps, and those on flags
        assert_eq!([of(&[&[jump, 0xFE, RET]]), of(&[&[NOP, jump, 0xFD, RET]])], [Turn::None; 2], "{jump:02X}");
        assert_eq!(of(&[&[jump, 0x00, RET]]), Turn::Within(2), "{jump:02X}");
    }
    for bit in 0x00..=0x0F {
        // BTJT and BTJF
        let to = |distance| of(&[&[NOP, 0x72, bit, 0x00, 0x10, distance, RET]]);
        assert_eq!([to(0xFB), to(0xFA), to(0x00)], [Turn::None, Turn::None, Turn::Within(3)], "{bit:02X}");
    }
    assert_eq!(of(&[&[0x26, 0xFE, RET], &[RET]]), Turn::None); // in a routine that nobody calls
}

#[test]
fn it_is_over_above_32_bits_and_none_before_that() {
    assert_eq!(turn(&doubling(&[RET], 31, 2)), Turn::Within(4_294_967_295));
    assert_eq!(turn(&doubling(&[RET], 31, 3)), Turn::Over);
    assert_eq!(turn(&doubling(&[RET], 32, 0)), Turn::Over);
    assert_eq!(turn(&doubling(&[0x21, 0xFE, RET], 32, 0)), Turn::None);
}

/// An image, limits and marks for each refusal of a check, and images that are accepted.
fn verdicts() -> Vec<(Vec<u8>, Limits, usize)> {
    let meeting = Limits { grant: LIMITS.stack, ..LIMITS };
    let good = image(&[vec![RET]]);
    let mut verdicts = vec![
        (good.clone(), meeting, 9),
        (good[1..].to_vec(), LIMITS, 9),
        ([&good[..4], &[3], &good[5..]].concat(), LIMITS, 9),
        (good[..good.len() - 1].to_vec(), LIMITS, 9),
        (good, LIMITS, 0),
    ];
    let codes: [&[u8]; 14] = [
        &[0x20, 0x01, NOP, RET],
        &[0x27, 0x01, 0x88, RET],
        &[NOP, 0x8E],
        &[NOP, 0x72],
        &[NOP, 0x27, 0x01, 0xA6, 0x00, RET],
        &[NOP, 0x84, RET],
        &[NOP, 0xCF, 0x00, 0xFF, RET],
        &[NOP, 0x20, 0x7F],
        &[NOP, 0xCD, 0x80, 0x00, RET],
        &[NOP, NOP],
        &[0x52, 0xFF, 0x5B, 0xFF, RET],
        &[0x88, 0x84, RET],
        &[0x88, 0x84, 0x20, 0xFC],
        &[0x21, 0x00, RET],
    ];
    verdicts.extend(codes.map(|code| (image(&[code.to_vec()]), LIMITS, 9)));
    verdicts
}

#[test]
fn refusals_and_marks_are_those_of_a_check() {
    let mut numbers = Vec::new();
    for (image, limits, lent) in verdicts() {
        let (mut checked, mut marks) = (vec![0xA5A5; lent], vec![0xA5A5; lent]);
        let verdict = gate_host::check(&image, &limits, &mut checked).map(|_| ());
        let found = gate_host::turn(&image, &limits, &mut marks).map(|_| ());
        assert_eq!((found, marks), (verdict, checked), "{image:02X?}");
        numbers.extend(found.err().map(|refused| refused.refusal.number()));
    }
    numbers.sort();
    assert_eq!(numbers, (1..=16).collect::<Vec<u8>>());
}

/// Neither cell keeps what it held before.
#[test]
fn both_cells_are_written_whatever_the_answer() {
    let answer = |image: &[u8]| {
        let (mut offset, mut turn) = ([0xA5A5], [0xA5A5_A5A5]);
        let number = cells::turn(image, &LIMITS, &mut [0; MARKS_ENOUGH], &mut offset, &mut turn);
        (number, offset[0], turn[0])
    };
    assert_eq!(answer(&image(&[vec![NOP, RET]])), (cells::OK, 0, 2));
    assert_eq!(answer(&image(&[vec![NOP, 0x20, 0xFD]])), (cells::NO_TURN, 0, 0));
    assert_eq!(answer(&doubling(&[RET], 32, 0)), (cells::OVER, 0, 0));
    assert_eq!(answer(&image(&[vec![NOP, 0x8E]])), (8, 1, 0));
    assert_eq!(answer(b"SLU"), (2, 0, 0));
}

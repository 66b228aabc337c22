//! W-210: the turn of an image, and that it finishes within it. Through the library and through the twin.

mod both;
mod checks;

use both::{assembled, run, step, BEGIN, LIMITS};
use checks::{accepted, check, check_and_marks, refused, BLANK};
use gate_host::{Area, Ending, Limits, Refused, Registers, Run, Step, Turn, MARKS_ENOUGH, MEMORY_BYTES};
use gate_twin::{self as twin, slu};

/// The turn of an image, and the marks. Refusals and marks are those of a check.
fn turn_and_marks(file: &[u8], limits: &Limits, marks: usize) -> (Result<Turn, Refused>, Vec<u16>) {
    let (mut one, mut other) = (vec![BLANK; marks], vec![BLANK; marks]);
    let answer = gate_host::turn(file, limits, &mut one);
    assert_eq!(answer, twin::turn(file, limits, &mut other), "{file:02X?}");
    let (verdict, checked) = check_and_marks(file, limits, marks);
    assert_eq!((answer.err(), &one, &other), (verdict.err(), &checked, &checked), "{file:02X?}");
    (answer, one)
}

fn turn(file: &[u8]) -> Result<Turn, Refused> {
    turn_and_marks(file, &LIMITS, MARKS_ENOUGH).0
}

/// Routines, and their turn in either version.
fn all(table: &[(&str, Turn)]) {
    for &(routines, expected) in table {
        for version in [1, 2] {
            assert_eq!(turn(&assembled(version, routines)), Ok(expected), "{routines} in version {version}");
        }
    }
}

#[test]
fn straight_code() {
    all(&[
        ("81", Turn::Within(1)),
        ("9D 81", Turn::Within(2)),
        ("A6 05 B7 10 81", Turn::Within(3)),
        ("88 84 81", Turn::Within(3)),
    ]);
}

#[test]
fn calls() {
    all(&[
        ("88 84 81 | CD 80 00 81", Turn::Within(5)),
        // A callee counts each time that it is called.
        ("9D 81 | CD 80 00 CD 80 00 81", Turn::Within(7)),
        // Two levels, and a routine that is called on both.
        ("81 | CD 80 00 81 | CD 80 01 81", Turn::Within(5)),
        ("81 | CD 80 00 81 | CD 80 01 CD 80 00 81", Turn::Within(7)),
        // The last routine is main, and one that nobody calls does not count.
        ("9D 9D 9D 81 | 81", Turn::Within(1)),
        ("9D 81 | 81 | CD 80 02 81", Turn::Within(3)),
    ]);
}

/// A call goes to a lower address, and is no jump.
#[test]
fn relative_calls() {
    for (routines, expected) in [("81 | AD FD 81", 3), ("9D 81 | AD FC AD FA 81", 7), ("81 | AD FD 81 | AD FB CD 80 00 81", 7)] {
        assert_eq!(turn(&assembled(1, routines)), Ok(Turn::Within(expected)), "{routines}");
    }
    assert_eq!(turn(&assembled(2, "81 | AD FD 81")).err(), refused(8, 1).err());
}

/// Every instruction counts, whether or not a jump leads over it.
#[test]
fn jumps_forward() {
    all(&[
        ("27 01 9D 81", Turn::Within(3)),
        ("27 01 81 81", Turn::Within(3)),
        ("27 02 20 01 9D 81", Turn::Within(4)),
        ("81 | 27 03 CD 80 00 81", Turn::Within(4)),
        // The next instruction is above the jump's own address.
        ("27 00 81", Turn::Within(2)),
        ("20 00 81", Turn::Within(2)),
        ("21 00 81", Turn::Within(2)),
        ("72 00 00 10 00 81", Turn::Within(2)),
        ("72 01 00 10 01 9D 81", Turn::Within(3)),
    ]);
    let farthest = [&[0x27, 0x7F][..], &[0x9D; 127], &[0x81]].concat();
    assert_eq!(turn(&slu::image_of(2, 0x8000, &[farthest])), Ok(Turn::Within(129)));
    let at_the_last_addresses = slu::image_of(2, 0xFFFD, &[[0x27, 0x00, 0x81]]);
    assert_eq!(turn(&at_the_last_addresses), Ok(Turn::Within(2)));
}

#[test]
fn jumps_back() {
    for routines in [
        // To the jump's own address.
        "20 FE",
        "26 FE 81",
        "9D 26 FE 81",
        // To a lower one.
        "9D 20 FD",
        "9D 26 FD 81",
        "20 01 4A 26 FD 81",
        // JRF never jumps, and counts.
        "21 FE 81",
        "9D 21 FD 81",
        // BTJT and BTJF, of five bytes.
        "72 00 00 10 FB 81",
        "72 01 00 10 FB 81",
        "9D 72 0E 00 10 FA 81",
        "9D 72 0F 00 10 FA 81",
        // In a callee, in a routine that nobody calls, and beside a jump forward.
        "26 FE 81 | CD 80 00 81",
        "26 FE 81 | 81",
        "81 | 21 FE 81 | CD 80 00 81",
        "27 00 26 FE 81",
        "26 FE 27 00 81",
    ] {
        all(&[(routines, Turn::None)]);
    }
    let farthest = [&[0x9D; 126][..], &[0x26, 0x80, 0x81]].concat();
    assert_eq!(turn(&slu::image_of(2, 0x8000, &[farthest])), Ok(Turn::None));
}

/// So many routines, each but the first of which calls the one before `calls` times and then has a NOP. `before` comes first in main,
/// and so many NOPs come last.
///
/// Where each calls four times the turns of the routines but main are 4 - 2, 4^2 - 2, 4^3 - 2 and so on. Main's is 4^routines - 3,
/// and 1 more for each NOP and for each instruction of `before`.
struct Nested<'a> {
    routines: usize,
    calls: usize,
    first: &'a [u8],
    before: &'a [u8],
    nops: usize,
}

/// The greatest turn that is not over: 4^16 - 1.
const GREATEST: Nested = Nested { routines: 16, calls: 4, first: &[0x9D, 0x81], before: &[], nops: 2 };

impl Nested<'_> {
    fn routines(&self) -> Vec<Vec<u8>> {
        let mut callee = 0x8000u16;
        let mut routines = vec![self.first.to_vec()];
        for number in 1..self.routines {
            let [high, low] = callee.to_be_bytes();
            callee += routines[number - 1].len() as u16;
            let calls = [0xCD, high, low].repeat(self.calls);
            let (before, nops) = if number + 1 == self.routines { (self.before, self.nops) } else { (&[][..], 1) };
            routines.push([before, &calls, &vec![0x9D; nops], &[0x81]].concat());
        }
        routines
    }

    fn image(&self) -> Vec<u8> {
        slu::image_of(2, 0x8000, &self.routines())
    }

    fn turn(&self) -> Result<Turn, Refused> {
        turn(&self.image())
    }
}

#[test]
fn border_of_32_bits() {
    assert_eq!(Nested { routines: 3, nops: 0, ..GREATEST }.turn(), Ok(Turn::Within(61)));
    assert_eq!(Nested { nops: 0, ..GREATEST }.turn(), Ok(Turn::Within(4_294_967_293)));
    assert_eq!(Nested { nops: 1, ..GREATEST }.turn(), Ok(Turn::Within(4_294_967_294)));
    assert_eq!(GREATEST.turn(), Ok(Turn::Within(4_294_967_295)));
    // 4,294,967,296 and more, which 32 bits would take for 0, 1 and 5.
    for nops in [3, 4, 8] {
        assert_eq!(Nested { nops, ..GREATEST }.turn(), Ok(Turn::Over), "{nops}");
    }
}

#[test]
fn beyond_64_and_128_bits() {
    // 2^64 - 1, 2^64, and 2^64 + 5, which 64 bits would take for 5.
    for nops in [2, 3, 8] {
        assert_eq!(Nested { routines: 32, nops, ..GREATEST }.turn(), Ok(Turn::Over), "{nops}");
    }
    // Above 42^31, and so above 2^167.
    assert_eq!(Nested { routines: 32, calls: 42, ..GREATEST }.turn(), Ok(Turn::Over));
}

#[test]
fn main_alone_is_over_or_not() {
    let mut routines = Nested { nops: 3, ..GREATEST }.routines();
    routines.push(vec![0x81]);
    assert_eq!(turn(&slu::image_of(2, 0x8000, &routines)), Ok(Turn::Within(1)));
}

#[test]
fn none_before_over() {
    for back in [&[0x26, 0xFE][..], &[0x21, 0xFE], &[0x72, 0x01, 0x00, 0x10, 0xFB]] {
        assert_eq!(Nested { nops: 3, before: back, ..GREATEST }.turn(), Ok(Turn::None), "{back:02X?}");
        assert_eq!(Nested { nops: 3, first: &[back, &[0x81]].concat(), ..GREATEST }.turn(), Ok(Turn::None), "{back:02X?}");
        assert_eq!(Nested { routines: 32, before: back, ..GREATEST }.turn(), Ok(Turn::None), "{back:02X?}");
    }
}

fn stack_from(low: u16) -> Limits {
    Limits { stack: Area { low, ..LIMITS.stack }, ..LIMITS }
}

#[test]
fn refusals_and_marks() {
    for (file, limits, marks, expected, left) in [
        (assembled(2, "88 84 81"), LIMITS, 4, None, &[1, 2, 1, BLANK][..]),
        (assembled(2, "26 FE 81"), LIMITS, 4, None, &[1, 0, 1, BLANK]),
        (assembled(2, "81"), stack_from(0), 1, Some((1, 0)), &[BLANK]),
        (b"SL".to_vec(), LIMITS, 1, Some((2, 0)), &[BLANK]),
        (assembled(3, "81"), LIMITS, 1, Some((3, 0)), &[BLANK]),
        (slu::image(2, 0x8000, &[], &[]), LIMITS, 1, Some((4, 0)), &[BLANK]),
        (assembled(2, "9D 81"), LIMITS, 1, Some((5, 0)), &[BLANK]),
        (assembled(2, "81"), stack_from(0x03FF), 2, Some((16, 0)), &[0, BLANK]),
    ] {
        let (answer, after) = turn_and_marks(&file, &limits, marks);
        assert_eq!(answer.err(), expected.and_then(|(number, offset)| refused(number, offset).err()), "{file:02X?}");
        assert_eq!(after, left, "{file:02X?}");
    }
    for (routines, number, offset) in [
        ("20 01 9D 81", 6, 2),
        ("81 | 27 01 88 81", 7, 1),
        ("9D 8E 81", 8, 1),
        ("A6", 9, 0),
        // Into the jump itself, above its own address.
        ("26 FF 81", 10, 0),
        ("84 81", 11, 0),
        ("C7 01 00 81", 12, 0),
        ("20 7F", 13, 0),
        ("CD 80 00 81", 14, 0),
        ("9D", 15, 0),
        // A refusal comes before none, also where the jump back stands before it.
        ("26 FE 8E", 8, 2),
        ("26 FE 81 | 9D", 15, 3),
    ] {
        assert_eq!(turn(&assembled(2, routines)).err(), refused(number, offset).err(), "{routines}");
    }
}

/// 2 bytes for the address that main returns to, and 2 for each level of calls.
#[test]
fn stack_of_just_the_need() {
    let file = GREATEST.image();
    assert_eq!(check(&file, &stack_from(0x03E0), MARKS_ENOUGH), accepted(32, 93));
    assert_eq!(turn_and_marks(&file, &stack_from(0x03E0), MARKS_ENOUGH).0, Ok(Turn::Within(4_294_967_295)));
    assert_eq!(turn_and_marks(&file, &stack_from(0x03E1), MARKS_ENOUGH).0.err(), refused(16, 0).err());
}

/// At main's first byte, as a start leaves registers with this CC.
fn at_main(file: &[u8], cc: u8) -> Registers {
    let image = twin::Image::parse(file).expect("an image");
    Registers { cc, pc: image.base + image.main() as u32, ..BEGIN }
}

/// How a run from main's first byte ends, and its steps.
fn ran(file: &[u8], cc: u8, budget: u32) -> (Ending, u32) {
    let (answer, ..) = run(file, &LIMITS, at_main(file, cc), &[0; MEMORY_BYTES], budget);
    let Run { ending, steps, .. } = answer.expect("not refused");
    (ending, steps)
}

#[test]
fn straight_code_takes_just_the_turn() {
    for file in [
        assembled(2, "81"),
        assembled(2, "9D 81 | CD 80 00 CD 80 00 81"),
        assembled(1, "81 | AD FD 81 | AD FB CD 80 00 81"),
        Nested { routines: 8, ..GREATEST }.image(),
    ] {
        let Ok(Turn::Within(turn)) = turn(&file) else { panic!("{file:02X?}") };
        assert_eq!(ran(&file, 0, turn), (Ending::Finished, turn), "{file:02X?}");
        assert_eq!(ran(&file, 0, turn + 1), (Ending::Finished, turn), "{file:02X?}");
        assert_eq!(ran(&file, 0, turn - 1), (Ending::Spent, turn - 1), "{file:02X?}");
        // Main's RET is left.
        let (_, before, memory) = run(&file, &LIMITS, at_main(&file, 0), &[0; MEMORY_BYTES], turn - 1);
        let (answer, after, _) = step(&file, &LIMITS, before, &memory);
        assert_eq!((answer, after.pc), (Ok(Step::Made { cycles: 4 }), 0), "{file:02X?}");
    }
}

#[test]
fn jumps_forward_take_the_turn_at_most() {
    const Z: u8 = 0x02;
    for (routines, turn_of_it, without, with) in [
        ("27 01 9D 81", 3, 3, 2),
        ("26 02 27 00 81", 3, 2, 3),
        ("9D 9D 81 | 27 03 CD 80 00 81", 6, 6, 2),
        // JRF never jumps.
        ("21 01 9D 81", 3, 3, 3),
        // Bit 0 of 0010 is 0.
        ("72 01 00 10 01 9D 81", 3, 2, 2),
        ("72 00 00 10 01 9D 81", 3, 3, 3),
    ] {
        let file = assembled(2, routines);
        assert_eq!(turn(&file), Ok(Turn::Within(turn_of_it)), "{routines}");
        assert_eq!(ran(&file, 0, turn_of_it), (Ending::Finished, without), "{routines}");
        assert_eq!(ran(&file, Z, turn_of_it), (Ending::Finished, with), "{routines}");
    }
    // Main jumps over its calls where Z is 0, and so finishes soon though it is over.
    let file = Nested { nops: 3, before: &[0x26, 0x0F], ..GREATEST }.image();
    assert_eq!(turn(&file), Ok(Turn::Over));
    assert_eq!(ran(&file, 0, u32::MAX), (Ending::Finished, 2));
    assert_eq!(ran(&file, Z, 100_000), (Ending::Spent, 100_000));
}

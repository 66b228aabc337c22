//! `gate list`.

use crate::binary::{accepted, compare, count, examples, file, gate, words, Answer};
use crate::drawing::{undrawn, Arrow, Rows};
use crate::maker::{made, Made};
use gate_host::{Area, Limits, MARKS_ENOUGH};
use gate_twin::random::Random;
use gate_twin::{self as twin, slu, Image, Instruction};
use std::collections::BTreeSet;

const IMAGES: u64 = 2_000;

const LIMITS: Limits =
    Limits { grant: Area { low: 0x0000, high: 0x00FF }, stack: Area { low: 0x0300, high: 0x03FF }, second: Area::NONE };

#[test]
fn examples_are_listed_as_gatecheck_prints_them() {
    for (examples, status) in [(accepted(), 0), (examples("refused"), 1)] {
        assert!(examples.len() > 7);
        for example in examples {
            let answer = gate(&words("list", &example.limits, &[], &example.image));
            assert_eq!((answer.out, answer.status), (example.verdict, status), "{}", example.name);
        }
    }
}

#[test]
fn examples_are_drawn_as_stored() {
    for example in accepted() {
        let answer = gate(&words("list", &example.limits, &["--flow"], &example.image));
        assert_eq!(answer.status, 0);
        compare("listed", &example.name, &answer.out);
    }
    assert_eq!(count("listed"), accepted().len());
}

#[test]
fn a_refused_image_is_not_drawn() {
    for example in examples("refused") {
        let answer = gate(&words("list", &example.limits, &["--flow"], &example.image));
        assert_eq!((answer.out, answer.status), (example.verdict, 1), "{}", example.name);
    }
}

/// What the twin says of an image, as `gate list` prints it.
fn listed(image: &[u8], limits: &Limits) -> (String, i32) {
    let mut marks = [0; MARKS_ENOUGH];
    match twin::check(image, limits, &mut marks) {
        Ok(accepted) => {
            let mut lines = format!("accepted {} {}\n", accepted.need, accepted.count);
            each_instruction(image, |address, offset, instruction, length| {
                let text = twin::text(instruction, length, address);
                lines += &format!("{address:04X} {} {text}\n", marks[offset] - 1);
            });
            (lines, 0)
        }
        Err(refused) => (format!("refused {} {}\n", refused.refusal.number(), refused.offset), 1),
    }
}

/// Address, offset, instruction and length of each instruction of an accepted image, by the twin.
fn each_instruction(image: &[u8], mut each: impl FnMut(u16, usize, Instruction, usize)) {
    let image = Image::parse(image).expect("a layout");
    let mut offset = 0;
    while offset < image.code.len() {
        let (instruction, length) = image.decode(&image.code[offset..]).expect("an instruction");
        each((image.base + offset as u32) as u16, offset, instruction, length);
        offset += length;
    }
}

/// The calls of an accepted image, by the twin: the address of each, and the routine's number from 1.
fn calls(image: &[u8]) -> BTreeSet<(u16, usize)> {
    let mut calls = BTreeSet::new();
    let parsed = Image::parse(image).expect("a layout");
    each_instruction(image, |address, _, instruction, _| {
        if let Instruction::Call(target) = instruction {
            let first = (u32::from(target) - parsed.base) as usize;
            let number = parsed.routines().position(|(begin, _)| begin == first).expect("a routine");
            calls.insert((address, number + 1));
        }
    });
    calls
}

/// The calls that are remarked on.
fn remarked(flow: &str) -> BTreeSet<(u16, usize)> {
    let remarks = flow.lines().filter_map(|line| line.split_once("; calls routine "));
    remarks.map(|(line, number)| (address(undrawn(line)), number.parse().expect("a number"))).collect()
}

/// The address that a text begins with.
fn address(text: &str) -> u16 {
    u16::from_str_radix(&text[..4], 16).expect("an address")
}

/// The jumps of an accepted image, by the twin.
fn jumps(image: &[u8]) -> BTreeSet<Arrow> {
    let mut jumps = BTreeSet::new();
    each_instruction(image, |address, _, instruction, length| {
        if let Instruction::Jump(_, offset) | Instruction::BitJump { offset, .. } = instruction {
            let target = i32::from(address) + length as i32 + i32::from(offset);
            jumps.insert((address, target as u16));
        }
    });
    jumps
}

/// The arrows that are drawn, and those that are written at the right.
fn drawn(flow: &str) -> (BTreeSet<Arrow>, BTreeSet<Arrow>) {
    let (mut drawn, mut written) = (BTreeSet::new(), BTreeSet::new());
    for routine in flow.split("\n\n").skip(1) {
        let lines: Vec<&str> = routine.lines().skip(1).collect();
        let rows = Rows::read(&lines);
        assert!(rows.columns() <= 12);
        drawn.extend(rows.arrows());
        for line in &lines {
            if let Some((before, target)) = line.split_once("; -> ") {
                written.insert((address(undrawn(before)), address(target)));
            }
        }
    }
    (drawn, written)
}

/// The lines of a flow without what is drawn, remarks and headings.
fn bare(flow: &str) -> String {
    let lines = flow.lines().filter(|line| !line.is_empty() && !line.starts_with("routine ") && !line.starts_with("main, "));
    lines.map(|line| undrawn(line).split(';').next().unwrap_or("").trim_end().to_owned() + "\n").collect()
}

#[test]
fn random_images_are_listed_as_the_twin_sees_them() {
    let (mut all, mut left_out, mut called) = (0, 0, 0);
    for number in 0..IMAGES {
        let Made { image, limits } = made(number);
        let path = file("listed.slu", &image);
        let (expected, status) = listed(&image, &limits);
        assert_eq!(status, 0, "image {number}: {expected}");
        let answer = gate(&words("list", &limits, &[], &path));
        assert_eq!((answer.out, answer.status), (expected.clone(), 0), "image {number}");

        let flow = gate(&words("list", &limits, &["--flow"], &path)).out;
        assert_eq!(bare(&flow), expected, "image {number}");
        let (drawn, written) = drawn(&flow);
        assert!(drawn.is_disjoint(&written), "image {number}");
        assert_eq!(&drawn | &written, jumps(&image), "image {number}\n{flow}");
        all += drawn.len();
        left_out += written.len();
        let remarked = remarked(&flow);
        assert_eq!(remarked, calls(&image), "image {number}");
        called += remarked.len();
    }
    assert!(all > 10_000 && left_out > 100 && called > 100, "{all} drawn, {left_out} left out, {called} calls");
}

#[test]
fn damaged_images_are_refused_as_the_twin_refuses_them() {
    let mut seen = BTreeSet::new();
    for number in 0..IMAGES {
        let Made { mut image, limits } = made(number);
        let mut random = Random::new(25, number);
        let at = if random.one_in(4) { random.below(8) } else { random.below(image.len()) };
        image[at] = random.byte();
        let path = file("damaged.slu", &image);
        let (expected, status) = listed(&image, &limits);
        let answer = gate(&words("list", &limits, &[], &path));
        seen.insert(expected.split(' ').take(if status == 0 { 1 } else { 2 }).collect::<String>());
        assert_eq!((answer.out, answer.status), (expected, status), "image {number}");
    }
    assert!(seen.len() > 10, "{seen:?}");
}

fn flow(routines: &[&[u8]]) -> Answer {
    let path = file(&format!("flow-{}.slu", routines.concat().len()), &slu::image_of(2, 0x8000, routines));
    gate(&words("list", &LIMITS, &["--flow"], &path))
}

#[test]
fn of_forty_jumps_one_in_another_twelve_are_drawn_and_do_not_cross() {
    let jump = |number: u8| [0x27, 117 - 3 * number];
    let code: Vec<u8> = (0..40).flat_map(jump).chain([0x9D; 40]).chain([0x81]).collect();
    let answer = flow(&[&code]);
    let (drawn, written) = drawn(&answer.out);
    assert_eq!((drawn.len(), written.len()), (12, 28), "{}", answer.out);
    // A crossing is a lane's line within a stroke.
    assert!(!["-|-", "=|="].iter().any(|crossing| answer.out.contains(crossing)), "{}", answer.out);
    assert!(drawn.iter().all(|(jump, _)| *jump >= 0x8000 + 2 * 28), "the shortest are drawn");
}

#[test]
fn a_row_that_leaves_and_arrives_says_which_lane_is_which() {
    let answer = flow(&[&[0x27, 0x02, 0x26, 0xFE, 0x26, 0xFA, 0x27, 0xFC, 0x20, 0xF6]]);
    let expected = [
        "accepted 2 5",
        "",
        "main, 8000-8009",
        r"/=/----> 8000 0 JREQ $8004",
        r"| | @==> 8002 0 JRNE $8002",
        r"+-+====> 8004 0 JRNE $8000",
        r"| \----- 8006 0 JREQ $8004",
        r"\------- 8008 0 JRA $8000",
    ];
    assert_eq!(answer.out.lines().collect::<Vec<_>>(), expected);
}

//! `gate trace`.

use crate::binary::{accepted, compare, count, examples, file, gate, words, Answer};
use crate::maker::{made, Made};
use crate::run::{Ending, Expected, Step};
use gate_host::{Area, Limits, MEMORY_BYTES};
use gate_twin::random::Random;
use gate_twin::slu;

const IMAGES: u64 = 400;

pub const LIMITS: Limits =
    Limits { grant: Area { low: 0x0000, high: 0x00FF }, stack: Area { low: 0x0300, high: 0x03FF }, second: Area::NONE };

/// Levels, heads and openings for the examples, which share their addresses.
pub fn levels() -> Vec<u8> {
    let mut memory = vec![0; MEMORY_BYTES];
    memory[0x10..0x1F]
        .copy_from_slice(&[0x90, 0x62, 0x20, 0x00, 0x18, 0x00, 0x04, 0x03, 0x80, 0x40, 0x00, 0x44, 0x00, 0x8A, 0x61]);
    memory[0x20..0x30].copy_from_slice(b"\x2E\x2A\x25\x21\x1C\x19\x1D\x22\x60\x61\x63\x62\x62\x61\x62\x63");
    memory[0x30..0x38].copy_from_slice(&[0x10, 0x60, 0x44, 0x08, 0x70, 0x43, 0x10, 0x61]);
    memory[0x4000..0x4004].copy_from_slice(&[0x02, 0x00, 0x00, 0xFF]);
    memory
}

#[test]
fn examples_are_traced_as_stored() {
    let memory = file("levels.bin", &levels());
    for example in accepted() {
        let path = memory.to_str().expect("a path");
        let more = ["--memory", path, "--registers", "A=12,CC=28", "--steps", "100", "--back", "2"];
        let answer = gate(&words("trace", &example.limits, &more, &example.image));
        assert_eq!((answer.status, answer.err.as_str()), (0, ""), "{}", example.name);
        compare("traced", &example.name, &answer.out);
    }
    assert_eq!(count("traced"), accepted().len() + 1, "these, and one in JSON");
}

#[test]
fn an_example_is_traced_in_json_as_stored() {
    for example in accepted().into_iter().filter(|example| example.name == "fish-passage") {
        let answer = gate(&words("trace", &example.limits, &["--json", "--back", "1"], &example.image));
        assert_eq!(answer.status, 0);
        compare("traced", "fish-passage-json", &answer.out);
    }
}

#[test]
fn refused_images_are_not_started() {
    for example in examples("refused") {
        let verdict: Vec<&str> = example.verdict.split_whitespace().collect();
        let plain = gate(&words("trace", &example.limits, &[], &example.image));
        assert!(plain.out.starts_with(&format!("refused with {}", verdict[1])), "{}", plain.out);
        assert_eq!((plain.status, plain.out.lines().count()), (1, 1), "{}", example.name);
        let json = gate(&words("trace", &example.limits, &["--json"], &example.image));
        let begin = format!("{{\"kind\":\"refused\",\"number\":{},\"offset\":{},\"text\":", verdict[1], verdict[2]);
        assert!(json.out.starts_with(&begin), "{}", json.out);
        assert_eq!((json.status, json.out.lines().count()), (1, 1), "{}", example.name);
    }
}

/// A line of a step as it is printed, taken apart by its columns.
fn row(line: &str) -> Step {
    let hex = |text: &str| u32::from_str_radix(text, 16).expect("hexadecimal");
    let mut flags = [0, 0];
    for (pair, bit) in line.as_bytes()[44..58].chunks(2).zip([7, 5, 4, 3, 2, 1, 0]) {
        flags[0] |= u8::from(pair[0] != b'-') << bit;
        flags[1] |= u8::from(pair[1] == b'*') << bit;
    }
    let mut numbers = line[58..].split_whitespace();
    let (cycles, sum) = (numbers.next().expect("cycles"), numbers.next().expect("a sum"));
    let stored: Vec<&str> = numbers.collect();
    Step {
        address: hex(&line[..4]),
        text: line[5..25].trim_end().into(),
        registers: [&line[26..28], &line[29..33], &line[34..38], &line[39..43]].map(hex),
        flags: flags[0],
        changed: flags[1],
        stored: stored
            .chunks(2)
            .map(|byte| (hex(byte[0].trim_end_matches(':')), hex(&byte[1][..2]) as u8, hex(&byte[1][4..]) as u8))
            .collect(),
        cycles: cycles.parse().expect("a number"),
        sum: sum.parse().expect("a number"),
    }
}

#[test]
fn every_state_is_the_librarys_and_the_twins() {
    let mut endings = [0; 3];
    let mut steps = 0;
    for number in 0..IMAGES {
        let Made { image, limits } = made(number);
        let mut random = Random::new(26, number);
        let expected = Expected::any(&image, &limits, &mut random);
        let (image, memory) = (file("traced.slu", &image), file("traced.bin", &expected.memory));
        let more = expected.words(memory.to_str().expect("a path"));
        let mut more: Vec<&str> = more.iter().map(String::as_str).collect();

        let plain = gate(&words("trace", &limits, &more, &image));
        assert_eq!((plain.status, plain.err.as_str()), (0, ""), "image {number}");
        compare_plain(&plain, &expected, number);
        more.push("--json");
        let json = gate(&words("trace", &limits, &more, &image));
        assert_eq!(json.out, expected.json(), "image {number}");
        endings[expected.ending as usize] += 1;
        steps += expected.steps.len();
    }
    assert!(endings.iter().all(|&times| times > 20) && steps > 5_000, "{endings:?}, {steps} steps");
}

fn compare_plain(plain: &Answer, expected: &Expected, number: u64) {
    let lines: Vec<&str> = plain.out.lines().collect();
    let (count, undone) = (expected.steps.len(), expected.undone.len());
    for (line, step) in lines[2..].iter().zip(&expected.steps) {
        assert_eq!(&row(line), step, "image {number}: {line}");
    }
    let totals = format!("steps {count}, cycles {}", expected.steps.last().map_or(0, |step| step.sum));
    let before = format!("before {:04X}", expected.pc);
    let end = match expected.ending {
        Ending::Finished => format!("finished: {totals}"),
        Ending::Break => format!("break {before}: {totals}"),
        Ending::Steps => format!("stopped {before}, as --steps says: {totals}"),
    };
    assert_eq!(lines[2 + count], end, "image {number}");
    for (line, step) in lines[3 + count..].iter().zip(&expected.undone) {
        assert_eq!(&row(line), step, "image {number}: {line}");
    }
    assert_eq!(lines.len(), 3 + count + undone + usize::from(expected.back > 0), "image {number}");
}

/// What is printed for a routine, started under `LIMITS`.
fn trace(name: &str, routine: &[u8], more: &[&str]) -> Answer {
    gate(&words("trace", &LIMITS, more, &file(name, &slu::image_of(2, 0x8000, &[routine]))))
}

#[test]
fn a_loop_is_left_after_ten_thousand_steps_or_as_many_as_are_asked_for() {
    let default = trace("loop.slu", &[0x20, 0xFE], &[]);
    assert_eq!(default.out.lines().count(), 10_003);
    let end = "stopped before 8000, since --steps 10000 is the default: steps 10000, cycles 20000\n";
    assert!(default.out.ends_with(end) && default.status == 0);
    let asked = trace("loop.slu", &[0x20, 0xFE], &["--steps", "3"]);
    assert!(asked.out.ends_with("stopped before 8000, as --steps says: steps 3, cycles 6\n"), "{}", asked.out);
    let none = trace("loop.slu", &[0x20, 0xFE], &["--steps=0", "--back=9"]);
    assert!(none.out.ends_with("steps 0, cycles 0\nback before 8000: steps 0, cycles 0\n"), "{}", none.out);
}

#[test]
fn a_routine_that_finishes_with_the_last_step_has_finished() {
    let answer = trace("ret.slu", &[0x9D, 0x81], &["--steps", "2"]);
    assert!(answer.out.ends_with("finished: steps 2, cycles 5\n"), "{}", answer.out);
}

#[test]
fn the_first_of_several_breaks_stops() {
    let answer = trace("breaks.slu", &[0x9D, 0x9D, 0x9D, 0x81], &["--break", "8003", "--break", "8002"]);
    assert!(answer.out.ends_with("break before 8002: steps 2, cycles 2\n"), "{}", answer.out);
}

#[test]
fn what_cannot_be_tried_is_said() {
    let short = file("short.bin", &[0; MEMORY_BYTES - 1]);
    let long = file("long.bin", &[0; MEMORY_BYTES + 1]);
    let (short, long) = (short.to_str().expect("a path"), long.to_str().expect("a path"));
    let cases: [(&[&str], &str); 14] = [
        (&["--memory", short], "short.bin: 32767 bytes, and a memory is 32768"),
        (&["--memory", long], "long.bin: longer than 32768 bytes"),
        (&["--memory", "no-such-file"], "no-such-file: "),
        (&["--break", "8001"], "--break 8001: no instruction begins there"),
        (&["--break", "8003"], "--break 8003: no instruction begins there"),
        (&["--break", "7FFF"], "--break 7FFF: no instruction begins there"),
        (&["--break", "main"], "--break wants an address"),
        (&["--registers", "A=100"], "--registers wants"),
        (&["--registers", "A=1,A=2"], "--registers wants"),
        (&["--registers", "SP=03FF"], "--registers wants"),
        (&["--registers", ""], "--registers wants"),
        (&["--steps", "-1"], "--steps wants a number"),
        (&["--back", "99999999999999999999"], "--back wants a number"),
        (&["another.slu"], "one image is wanted"),
    ];
    for (more, why) in cases {
        let answer = trace("tried.slu", &[0xA6, 0x05, 0x81], more);
        assert_eq!((answer.status, answer.out.as_str()), (2, ""), "{more:?}");
        assert!(answer.err.contains(why), "{more:?}: {}", answer.err);
    }
}

#[test]
fn registers_are_those_given() {
    let answer = trace("given.slu", &[0x81], &["--registers", "CC=FF,Y=9876,X=3456,A=1"]);
    let start = row(&format!("8000{}  0 0", &answer.out.lines().nth(1).expect("the start")[4..]));
    assert_eq!((start.registers, start.flags), ([0x01, 0x3456, 0x9876, 0x03FD], 0xBF));
}

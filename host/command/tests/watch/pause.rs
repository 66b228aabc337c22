//! `gate trace --save`, `--memory-out` and `--resume`.

use crate::binary::{accepted, compare, count, file, gate, words, Answer, Example};
use crate::maker::{made, Made};
use crate::trace::{levels, LIMITS};
use gate_host::{Limits, Refused, Registers, Resumed, MARKS_ENOUGH, MEMORY_BYTES};
use gate_twin::random::Random;
use gate_twin::slu;
use std::fs;
use std::path::{Path, PathBuf};

/// The most steps of an example's trace: some do not end soon.
const MOST: usize = 100;
/// The most steps that a total holds.
const CEILING: u64 = 18_446_744_073_709_551_615;
const IMAGES: u64 = 200;

/// Where a trace leaves its files, and what they hold.
struct Files {
    state: PathBuf,
    memory: PathBuf,
}

impl Files {
    /// Files of a name that no other test has.
    fn named(name: &str) -> Files {
        Files { state: file(&format!("{name}.sls"), b"old"), memory: file(&format!("{name}.bin"), b"old") }
    }

    fn of(name: &str, state: &[u8], memory: &[u8]) -> Files {
        Files { state: file(&format!("{name}.sls"), state), memory: file(&format!("{name}.bin"), memory) }
    }

    /// The options that write them.
    fn saving(&self) -> [&str; 4] {
        ["--save", text(&self.state), "--memory-out", text(&self.memory)]
    }

    /// The options that go on from them.
    fn resuming(&self) -> [&str; 4] {
        ["--resume", text(&self.state), "--memory", text(&self.memory)]
    }

    fn held(&self) -> (Vec<u8>, Vec<u8>) {
        (fs::read(&self.state).expect("a state"), fs::read(&self.memory).expect("a memory"))
    }
}

fn text(path: &Path) -> &str {
    path.to_str().expect("a path")
}

/// Traces an image. It is accepted, and nothing is said on standard error.
fn good(limits: &Limits, more: &[&[&str]], image: &Path) -> String {
    let answer = gate(&words("trace", limits, &more.concat(), image));
    assert_eq!((answer.status, answer.err.as_str()), (0, ""), "{}", answer.out);
    answer.out
}

/// The steps of a trace in JSON: each object up to its sum, and the sum.
fn steps(json: &str) -> Vec<(&str, u64)> {
    let made = json.lines().filter(|line| line.starts_with("{\"kind\":\"step\""));
    made.map(|line| line.split_once(",\"sum\":").expect("a sum"))
        .map(|(step, sum)| (step, sum.trim_end_matches('}').parse().expect("a number")))
        .collect()
}

/// What the library saves after so many steps from the start, and the memory.
fn by_library(image: &[u8], limits: &Limits, memory: &[u8], given: Registers, steps: u32) -> (Vec<u8>, Vec<u8>) {
    let (mut memory, mut registers) = (memory.to_vec(), given);
    gate_host::start(image, limits, &mut [0; MARKS_ENOUGH], &mut memory, &mut registers).expect("accepted");
    let run = gate_host::run(image, limits, &mut memory, &mut registers, steps).expect("good limits");
    (gate_host::save(&registers, run.steps.into()).expect("a run's").as_ref().to_vec(), memory)
}

#[test]
fn a_pause_at_any_step_of_an_example_changes_nothing() {
    let levels = file("pause-levels.bin", &levels());
    let given = Registers { a: 0x12, cc: 0x28, ..Registers::default() };
    let (whole, first, second) = (Files::named("pause-whole"), Files::named("pause-first"), Files::named("pause-second"));
    let mut pauses = 0;
    for Example { name, limits, image, .. } in accepted() {
        let begin = ["--json", "--memory", text(&levels), "--registers", "A=12,CC=28"];
        let not_paused = good(&limits, &[&begin, &["--steps", &MOST.to_string()], &whole.saving()], &image);
        let not_paused = steps(&not_paused);
        let bytes = fs::read(&image).expect("an image");
        for number in 0..=not_paused.len() {
            let begun = good(&limits, &[&begin, &["--steps", &number.to_string()], &first.saving()], &image);
            let library = by_library(&bytes, &limits, &fs::read(&levels).expect("a memory"), given, number as u32);
            assert!(first.held() == library, "{name}, {number} steps");
            let rest = ["--json", "--steps", &(MOST - number).to_string()];
            let resumed = good(&limits, &[&rest, &first.resuming(), &second.saving()], &image);
            let (begun, resumed) = (steps(&begun), steps(&resumed));
            let before = begun.last().map_or(0, |&(_, sum)| sum);
            let after = resumed.into_iter().map(|(step, sum)| (step, before + sum));
            assert_eq!(begun.iter().copied().chain(after).collect::<Vec<_>>(), not_paused, "{name}, {number} steps");
            assert!(second.held() == whole.held(), "{name}, {number} steps");
            pauses += 1;
        }
    }
    assert!(pauses > 300, "only {pauses} pauses");
}

#[test]
fn a_pause_in_any_routine_changes_nothing() {
    let (whole, first, second) = (Files::named("any-whole"), Files::named("any-first"), Files::named("any-second"));
    let mut deep = 0;
    for number in 0..IMAGES {
        let Made { image, limits } = made(number);
        let mut random = Random::new(31, number);
        let mut memory = vec![0; MEMORY_BYTES];
        random.fill(&mut memory);
        let (image, memory) = (file("any.slu", &image), file("any.bin", &memory));
        let (pause, rest) = (random.below(60), random.below(60));
        let begin = ["--memory", text(&memory)];
        good(&limits, &[&begin, &["--steps", &(pause + rest).to_string()], &whole.saving()], &image);
        good(&limits, &[&begin, &["--steps", &pause.to_string()], &first.saving()], &image);
        deep += u64::from(first.held().0[7..9] < (limits.stack.high - 2).to_be_bytes()[..]);
        good(&limits, &[&["--steps", &rest.to_string()], &first.resuming(), &second.saving()], &image);
        assert!(second.held() == whole.held(), "image {number}, {pause} steps and {rest}");
    }
    assert!(deep > IMAGES / 10, "only {deep} pauses have more than main's return bytes on the stack");
}

fn slack_water() -> Example {
    accepted().into_iter().find(|example| example.name == "slack-water").expect("the example")
}

/// What `gate trace` leaves after eleven steps of `slack-water`: three calls deep, before 8001.
fn paused(name: &str) -> (Example, Files) {
    let (example, files, levels) = (slack_water(), Files::named(name), file(&format!("{name}-levels.bin"), &levels()));
    good(&example.limits, &[&["--steps", "11", "--memory", text(&levels)], &files.saving()], &example.image);
    (example, files)
}

/// The files are named as they are given, so the command runs where they are.
fn gate_there(example: &Example, more: &str, image: &str) -> String {
    let there = Path::new(env!("CARGO_TARGET_TMPDIR")).join("slack-water");
    fs::create_dir_all(&there).expect("a folder");
    fs::write(there.join("levels.bin"), levels()).expect("a memory");
    fs::copy(&example.image, there.join(image)).expect("an image");
    let more: Vec<&str> = more.split(' ').collect();
    let done = std::process::Command::new(env!("CARGO_BIN_EXE_gate"))
        .args(words("trace", &example.limits, &more, Path::new(image)))
        .current_dir(&there)
        .output()
        .expect("the binary runs");
    assert!(done.status.success() && done.stderr.is_empty(), "{done:?}");
    String::from_utf8(done.stdout).expect("UTF-8")
}

#[test]
fn an_example_is_paused_and_resumed_as_stored() {
    let example = slack_water();
    let print = |more: &str| gate_there(&example, more, "slack-water.slu");
    compare("resumed", "paused", &print("--memory levels.bin --steps 13 --back 2 --save slack.sls --memory-out slack.bin"));
    compare("resumed", "resumed", &print("--resume slack.sls --memory slack.bin --back 2"));
    let again = "--resume slack.sls --memory slack.bin --steps 2 --json --save again.sls --memory-out again.bin";
    compare("resumed", "resumed-json", &print(again));
    compare("resumed", "memory-alone", &print("--resume again.sls --memory again.bin --steps 1 --memory-out again.bin"));
    assert_eq!(count("resumed"), 4);
}

#[test]
fn what_is_gone_back_over_is_not_saved() {
    let (example, files) = paused("forth");
    let (levels, back) = (file("back-levels.bin", &levels()), Files::named("back"));
    for (steps, count) in [("12", "1"), ("15", "4"), ("30", "19")] {
        let forth_and_back = ["--memory", text(&levels), "--steps", steps, "--back", count];
        good(&example.limits, &[&forth_and_back, &back.saving()], &example.image);
        assert!(back.held() == files.held(), "{steps} steps, {count} back");
    }
    // A saved state has no records: back goes to it, and no further.
    let answer = good(&example.limits, &[&["--steps", "5", "--back", "9"], &files.resuming(), &back.saving()], &example.image);
    assert!(answer.contains("back before 8001: steps 11 in all; since resumed steps 0, cycles 0\n"), "{answer}");
    assert!(back.held() == files.held());
}

/// It comes by 8001 twice: a break stops it there each time, and goes on with the same break.
#[test]
fn a_break_where_it_was_paused_does_not_stop_it_again() {
    let (example, files) = (slack_water(), Files::named("break"));
    let end = |more: &[&str]| {
        let out = good(&example.limits, &[&["--break", "8001"], more, &files.saving()], &example.image);
        out.lines().rev().nth(1).map(str::to_string)
    };
    assert_eq!(end(&[]), Some("break before 8001: steps 11, cycles 22".into()));
    assert_eq!(end(&files.resuming()), Some("break before 8001: steps 28 in all; since resumed steps 17, cycles 38".into()));
    assert_eq!(end(&files.resuming()), Some("finished: steps 44 in all; since resumed steps 16, cycles 30".into()));
    assert_eq!(end(&files.resuming()), Some("finished: steps 44 in all; since resumed steps 0, cycles 0".into()));
    let at_main = ["--break=8018", "--steps=0"];
    assert_eq!(end(&at_main), Some("break before 8018: steps 0, cycles 0".into()), "a start is stopped where it begins");
}

/// The library's answer to the files, without a step.
fn resumed(image: &[u8], limits: &Limits, (state, mut memory): (Vec<u8>, Vec<u8>)) -> Result<Resumed, Refused> {
    gate_host::resume(image, limits, &mut [0; MARKS_ENOUGH], &mut memory, state, 0)
}

/// Whether the command goes on, or refuses as the library does: in a line of text with what to do, and as an object. Either way the
/// files are as they were.
fn as_the_library(example: &Example, files: &Files) -> bool {
    let (held, image) = (files.held(), fs::read(&example.image).expect("an image"));
    let left = Files::named(&format!("{}-left", files.state.file_stem().and_then(|stem| stem.to_str()).expect("a name")));
    let more = [files.resuming(), left.saving()].concat();
    let plain = gate(&words("trace", &example.limits, &more, &example.image));
    let json = gate(&words("trace", &example.limits, &[&["--json", "--steps=0"], &more[..]].concat(), &example.image));
    assert!(files.held() == held && plain.err.is_empty());
    match resumed(&image, &example.limits, held) {
        Ok(_) => {
            assert_eq!((plain.status, json.status), (0, 0), "{}", plain.out);
            true
        }
        Err(Refused { refusal, offset }) => {
            let lines: Vec<&str> = plain.out.lines().collect();
            assert_eq!((lines[0], lines.len(), plain.status), (refusal.to_string().as_str(), 2, 1));
            assert!(lines[1].starts_with("  To do: "), "{}", plain.out);
            let (number, text) = (refusal.number(), refusal.to_string());
            let object = format!("{{\"kind\":\"refused\",\"number\":{number},\"offset\":{offset},\"text\":\"{text}\"}}\n");
            assert_eq!((json.out, json.status), (object, 1));
            assert!(left.held() == (b"old".to_vec(), b"old".to_vec()), "nothing is written where it is refused");
            false
        }
    }
}

#[test]
fn damaged_states_are_refused_as_the_library_does() {
    let (example, files) = paused("damaged");
    let (state, memory) = files.held();
    let mut went_on = Vec::new();
    for at in 0..state.len() {
        for change in [0x01, 0x80] {
            let mut damaged = state.clone();
            damaged[at] ^= change;
            let on = as_the_library(&example, &Files::of("damaged", &damaged, &memory));
            went_on.extend(on.then_some(at));
        }
    }
    // A, X, Y, CC and steps may be any. PC, SP and what is before them may not, but for a PC of 8000 where 8001 was, at one depth.
    assert_eq!(went_on, [6].into_iter().chain((9..23).flat_map(|at| [at, at])).collect::<Vec<_>>());
    for length in [0, 1, 19, 22] {
        assert!(!as_the_library(&example, &Files::of("damaged", &state[..length], &memory)), "{length} bytes");
    }
    assert!(!as_the_library(&example, &Files::of("damaged", &[&state[..], b"\n"].concat(), &memory)), "24 bytes");
    assert!(!as_the_library(&example, &Files::of("damaged", &memory, &memory)), "the memory in place of the state");
}

/// The state of the same place and total as it was written before 0.5.0, in version 0001.
fn old(state: &[u8]) -> Vec<u8> {
    [b"SLS\x00\x01", &state[5..15], &state[19..]].concat()
}

/// An old state is traced as a new one is, and what is saved after it is the same.
#[test]
fn an_old_state_goes_on_and_is_saved_anew() {
    let (example, files) = paused("new");
    let (state, memory) = files.held();
    let old_files = Files::of("old", &old(&state), &memory);
    let (from_new, from_old) = (Files::named("from-new"), Files::named("from-old"));
    let print = |more: &[&str], begin: &Files, end: &Files| {
        let out = good(&example.limits, &[more, &begin.resuming(), &end.saving()], &example.image);
        out.replace(text(&end.state), "STATE").replace(text(&end.memory), "MEMORY")
    };
    for more in [&["--steps=5"][..], &["--json", "--steps=5"], &["--back=3"]] {
        assert_eq!(print(more, &old_files, &from_old), print(more, &files, &from_new), "{more:?}");
        assert!(from_old.held() == from_new.held(), "{more:?}");
    }
    let stopped = print(&["--steps=0"], &old_files, &from_old);
    assert!(stopped.contains("stopped before 8001, as --steps says: steps 11 in all; since resumed steps 0"), "{stopped}");
    assert!(from_old.held() == (state, memory), "version 0002");
}

#[test]
fn other_memory_is_refused_or_gone_on_with_as_the_library_does() {
    let (example, files) = paused("other");
    let (state, memory) = files.held();
    let mut refused = Vec::new();
    for address in (0x03E0..0x0400).chain([0x0000, 0x0010, 0x02FF, 0x0400, 0x7FFF]) {
        let mut other = memory.clone();
        other[address] ^= 0xFF;
        let on = as_the_library(&example, &Files::of("other", &state, &other));
        refused.extend((!on).then_some(address));
    }
    // The addresses after the three calls, and main's.
    assert_eq!(refused, [0x03F4, 0x03F5, 0x03F7, 0x03F8, 0x03FB, 0x03FC, 0x03FE, 0x03FF]);
    assert!(!as_the_library(&example, &Files::of("other", &state, &[0; MEMORY_BYTES])), "no memory at all");
}

/// A state of this total at the first byte of a routine, to go on from.
fn at_total(name: &str, steps: u64, routine: &[u8], more: &[&str]) -> Answer {
    let registers = Registers { sp: 0x03FD, pc: 0x8000, ..Registers::default() };
    let state = gate_host::save(&registers, steps).expect("a total");
    let files = Files::of(name, state.as_ref(), &[0; MEMORY_BYTES]);
    let image = file(&format!("{name}.slu"), &slu::image_of(2, 0x8000, &[routine]));
    gate(&words("trace", &LIMITS, &[more, &files.resuming()].concat(), &image))
}

#[test]
fn a_trace_stops_at_the_largest_total() {
    let jump_to_itself = [0x20, 0xFE];
    let end = |steps, more: &[&str]| at_total("total", steps, &jump_to_itself, more).out.lines().last().map(str::to_string);
    let most =
        format!("stopped before 8000, since a total of {CEILING} steps is the most: steps {CEILING} in all; since resumed");
    assert_eq!(end(CEILING - 2, &[]), Some(format!("{most} steps 2, cycles 4")));
    assert_eq!(end(CEILING - 2, &["--steps", "2"]), Some(format!("{most} steps 2, cycles 4")));
    assert_eq!(end(CEILING, &["--steps=1"]), Some(format!("{most} steps 0, cycles 0")));
    let asked = "stopped before 8000, as --steps says: steps 18446744073709551614 in all; since resumed steps 1, cycles 2";
    assert_eq!(end(CEILING - 2, &["--steps", "1"]), Some(asked.into()));
    let object = "{\"kind\":\"end\",\"end\":\"total\",\"address\":32768,\"steps\":18446744073709551615,\"sum\":4}";
    assert_eq!(end(CEILING - 2, &["--json"]), Some(object.into()));
    let default =
        "stopped before 8000, since --steps 10000 is the default: steps 10007 in all; since resumed steps 10000, cycles 20000";
    assert_eq!(end(7, &[]), Some(default.into()));
}

#[test]
fn what_finishes_with_the_largest_total_has_finished() {
    let end = |steps| at_total("last", steps, &[0x9D, 0x81], &[]).out.lines().last().map(str::to_string);
    let finished = "finished: steps 18446744073709551615 in all; since resumed steps 2, cycles 5";
    assert_eq!(end(CEILING - 2), Some(finished.into()));
    let stopped = format!("stopped before 8001, since a total of {CEILING} steps is the most: steps {CEILING} in all;");
    assert_eq!(end(CEILING - 1), Some(format!("{stopped} since resumed steps 1, cycles 1")));
}

/// The most of 32 bits, which was the largest total once, stops nothing.
#[test]
fn a_trace_goes_on_past_32_bits() {
    let end = at_total("past", 4_294_967_294, &[0x9D, 0x9D, 0x81], &[]).out;
    assert_eq!(end.lines().last(), Some("finished: steps 4294967297 in all; since resumed steps 3, cycles 6"));
}

#[test]
fn what_cannot_be_paused_or_resumed_is_said() {
    let (example, files) = paused("said");
    let (state, memory) = (text(&files.state), text(&files.memory));
    let cases: [(&[&str], &str); 10] = [
        (&["--save", state], "--save wants --memory-out too"),
        (&["--save", state, "--memory-out", state], "--save and --memory-out are two files, and not both "),
        (&["--resume", state], "--resume wants --memory too"),
        (&["--resume", state, "--memory", memory, "--registers", "A=1"], "--registers goes with a start"),
        (&["--resume", state, "--memory", state], "said.sls: 23 bytes, and a memory is 32768"),
        (&["--resume", "no-such-file", "--memory", memory], "no-such-file: "),
        (&["--resume", state, "--memory", "no-such-file"], "no-such-file: "),
        (&["--resume", state, "--resume", state, "--memory", memory], "--resume is given twice"),
        (&["--resume", state, "--memory", memory, "--break", "8002"], "--break 8002: no instruction begins there"),
        (&["--save", state, "--memory-out", memory, "--break", "8002"], "--break 8002: no instruction begins there"),
    ];
    let held = files.held();
    for (more, why) in cases {
        let answer = gate(&words("trace", &example.limits, more, &example.image));
        assert_eq!((answer.status, answer.out.as_str()), (2, ""), "{more:?}");
        assert!(answer.err.contains(why), "{more:?}: {}", answer.err);
        assert!(files.held() == held, "{more:?}");
    }
}

/// Where the memory cannot be written no state is, and where an image is refused neither.
#[test]
fn no_state_is_left_without_its_memory() {
    let (example, files) = paused("without");
    let held = files.held();
    let nowhere = ["--save", text(&files.state), "--memory-out", "no-such-folder/memory.bin"];
    let answer = gate(&words("trace", &example.limits, &nowhere, &example.image));
    assert!(answer.status == 2 && answer.err.contains("no-such-folder/memory.bin: "), "{}", answer.err);
    assert!(!answer.out.contains("saved") && files.held() == held);
    let small = Limits { stack: gate_host::Area { low: 0x03FE, high: 0x03FF }, ..example.limits };
    let answer = gate(&words("trace", &small, &files.saving(), &example.image));
    assert_eq!((answer.status, answer.out.as_str()), (1, "refused with 16: stack area below the reported need\n"));
    assert!(files.held() == held);
}

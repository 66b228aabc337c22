//! `gate pack` of routine files, and `gate unpack`.

use crate::folder::Folder;
use gate_host::{layout, number_text};
use gate_twin::random::Random;
use gate_twin::slu;
use std::iter;

const SEED: u64 = 24;

/// Lengths of routines that together have 4,096 bytes at most.
fn lengths(random: &mut Random) -> Vec<usize> {
    let routines = random.between(1, 32);
    let most = random.pick(&[1, 8, 128]);
    (0..routines).map(|_| random.between(1, most)).collect()
}

fn routine(random: &mut Random, length: usize) -> Vec<u8> {
    let mut bytes = vec![0; length];
    random.fill(&mut bytes);
    bytes
}

/// The names that `gate unpack` gives the files.
fn names(routines: usize) -> Vec<String> {
    let numbered =
        (1..routines).map(
            |number| {
                if routines > 10 {
                    format!("routine-{number:02}.bin")
                } else {
                    format!("routine-{number}.bin")
                }
            },
        );
    numbered.chain(iter::once("main.bin".into())).collect()
}

/// What is printed of an image: version and base, and the addresses and name of each routine.
fn told(version: u16, base: u16, lengths: &[usize], names: &[String]) -> String {
    let mut told = format!("version {version:04X}, base {base:04X}\n");
    let mut first = usize::from(base);
    for (length, name) in lengths.iter().zip(names) {
        told += &format!("{first:04X}-{:04X} {name}\n", first + length - 1);
        first += length;
    }
    told
}

#[test]
fn images_come_apart_and_together_again() {
    for case in 0..300 {
        let mut random = Random::new(SEED, case);
        let lengths = lengths(&mut random);
        let routines: Vec<Vec<u8>> = lengths.iter().map(|&length| routine(&mut random, length)).collect();
        let version = random.pick(&[1, 2]);
        let base = random.between(0x8000, 0x1_0000 - lengths.iter().sum::<usize>()) as u16;
        let image = slu::image_of(version, base, &routines);
        let names = names(routines.len());

        let folder = Folder::new();
        folder.write("image.slu", &image);
        let parts: Vec<String> = names.iter().map(|name| format!("parts/{name}")).collect();
        assert_eq!(folder.good(&["unpack", "image.slu", "-d", "parts"]), told(version, base, &lengths, &parts), "case {case}");
        for (name, routine) in parts.iter().zip(&routines) {
            assert_eq!(&folder.read(name), routine, "case {case}: {name}");
        }

        let (version_word, base_word) = (format!("{version}"), format!("--base={base:X}"));
        let mut words = vec!["pack", "--version", &version_word, &base_word, "-o", "again.slu"];
        words.extend(parts.iter().map(String::as_str));
        assert_eq!(folder.good(&words), told(version, base, &lengths, &parts), "case {case}");
        assert_eq!(folder.read("again.slu"), image, "case {case}");
    }
}

#[test]
fn what_is_packed_is_what_the_library_takes() {
    let mut refused = 0;
    for case in 0..300 {
        let mut random = Random::new(SEED + 1, case);
        let most = random.pick(&[2, 32, 120, 200]);
        let routines = random.between(1, 36);
        let lengths: Vec<usize> = (0..routines).map(|_| if random.one_in(150) { 0 } else { random.between(1, most) }).collect();
        let routines: Vec<Vec<u8>> = lengths.iter().map(|&length| routine(&mut random, length)).collect();
        let version = random.pick(&[1, 1, 1, 2, 2, 2, 2, 0, 3, 0x200]);
        let base = if random.one_in(4) { random.word() } else { random.between(0x7FF0, 0x8100) as u16 };
        let image = slu::image_of(version, base, &routines);

        let folder = Folder::new();
        let names: Vec<String> = (0..routines.len()).map(|number| format!("{number}.bin")).collect();
        names.iter().zip(&routines).for_each(|(name, routine)| folder.write(name, routine));
        let (version, base) = (format!("--version={version:X}"), format!("--base={base:04x}"));
        let mut words = vec!["pack", &version, &base, "-o", "made.slu"];
        words.extend(names.iter().map(String::as_str));
        if layout(&image).is_ok() {
            folder.good(&words);
            assert_eq!(folder.read("made.slu"), image, "case {case}");
        } else {
            let said = folder.trouble(&words);
            assert!(said.starts_with("no image can be made: "), "case {case}: {said}");
            assert!(!said.contains(number_text(4)), "case {case}: the reason is told");
            assert!(!folder.has("made.slu"), "case {case}");
            refused += 1;
        }
    }
    assert!((75..225).contains(&refused), "{refused} of 300 are refused");
}

#[test]
fn a_reason_is_told() {
    let folder = Folder::new();
    folder.write("ret", [0x81]);
    folder.write("half", [0x9D; 2_048]);
    folder.write("long", [0x9D; 4_097]);
    folder.write("empty", []);
    let cases: [(&[&str], &str); 9] = [
        (&["--version", "3", "ret"], "no image can be made: version 0003 is neither 0001 nor 0002"),
        (&["ret", "empty", "ret"], "no image can be made: empty has no bytes"),
        (&["half", "ret", "half"], "no image can be made: 4097 bytes of code, and 4096 are the most"),
        (&["long"], "long: longer than 4096 bytes, which is more than such a file has"),
        (&["--base", "7FFF", "ret"], "no image can be made: base 7FFF is below 8000"),
        (&["--base", "FFFF", "ret", "ret"], "no image can be made: the code goes from FFFF to 10000, past FFFF"),
        (&[], "no routine is given"),
        (&["--base", "10000", "ret"], "--base wants up to four hexadecimal digits, and not \"10000\""),
        (&["--version", "two", "ret"], "--version wants up to four hexadecimal digits, and not \"two\""),
    ];
    for (words, expected) in cases {
        let words = [&["pack", "-o", "made.slu"], words].concat();
        assert_eq!(folder.trouble(&words), expected, "{words:?}");
        assert!(!folder.has("made.slu"), "{words:?}");
    }
    for routines in [33, 256, 257] {
        let words = [vec!["pack", "-o", "made.slu"], vec!["ret"; routines]].concat();
        assert_eq!(folder.trouble(&words), format!("no image can be made: {routines} routines, and 32 are the most"));
    }
    assert_eq!(folder.trouble(&["pack", "ret"]), "-o OUT.slu is missing");
}

#[test]
fn what_has_no_layout_is_not_unpacked() {
    let folder = Folder::new();
    folder.write("no.slu", b"SLU\x00\x02\x80\x00\x01\x00\x02\x81");
    let done = folder.gate(&["unpack", "no.slu", "-d", "parts"]);
    assert_eq!(
        (done.status.code(), &done.stdout[..]),
        (Some(1), &b"no.slu: refused with 4: another layout rule is broken\n"[..])
    );
    assert!(done.stderr.is_empty() && !folder.has("parts"));
}

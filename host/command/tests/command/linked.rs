//! `gate pack` of what a linker writes: files that are made here in its form, and damaged.

use crate::folder::{said, Folder};
use gate_twin::random::Random;
use gate_twin::slu;

const SEED: u64 = 25;

/// A record of Intel HEX.
fn record(address: u16, kind: u8, bytes: &[u8]) -> String {
    let mut all = vec![bytes.len() as u8];
    all.extend(address.to_be_bytes());
    all.push(kind);
    all.extend(bytes);
    let sum = all.iter().fold(0u8, |sum, &byte| sum.wrapping_sub(byte));
    all.push(sum);
    let digits: String = all.iter().map(|byte| format!("{byte:02X}")).collect();
    format!(":{digits}\n")
}

/// Code in records of random lengths and in any order.
fn hex(random: &mut Random, base: u16, code: &[u8]) -> String {
    let mut records = Vec::new();
    let mut at = 0;
    while at < code.len() {
        let length = random.between(1, 32).min(code.len() - at);
        records.push(record(base + at as u16, 0, &code[at..at + length]));
        at += length;
    }
    random.shuffle(&mut records);
    records.concat() + END
}

const END: &str = ":00000001FF\n";

/// A map: constants, which are in no area, and symbols in one, as on a wide page or three in a line.
fn map(wide: bool, symbols: &[(String, u16)]) -> String {
    let heads = "Area  Addr  Size  Decimal Bytes (Attributes)\n----  ----  ----  ------- ----- ------------\n";
    let page = |area: &str, lines: &str| {
        format!("\u{c}ASxxxx Linker V03.00 + NoICE + sdld,  page 1.\nHexadecimal  [32-Bits]\n\n{heads}{area}\n\n{lines}\n")
    };
    let cell = |(name, address): &(String, u16)| format!("     {address:08X}  {name}");
    let cells: Vec<String> = symbols.iter().map(cell).collect();
    let lines = if wide {
        cells.iter().map(|cell| format!("{cell}          mode\n")).collect()
    } else {
        cells.chunks(3).map(|cells| cells.join(" |") + "\n").collect::<String>()
    };
    page(".  .ABS.        00000000    00000000 =           0. bytes (ABS,CON)", "     00008001  _no_routine    mode\n")
        + &page("CODE            00008000    00000029 =          41. bytes (REL,CON)", &lines)
        + "\u{c}ASxxxx Linker V03.00 + NoICE + sdld,  page 3.\n\nFiles Linked\n\n8000 no_file  [ mode ]\n"
}

#[test]
fn linked_code_is_packed() {
    for case in 0..300 {
        let mut random = Random::new(SEED, case);
        let most = random.pick(&[1, 20, 128]);
        let routines: Vec<Vec<u8>> = (0..random.between(1, 32))
            .map(|_| {
                let mut routine = vec![0; random.between(1, most)];
                random.fill(&mut routine);
                routine
            })
            .collect();
        let code = routines.concat();
        let base = random.between(0x8000, 0x1_0000 - code.len()) as u16;
        let mut symbols: Vec<(String, u16)> = vec![("_cell".into(), 0x0010)];
        let mut told = format!("version 0002, base {base:04X}\n");
        let mut at = usize::from(base);
        for (number, routine) in routines.iter().enumerate() {
            symbols.push((format!("_r{number}"), at as u16));
            told += &format!("{at:04X}-{:04X} _r{number}\n", at + routine.len() - 1);
            at += routine.len();
        }
        random.shuffle(&mut symbols);

        let folder = Folder::new();
        folder.write("mode.ihx", hex(&mut random, base, &code));
        folder.write("mode.map", map(random.one_in(2), &symbols));
        assert_eq!(folder.good(&["pack", "-o", "mode.slu", "--ihx", "mode.ihx", "--map", "mode.map"]), told, "case {case}");
        assert_eq!(folder.read("mode.slu"), slu::image_of(2, base, &routines), "case {case}");
    }
}

/// Two routines, as `smoothing` has, and a label within the second.
fn smoothing() -> Folder {
    let folder = Folder::new();
    let symbols = [("_mean", 0x8000), ("_smoothing", 0x8003), ("_again", 0x800E), ("_far", 0x9000)];
    folder.write("mode.map", map(true, &symbols.map(|(name, address)| (name.into(), address))));
    folder.write("mode.ihx", code(&[]));
    folder
}

/// The code of `smoothing`, and more records after it.
fn code(more: &[String]) -> String {
    const CODE: &[u8] = b"\xFB\x46\x81\xAE\x00\x1D\xB6\x10\xCD\x80\x00\xB7\x1D\x5C\xB6\x11\xCD\x80\x00\xB7\x1E\x81";
    record(0x8000, 0, CODE) + &more.concat() + END
}

/// What a message tells an author to see to, and AUTHOR stands for below.
const AUTHOR: &str = "a routine's label has to be global, no function static or called main, and no data among the code";

const PACK: [&str; 7] = ["pack", "-o", "mode.slu", "--ihx", "mode.ihx", "--map", "mode.map"];

#[test]
fn routines_are_named_where_there_are_other_symbols() {
    let folder = smoothing();
    let with = |names: &'static str| [&PACK[..], &["--routines", names]].concat();
    for names in ["mean,smoothing", "_mean,_smoothing"] {
        assert_eq!(folder.good(&with(names)), "version 0002, base 8000\n8000-8002 _mean\n8003-8015 _smoothing\n");
    }
    let cases = [
        ("mean,median", "it has no symbol median, but _mean, _smoothing, _again, _far"),
        ("smoothing", "no routine has 8000 to 8002, for _smoothing at 8003 is the first: AUTHOR"),
        ("smoothing,mean", "_smoothing at 8003 is not before mean at 8000; name routines as they stand, main last"),
        ("mean,mean", "_mean at 8000 is not before mean at 8000; name routines as they stand, main last"),
        ("mean,far", "far at 9000 is not in the code, 8000 to 8015"),
        ("", "it has no symbol , but _mean, _smoothing, _again, _far"),
        ("no_routine", "it has no symbol no_routine, but _mean, _smoothing, _again, _far"),
    ];
    for (names, expected) in cases {
        assert_eq!(folder.trouble(&with(names)), format!("mode.map: {expected}").replace("AUTHOR", AUTHOR));
    }
}

#[test]
fn a_file_that_is_not_as_the_linker_writes_it_is_told() {
    let folder = smoothing();
    let cases = [
        (String::new(), "there is no end record: this is no Intel HEX file, or it is cut short"),
        ("SLU".into(), "line 1: it does not begin with a colon"),
        (":0080".into(), "line 1: it is too short for a record"),
        (":00800".into(), "line 1: after the colon it is not of hexadecimal digits in pairs"),
        (":008000000G".into(), "line 1: after the colon it is not of hexadecimal digits in pairs"),
        (":0280000081FD".into(), "line 1: it tells of 2 bytes and has 1"),
        (":0180000081FD".into(), "line 1: its checksum is FD, and its bytes give FE"),
        (END.into(), "there is no code in it"),
        (code(&[record(0x8015, 0, &[0x81])]), "line 2: there is a byte for 8015 already"),
        (code(&[record(0x8018, 0, &[0x81])]), "no bytes for 8016 to 8017, and there are some before and after"),
        (code(&[record(0x0000, 0, &[0x81])]), "line 2: a byte for 0000, and an image's code is from 8000 to FFFF"),
        (code(&[record(0xFFFF, 0, &[0x81, 0x81])]), "line 2: a byte for 10000, and an image's code is from 8000 to FFFF"),
        (
            code(&[record(0, 4, &[0, 1]), record(0, 0, &[0x81])]),
            "line 3: a byte for 10000, and an image's code is from 8000 to FFFF",
        ),
        (code(&[record(0, 4, &[0])]), "line 2: a record of type 04 has two bytes"),
        (code(&[record(0, 3, &[0, 0, 0x80, 0])]), "line 2: its type is 03, and the linker writes 00, 01 and 04"),
        (code(&[END.into()]), "line 3: it stands after the end record"),
    ];
    for (text, expected) in cases {
        folder.write("mode.ihx", &text);
        assert_eq!(folder.trouble(&PACK), format!("mode.ihx: {expected}"), "{text:?}");
    }
    folder.write("mode.ihx", code(&[record(0, 4, &[0, 0]), record(0x8016, 0, &[0x9D])]).replace('\n', "\r\n\r\n"));
    folder.good(&PACK);
}

#[test]
fn a_map_that_is_none_is_told() {
    let folder = smoothing();
    let wide = map(true, &[("_main".into(), 0x8000)]);
    let cases = [
        (String::new(), "this is no map of the linker, which it writes for -m"),
        (wide.replace("Hexadecimal", "Decimal"), "its numbers are not hexadecimal: link without -d and -q"),
        (wide.replace("Hexadecimal", "Octal"), "its numbers are not hexadecimal: link without -d and -q"),
        (map(true, &[]), "it has no symbol in the code, 8000 to 8015: AUTHOR"),
    ];
    for (text, expected) in cases {
        folder.write("mode.map", text);
        assert_eq!(folder.trouble(&PACK), format!("mode.map: {expected}").replace("AUTHOR", AUTHOR));
    }
    let words = [&PACK[..], &["--routines", "main"]].concat();
    assert_eq!(folder.trouble(&words), format!("mode.map: it has no symbol main, nor any other: {AUTHOR}"));
}

#[test]
fn words_that_do_not_go_together_are_told() {
    let folder = smoothing();
    let more = |words: &[&'static str]| [&PACK[..], words].concat();
    assert_eq!(folder.trouble(&PACK[..5]), "--ihx and --map go together");
    assert_eq!(folder.trouble(&more(&["main.bin"])), "routines are in the code of --ihx; what is \"main.bin\"?");
    assert_eq!(folder.trouble(&more(&["--base", "8000"])), "--base goes with routine files; to the linker it was told");
    assert_eq!(folder.trouble(&["pack", "-o", "o", "--routines", "main", "main.bin"]), "--routines goes with --ihx and --map");
}

/// The checksum finds every digit that is another.
#[test]
fn no_changed_digit_gets_through() {
    let folder = smoothing();
    folder.write("mode.map", map(true, &[("_mean".into(), 0x8000), ("_smoothing".into(), 0x8003)]));
    folder.good(&PACK);
    let text = folder.read("mode.ihx");
    let digits = (0..text.len()).filter(|&at| text[at].is_ascii_hexdigit());
    for at in digits {
        let mut changed = text.clone();
        changed[at] = if text[at] == b'0' { b'8' } else { b'0' };
        folder.write("mode.ihx", &changed);
        let said = folder.trouble(&PACK);
        assert!(said.starts_with("mode.ihx: line "), "digit at {at}: {said}");
    }
}

#[test]
fn damaged_files_are_refused_or_packed() {
    let (mut packed, mut told) = (0, 0);
    for case in 0..300 {
        let mut random = Random::new(SEED + 1, case);
        let folder = smoothing();
        let name = random.pick(&["mode.ihx", "mode.map"]);
        let mut bytes = folder.read(name);
        for _ in 0..random.between(1, 4) {
            let at = random.below(bytes.len());
            match random.below(3) {
                0 => bytes[at] = random.byte(),
                1 => drop(bytes.drain(at..)),
                _ => bytes.insert(at, random.pick(b"\n|:0F _")),
            }
            bytes.push(b' ');
        }
        folder.write(name, &bytes);
        let done = folder.gate(&PACK);
        match done.status.code() {
            Some(0) => {
                gate_host::layout(&folder.read("mode.slu")).expect("what is packed has a layout");
                packed += 1;
            }
            _ => {
                said(&done);
                told += 1;
            }
        }
    }
    assert!(packed > 20 && told > 20, "{packed} packed, {told} told");
}

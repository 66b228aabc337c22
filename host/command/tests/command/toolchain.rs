//! What the assembler, the C compiler and the linker of SDCC write. Without them these tests are left out, and say so.

use crate::folder::{Folder, GATE};
use gate_host::{check, run, start, Accepted, Area, Limits, Registers, MARKS_ENOUGH, MEMORY_BYTES};
use gate_twin::slu;
use std::fs;
use std::path::Path;
use std::process::Command;

/// The top of the repository.
const TOP: &str = concat!(env!("CARGO_MANIFEST_DIR"), "/../..");

/// Whether the tools are there, in the version whose code is stored: another compiles C to other bytes.
fn tools() -> bool {
    let version = Command::new("sdcc").arg("--version").output().map(|done| done.stdout).unwrap_or_default();
    let there = String::from_utf8_lossy(&version).contains(" 4.2.0 ");
    if !there {
        println!("left out, for there is no SDCC 4.2.0");
    }
    there
}

/// Runs a tool in a folder. The linker prints warnings of an empty map on standard error, so what it says is not looked at.
fn tool(folder: &Folder, line: &str) {
    let mut words = line.split(' ');
    let program = words.next().expect("a tool");
    let done = Command::new(program).args(words).current_dir(folder.path()).output().expect("the tool runs");
    assert!(done.status.success(), "{line}: {done:?}");
}

const PACK: [&str; 7] = ["pack", "-o", "mode.slu", "--ihx", "mode.ihx", "--map", "mode.map"];

#[test]
fn examples_are_what_their_sources_make() {
    if !tools() {
        return;
    }
    let done = Command::new(Path::new(TOP).join("examples/stored")).env("GATE", GATE).output().expect("examples/stored runs");
    assert!(done.status.success() && done.stdout.is_empty(), "{done:?}");
}

const ASSEMBLER: &str = "
limit = 0x18            ; no symbol of the map
opening == 0x19         ; one, but no routine
        .area   DATA
_cell:: .ds     1
        .area   CODE
_at_most::
        cp      a, limit
        jrule   1$
        ld      a, limit
1$:     ret
_main::
_alias::
        call    _at_most
        ld      opening, a
        ret
";

const ASSEMBLED: [&[u8]; 2] = [b"\xB1\x18\x23\x02\xB6\x18\x81", b"\xCD\x80\x00\xB7\x19\x81"];

#[test]
fn assembled_code_is_packed() {
    if !tools() {
        return;
    }
    let absolute = ASSEMBLER.replace(".area   CODE", ".area   CODE (ABS)\n        .org    0x8000");
    let wide = "-n -i -m -w -b CODE=0x8000";
    let cases = [(ASSEMBLER, wide), (ASSEMBLER, "-n -i -m -b CODE=0x8000"), (&absolute, "-n -i -m -w")];
    for (source, options) in cases {
        let folder = Folder::new();
        folder.write("mode.asm", source);
        tool(&folder, "sdasstm8 -o mode.rel mode.asm");
        tool(&folder, &format!("sdldstm8 {options} mode"));
        let told = folder.good(&PACK);
        assert!(told.starts_with("version 0002, base 8000\n8000-8006 _at_most\n8007-800C _"), "{told}");
        assert_eq!(folder.read("mode.slu"), slu::image_of(2, 0x8000, &ASSEMBLED), "{options}");
    }
    let folder = Folder::new();
    folder.write("mode.asm", ASSEMBLER);
    tool(&folder, "sdasstm8 -o mode.rel mode.asm");
    tool(&folder, "sdldstm8 -n -i -m -w -d -b CODE=0x8000 mode");
    assert_eq!(folder.trouble(&PACK), "mode.map: its numbers are not hexadecimal: link without -d and -q");
    tool(&folder, "sdldstm8 -n -i -m -w -b CODE=0x7000 mode");
    assert_eq!(folder.trouble(&PACK), "mode.ihx: line 1: a byte for 7000, and an image's code is from 8000 to FFFF");
}

/// Compiles and links C in a new folder.
fn compiled(source: &str) -> Folder {
    let folder = Folder::new();
    folder.write("mode.c", source);
    tool(&folder, "sdcc -mstm8 --opt-code-size -c mode.c");
    tool(&folder, "sdcc -mstm8 --nostdlib --code-loc 0x8000 mode.rel -o mode.ihx");
    folder
}

#[test]
fn compiled_code_is_packed() {
    if !tools() {
        return;
    }
    let source = fs::read_to_string(Path::new(TOP).join("examples/c/passage.c")).expect("the example");
    let folder = compiled(&source);
    assert_eq!(folder.good(&PACK), "version 0002, base 8000\n8000-8007 _at_most\n8008-8024 _passage\n");
    assert_eq!(folder.read("mode.slu"), passage());

    let folder = compiled(&source.replace("unsigned char at_most(", "static unsigned char at_most("));
    let said = "mode.map: no routine has 8000 to 8007, for _passage at 8008 is the first";
    assert!(folder.trouble(&PACK).starts_with(said));
    let folder = compiled(&source.replace("passage(", "main("));
    let said = folder.trouble(&PACK);
    assert!(said.starts_with("mode.map: no routine has 8000 to ") && said.contains(" or called main"), "{said}");
}

/// What examples/c/README.md says of the compiler: functions, and the refusal, or 0 where they are accepted.
const OTHER_C: [(&str, u8); 15] = [
    ("void f(void) { out = sea; } void m(void) { out = 1; f(); }", 8),
    ("void f(void) { out = sea; } void m(void) { f(); out = 1; }", 0),
    ("unsigned char f(unsigned char a, unsigned char b) { out = a; return b; } void m(void) { out = f(sea, basin); }", 8),
    ("unsigned char f(unsigned char a, unsigned b) { return a + (unsigned char)b; } void m(void) { out = f(sea, basin); }", 0),
    ("void m(void) { out = sea / basin; }", 8),
    ("void m(void) { out = sea * basin; }", 0),
    ("volatile __at(0x0030) unsigned int w; void m(void) { w = w + 1; }", 8),
    ("volatile __at(0x0130) unsigned int w; void m(void) { w = w + 1; }", 0),
    ("void m(void) { levels[sea] = 1; }", 8),
    ("void m(void) { levels[3] = levels[sea]; }", 0),
    ("unsigned char cell; void m(void) { cell++; }", 0),
    ("const unsigned char t[4] = {1, 2, 3, 4}; void m(void) { out = t[sea]; }", 8),
    ("unsigned char f(unsigned char a) { char b = basin; if (a > b) a = b; return a; } void m(void) { out = f(sea); }", 8),
    ("void m(void) { out = sea > 5 ? basin : 0; }", 10),
    ("void m(void) { if (sea > 5) out = basin; else out = 0; }", 0),
];

#[test]
fn other_c_gets_the_verdicts_that_are_told() {
    if !tools() {
        return;
    }
    let variables = "volatile __at(0x10) unsigned char sea; volatile __at(0x11) unsigned char basin;
        volatile __at(0x12) unsigned char out; volatile __at(0x20) unsigned char levels[8];";
    let limits = Limits { grant: Area { low: 0, high: 0x1FF }, ..LIMITS };
    for (functions, expected) in OTHER_C {
        let folder = compiled(&format!("{variables} {functions}"));
        folder.good(&PACK);
        let verdict = check(&folder.read("mode.slu"), &limits, &mut [0; MARKS_ENOUGH]);
        assert_eq!(verdict.err().map_or(0, |refused| refused.refusal.number()), expected, "{functions}");
    }
}

fn passage() -> Vec<u8> {
    fs::read(Path::new(TOP).join("examples/c/passage.slu")).expect("the example's image")
}

const LIMITS: Limits = Limits { grant: Area { low: 0, high: 0xFF }, stack: Area { low: 0x300, high: 0x3FF }, second: Area::NONE };

/// Head and opening as the routine leaves them.
fn made(image: &[u8], sea: u8, basin: u8, largest: u8) -> (u8, u8) {
    let (mut marks, mut memory, mut registers) = ([0; MARKS_ENOUGH], vec![0; MEMORY_BYTES], Registers::default());
    (memory[0x10], memory[0x11], memory[0x18]) = (sea, basin, largest);
    start(image, &LIMITS, &mut marks, &mut memory, &mut registers).expect("accepted");
    let run = run(image, &LIMITS, &mut memory, &mut registers, 100).expect("run");
    assert_eq!(run.finished(), Ok(true));
    (memory[0x1A], memory[0x19])
}

#[test]
fn a_compiled_routine_runs_to_its_end() {
    let image = passage();
    assert_eq!(check(&image, &LIMITS, &mut [0; MARKS_ENOUGH]), Ok(Accepted { need: 4, count: 20 }));
    for sea in 0..=255u8 {
        for basin in [0, 1, 0x7F, 0x80, sea, sea.wrapping_add(1), 0xFE, 0xFF] {
            for largest in [0, 0x60, 0xC0, 0xFF] {
                let head = sea.abs_diff(basin);
                assert_eq!(made(&image, sea, basin, largest), (head, largest.min(!head)), "{sea} {basin} {largest}");
            }
        }
    }
    let folder = Folder::new();
    folder.write("passage.slu", &image);
    let limits = ["--grant", "0000-00FF", "--stack", "0300-03FF", "passage.slu"];
    let with = |name: &'static str| [&[name], &limits[..]].concat();
    assert_eq!(folder.good(&with("check")), "passage.slu: accepted, need 4, 20 instructions\n  Turn: at most 20 steps\n");
    let trace = folder.good(&with("trace"));
    assert!(trace.lines().last().is_some_and(|line| line.starts_with("finished: ")), "{trace}");
}

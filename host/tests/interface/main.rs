//! The numbers, texts, functions, structs and versions of `include/gate.h`, the Rust interface and README, held against each other: they
//! are read as text, so that no edit of one of them alone goes unseen.

mod header;
mod source;

use gate_host::cells::{self, ReportCells};
use gate_host::{number_text, Area, Cycles, Limits, Refusal, Refused, Registers, Trap};
use header::Header;
use source::Source;

const LIBRARY: &str = include_str!("../../src/lib.rs");
const READMES: [&str; 2] = [include_str!("../../README.md"), include_str!("../../../README.md")];

fn header() -> Header {
    Header::new(include_str!("../../../include/gate.h"))
}

fn source() -> Source {
    Source::new(include_str!("../../src/cells.rs"), include_str!("../../src/types.rs"))
}

/// `NotSlu` as `NOT_SLU`.
fn upper(name: &str) -> String {
    let letter = |(at, letter): (usize, char)| match letter.is_uppercase() && at > 0 {
        true => format!("_{letter}"),
        false => letter.to_uppercase().to_string(),
    };
    name.char_indices().map(letter).collect()
}

#[test]
fn numbers_have_one_name() {
    let source = source();
    let constants = source.constants("u8").into_iter().map(|(name, number)| (number, format!("GATE_{name}")));
    let refusals = source.cases("Refusal").into_iter().map(|(name, number)| (number, format!("GATE_{}", upper(&name))));
    let traps = source.cases("Trap").into_iter().map(|(name, number)| (number, format!("GATE_TRAP_{}", upper(&name))));
    let mut rust: Vec<(u32, String)> = constants.chain(refusals).chain(traps).collect();
    rust.sort();
    let c: Vec<(u32, String)> = header().enumerators("gate_number").into_iter().map(|(name, number)| (number, name)).collect();
    assert_eq!(rust, c);
}

#[test]
fn numbers_have_one_text() {
    let header = header();
    let (texts, other) = header.texts();
    let mut named: Vec<u8> = header.enumerators("gate_number").into_iter().map(|(_, number)| number as u8).collect();
    named.push(18); // of encoding: no function of the header answers it
    named.sort();
    assert_eq!(named, texts.keys().copied().collect::<Vec<_>>());
    for number in 0..=255 {
        assert_eq!(number_text(number), *texts.get(&number).unwrap_or(&other), "{number}");
    }
}

/// README's condition is the text, or the text after a colon and what it is of, such as a trap.
#[test]
fn readme_lists_the_numbers() {
    let header = header();
    let mut texts = header.texts().0;
    texts.remove(&cells::OK);
    let (_, table) = READMES[1].split_once("| No. | Condition |\n|---|---|\n").expect("the table of numbers");
    let row = |row: &'static str| row.trim_matches(['|', ' ']).split_once(" | ").expect("two columns");
    let rows: Vec<(&str, &str)> = table.lines().take_while(|line| line.starts_with('|')).map(row).collect();
    assert_eq!(rows.len(), texts.len());
    for ((number, condition), (expected, text)) in rows.into_iter().zip(texts) {
        assert_eq!(number, expected.to_string());
        assert!(condition == text || condition.ends_with(&format!(": {text}")), "{number}: {condition}: {text}");
    }
}

#[test]
fn errors_display_number_and_text() {
    let source = source();
    for (name, number) in source.cases("Refusal") {
        let refusal = Refusal::from_number(number as u8).unwrap_or_else(|| panic!("{name} has no number"));
        let text = number_text(number as u8);
        assert_eq!(refusal.to_string(), format!("refused with {number}: {text}"));
        let place = if (6..=15).contains(&number) { " at offset 300" } else { "" };
        assert_eq!(Refused { refusal, offset: 300 }.to_string(), format!("refused with {number}{place}: {text}"));
    }
    for (name, number) in source.cases("Trap") {
        let trap = Trap::from_number(number as u8).unwrap_or_else(|| panic!("{name} has no number"));
        assert_eq!(trap.to_string(), format!("trapped with {number}: {}", number_text(number as u8)));
    }
}

#[test]
fn functions_have_one_signature() {
    assert_eq!(source().functions(), header().functions());
}

#[test]
fn structs_have_one_layout() {
    let (source, header) = (source(), header());
    for (rust, c) in
        [("Area", "gate_area"), ("Limits", "gate_limits"), ("RecordCells", "gate_record"), ("LayoutCells", "gate_layout")]
    {
        assert_eq!(source.fields(rust), header.fields(c), "{c}");
    }
    assert_eq!(header.fields("gate_byte"), ["address: u32", "value: u32"]);
}

#[test]
fn constants_have_one_value() {
    let header = header();
    let rust: Vec<(String, u32)> =
        source().constants("usize").into_iter().map(|(name, value)| (format!("GATE_{name}"), value)).collect();
    let sizes = header.defines().into_iter().filter(|(name, value)| value.ends_with('u') && !name.starts_with("GATE_LIBRARY_"));
    assert_eq!(rust, sizes.map(|(name, _)| (name.to_string(), header.value(name))).collect::<Vec<_>>());
    let none = format!("{{ 0x{:04X}, 0x{:04X} }}", Area::NONE.low, Area::NONE.high);
    assert!(header.defines().contains(&("GATE_NO_AREA", &none)));
}

#[test]
fn cells_have_one_order() {
    let header = header();
    let at = |name: &str| header.value(name) as usize;
    let registers = Registers { a: 1, x: 2, y: 3, cc: 4, sp: 5, pc: 6 }.to_cells();
    let in_order = ["GATE_A", "GATE_X", "GATE_Y", "GATE_CC", "GATE_SP", "GATE_PC"].map(|name| registers[at(name)]);
    assert_eq!((in_order, at("GATE_REGISTERS")), ([1, 2, 3, 4, 5, 6], registers.len()));
    let cycles = Cycles { untaken: 1, taken: 2 }.to_cells();
    assert_eq!((cycles[at("GATE_UNTAKEN")], cycles[at("GATE_TAKEN")], at("GATE_CYCLES")), (1, 2, cycles.len()));

    let image = b"SLU\x00\x01\x80\x00\x01\x00\x05\xA6\x05\xB7\x10\x81";
    let mut limits =
        Limits { grant: Area { low: 0x0000, high: 0x00FF }, stack: Area { low: 0x0300, high: 0x03FF }, second: Area::NONE };
    let mut report = ReportCells::default();
    cells::check(image, &limits, &mut [0; 5], &mut report);
    assert_eq!((report[at("GATE_NEED")], report[at("GATE_COUNT")], at("GATE_REPORT")), (2, 3, report.len()));
    limits.grant.high = 0x000F;
    cells::check(image, &limits, &mut [0; 5], &mut report);
    assert_eq!(report[at("GATE_OFFSET")], 2);
}

#[test]
fn the_library_has_one_version() {
    let header = header();
    let [major, minor, patch] = ["MAJOR", "MINOR", "PATCH"].map(|part| header.value(&format!("GATE_LIBRARY_{part}")));
    let version = format!("{major}.{minor}.{patch}");
    assert!(header.defines().contains(&("GATE_LIBRARY_VERSION", &format!("\"{version}\""))));
    assert_eq!(gate_host::VERSION, version);
    assert_eq!(gate_host::library_version().to_string(), version);
}

/// The documents' programs are the one at the head of the crate, which is compiled and run with the tests.
#[test]
fn readme_has_the_example_of_the_crate() {
    let fence = "//! ```\n";
    let example = LIBRARY.split(fence).nth(1).expect("an example at the head of the crate");
    let program: String = example.lines().map(|line| line[3..].strip_prefix(' ').unwrap_or("").to_string() + "\n").collect();
    let blocks = |readme: &'static str| readme.split("```rust\n").skip(1).filter_map(|rest| rest.split("```\n").next());
    let programs: Vec<&str> = READMES.into_iter().flat_map(blocks).filter(|block| block.contains("fn main")).collect();
    assert!(!programs.is_empty());
    for printed in programs {
        assert_eq!(printed, program);
    }
}

//! The twin's decoder and texts against the encodings that were recorded from an assembler.

use gate_twin as twin;
use std::fs;
use std::path::Path;

const ADDRESS: u16 = 0x8000;

fn bytes_of(digits: &str) -> Vec<u8> {
    (0..digits.len()).step_by(2).map(|at| u8::from_str_radix(&digits[at..at + 2], 16).expect("hexadecimal")).collect()
}

#[test]
fn recorded_encodings() {
    let file = Path::new(env!("CARGO_MANIFEST_DIR")).join("../../crates/encodings/data/encodings.txt");
    let recorded = fs::read_to_string(&file).expect("the recorded encodings");
    let mut lines = 0;
    for line in recorded.lines() {
        let (text, digits) = line.split_once('\t').expect("text, TAB, bytes");
        let bytes = bytes_of(digits);
        let (instruction, length) = twin::decode(&bytes).expect(line);
        assert_eq!(length, bytes.len(), "{line}");
        assert_eq!(twin::text(instruction, length, ADDRESS).as_str(), text);
        for short in 0..length {
            assert_eq!(twin::decode(&bytes[..short]), Err(twin::Undecodable::Truncated), "{line}, {short} bytes");
        }
        lines += 1;
    }
    assert_eq!(lines, 2_064);
    println!("{lines} recorded encodings and their texts: no difference");
}

#[test]
fn the_set_has_260_op_codes() {
    let page = |pre: Option<u8>| {
        (0..=255)
            .filter(|&opcode| {
                let mut bytes: Vec<u8> = pre.into_iter().chain([opcode]).collect();
                bytes.resize(6, 0);
                !(pre.is_none() && matches!(opcode, 0x72 | 0x90)) && twin::decode(&bytes).is_ok()
            })
            .count()
    };
    let (plain, page_72, page_90) = (page(None), page(Some(0x72)), page(Some(0x90)));
    assert_eq!(plain + page_72 + page_90, 260);
}

//! The op-codes of the set, and their forms: an instruction's text with the manual's names for its operands.

use gate_host::{decode, Decoded};

/// The operand bytes that forms and texts are shown with.
const OPERANDS: [u8; 4] = [0x12, 0x34, 0x56, 0x78];
/// Where an instruction stands.
pub const ADDRESS: u16 = 0x8000;

pub struct Opcode {
    /// The pre-code, where there is one, and the op-code.
    pub bytes: Vec<u8>,
    pub decoded: Decoded,
    pub name: String,
    pub operands: Vec<String>,
}

/// Every op-code of the set: without pre-code, after 72 and after 90, each page rising.
pub fn opcodes() -> Vec<Opcode> {
    let pages: [&[u8]; 3] = [&[], &[0x72], &[0x90]];
    let all = pages.into_iter().flat_map(|page| (0..=0xFF).map(move |last| [page, &[last]].concat()));
    all.filter(|bytes| !matches!(bytes[..], [0x72 | 0x90])).filter_map(opcode).collect()
}

fn opcode(bytes: Vec<u8>) -> Option<Opcode> {
    let shown = [&bytes[..], &OPERANDS].concat();
    let decoded = decode(&shown, ADDRESS).ok()?;
    let elsewhere = decode(&shown, ADDRESS + 0x1000).ok()?;
    let (name, operands) = split(decoded.text.as_str());
    let operands = operands.iter().zip(split(elsewhere.text.as_str()).1).map(|(here, there)| named(here, there)).collect();
    Some(Opcode { bytes, decoded, name: name.to_string(), operands })
}

/// The name and the operands of a text. Commas inside parentheses part nothing.
fn split(text: &str) -> (&str, Vec<&str>) {
    let (name, rest) = text.split_once(' ').unwrap_or((text, ""));
    let mut depth = 0;
    let operands = rest.split(|letter| {
        depth += i32::from(letter == '(') - i32::from(letter == ')');
        letter == ',' && depth == 0
    });
    (name, operands.filter(|operand| !operand.is_empty()).collect())
}

/// An operand with the manual's name for its digits. What changes with the instruction's address is the target of a jump.
fn named(operand: &str, elsewhere: &str) -> String {
    if operand != elsewhere {
        return "rel".to_string();
    }
    let Some((before, rest)) = operand.split_once('$') else {
        return if operand.starts_with('#') { "#n" } else { operand }.to_string();
    };
    let after = rest.trim_start_matches(|letter: char| letter.is_ascii_hexdigit());
    let name = match (before, rest.len() - after.len()) {
        ("#", 2) => "byte",
        ("#", 4) => "word",
        ("(", 2) => "shortoff",
        ("(", 4) => "longoff",
        ("", 2) => "shortmem",
        ("", 4) => "longmem",
        _ => panic!("{operand}: no such operand"),
    };
    format!("{before}{name}{after}")
}

impl Opcode {
    pub fn form(&self) -> String {
        format!("{} {}", self.name, self.operands.join(",")).trim_end().to_string()
    }

    pub fn operand_bytes(&self) -> usize {
        self.decoded.length - self.bytes.len()
    }
}

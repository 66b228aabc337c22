//! Which bytes of a header are wrong: refusals 2 to 4.

use super::words;
use super::{hex, Lang};

const LETTERS: &[u8] = b"SLU";
const HEADER: usize = 8;
/// The bytes of the limits that `gatecheck` reads before the image.
const LIMITS: usize = 12;
const CODE_AT_MOST: usize = 4_096;
const ADDRESSES: usize = 0x1_0000;

/// Refusal 2.
pub fn not_slu(lang: Lang, image: &[u8]) -> Vec<String> {
    let mut found = Vec::new();
    if image.len() < HEADER {
        found.push(words::under_8_bytes(lang, image.len()));
    }
    let letters = &image[..image.len().min(LETTERS.len())];
    if !letters.is_empty() && letters != LETTERS {
        found.push(words::other_letters(lang, &hex(letters), &hex(LETTERS)));
    }
    if image.get(LIMITS..).is_some_and(|rest| rest.starts_with(LETTERS)) {
        found.push(words::letters_after_limits(lang, LIMITS));
    }
    found
}

/// Refusal 3.
pub fn unknown_version(lang: Lang, image: &[u8]) -> Vec<String> {
    let Some(&[high, low]) = image.get(3..5) else { return Vec::new() };
    let mut found = vec![words::other_version(lang, &hex(&[high, low]))];
    if matches!([high, low], [1 | 2, 0]) {
        found.push(words::low_byte_first(lang));
    }
    found
}

/// Refusal 4: a sentence for each rule that is broken. There is one exactly where the library refuses with 4.
pub fn layout(lang: Lang, image: &[u8]) -> Vec<String> {
    let Some(&[base_high, base_low, count]) = image.get(5..HEADER) else { return Vec::new() };
    let base = u16::from_be_bytes([base_high, base_low]);
    let mut broken = Vec::new();
    if base < 0x8000 {
        broken.push(words::low_base(lang, base));
    }
    if !(1..=32).contains(&count) {
        broken.push(words::routine_count(lang, count));
    }
    let lengths_end = length_offset(count.into());
    match image.get(HEADER..lengths_end) {
        Some(table) => lengths(lang, image, table, base, &mut broken),
        None => broken.push(words::lengths_cut(lang, lengths_end, image.len())),
    }
    broken
}

/// Where in an image the length of a routine stands.
pub fn length_offset(number: usize) -> usize {
    HEADER + 2 * number
}

/// The rules for the lengths of the routines, which are whole.
fn lengths(lang: Lang, image: &[u8], table: &[u8], base: u16, broken: &mut Vec<String>) {
    let lengths = table.chunks_exact(2).map(|pair| usize::from(u16::from_be_bytes([pair[0], pair[1]])));
    for (number, length) in lengths.clone().enumerate() {
        if length == 0 {
            broken.push(words::length_0(lang, number + 1, length_offset(number)));
        }
    }
    let sum: usize = lengths.sum();
    if sum > CODE_AT_MOST {
        broken.push(words::long_code(lang, sum, CODE_AT_MOST));
    }
    if usize::from(base) + sum > ADDRESSES {
        broken.push(words::code_past_ffff(lang, base, sum, usize::from(base) + sum));
    }
    let (begins, found) = (HEADER + table.len(), image.len());
    if found != begins + sum {
        broken.push(words::file_length(lang, begins, sum, begins + sum, found));
    }
}

//! The library and the twin at the same check, where they must agree on the verdict and on every mark.

use gate_host::{Accepted, Limits, Refusal, Refused};
use gate_twin as twin;

/// What a mark holds before a check.
pub const BLANK: u16 = 0xA5A5;

pub type Verdict = Result<Accepted, Refused>;

pub fn refused(number: u8, offset: u16) -> Verdict {
    Err(Refused { refusal: Refusal::from_number(number).expect("1 to 17"), offset })
}

pub fn accepted(need: u16, count: u16) -> Verdict {
    Ok(Accepted { need, count })
}

/// The verdict on an image, and the marks.
pub fn check_and_marks(file: &[u8], limits: &Limits, marks: usize) -> (Verdict, Vec<u16>) {
    let (mut one, mut other) = (vec![BLANK; marks], vec![BLANK; marks]);
    let verdict = gate_host::check(file, limits, &mut one);
    assert_eq!(verdict, twin::check(file, limits, &mut other), "{file:02X?}");
    assert_eq!(one, other, "{file:02X?}");
    if let Err(Refused { refusal, .. }) = verdict {
        // After 6 to 16 the code's marks are 0; every other is as it was.
        let code = if refusal.number() < 6 { 0 } else { twin::Image::parse(file).expect("a good layout").code.len() };
        assert!(one[..code].iter().all(|&mark| mark == 0) && one[code..].iter().all(|&mark| mark == BLANK), "{file:02X?}");
    }
    (verdict, one)
}

pub fn check(file: &[u8], limits: &Limits, marks: usize) -> Verdict {
    check_and_marks(file, limits, marks).0
}

//! Limits from options.

use crate::args::Words;
use crate::trouble::Trouble;
use gate_host::{check, Area, Limits, Refusal};
use std::ffi::OsStr;

/// `--grant`, `--stack` and, where there is one, `--grant2`, each as 0000-00FF.
pub fn limits(words: &Words) -> Result<Limits, Trouble> {
    let wanted = |name| words.one(name)?.ok_or_else(|| Trouble::Usage(format!("{name} LOW-HIGH is missing")));
    Ok(Limits {
        grant: area("--grant", wanted("--grant")?)?,
        stack: area("--stack", wanted("--stack")?)?,
        second: words.one("--grant2")?.map_or(Ok(Area::NONE), |value| area("--grant2", value))?,
    })
}

/// Whether the library refuses limits, whatever the image: it tests them first.
pub fn limits_refused(limits: &Limits) -> bool {
    check(&[], limits, &mut []).is_err_and(|refused| refused.refusal == Refusal::Limits)
}

fn area(name: &str, value: &OsStr) -> Result<Area, Trouble> {
    let ends = value.to_str().and_then(|text| text.split_once('-'));
    let area = ends.and_then(|(low, high)| Some(Area { low: word(low)?, high: word(high)? }));
    area.ok_or_else(|| Trouble::Usage(format!("{name} wants two addresses, such as 0000-00FF, and not {value:?}")))
}

/// One to four hexadecimal digits.
pub fn word(text: &str) -> Option<u16> {
    let digits = text.len() <= 4 && text.bytes().all(|byte| byte.is_ascii_hexdigit());
    digits.then(|| u16::from_str_radix(text, 16).ok()).flatten()
}

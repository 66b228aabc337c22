//! `gate pack`: an image of routines, from files of their bytes or from what the linker writes.

use crate::args::{with_value, Opt, Words};
use crate::limits::word;
use crate::slu::{self, Routine, LOWEST_BASE, MOST_CODE};
use crate::trouble::Trouble;
use crate::{hex, linked, map, source, Command, Outcome};
use gate_host::layout;
use std::ffi::OsStr;
use std::fs;
use std::io::Write;
use std::path::Path;

pub const COMMAND: Command = Command { name: "pack", help: include_str!("help/pack.txt"), options: OPTIONS, run };

const OPTIONS: &[Opt] = &[
    with_value("-o"),
    with_value("--version"),
    with_value("--base"),
    with_value("--ihx"),
    with_value("--map"),
    with_value("--routines"),
];

/// What a new image should be: without CALLR.
const NEW_VERSION: u16 = 2;

/// Far more than the linker writes for the longest code.
const TEXT_BYTES: u64 = 1 << 20;

fn run(words: &Words, out: &mut dyn Write) -> Result<Outcome, Trouble> {
    let output = words.one("-o")?.ok_or_else(|| Trouble::Usage("-o OUT.slu is missing".into()))?;
    let version = number(words, "--version", NEW_VERSION)?;
    let (base, routines) = match (words.one("--ihx")?, words.one("--map")?) {
        (None, None) => from_files(words)?,
        (Some(code), Some(map)) => from_linker(words, code, map)?,
        _ => return Err(Trouble::Usage("--ihx and --map go together".into())),
    };
    let image = slu::image(version, base, &routines);
    let layout = layout(&image).map_err(|refusal| Trouble::NoImage(slu::reason(refusal, version, base, &routines)))?;
    fs::write(output, &image).map_err(|error| Trouble::File(output.into(), error))?;
    slu::print(out, &layout, routines.into_iter().map(|routine| routine.name))?;
    Ok(Outcome::Good)
}

fn from_files(words: &Words) -> Result<(u16, Vec<Routine>), Trouble> {
    if words.given("--routines") {
        return Err(Trouble::Usage("--routines goes with --ihx and --map".into()));
    }
    if words.rest().is_empty() {
        return Err(Trouble::Usage("no routine is given".into()));
    }
    let read = |path: &OsStr| {
        let bytes = source::bytes(path, MOST_CODE as u64)?;
        Ok(Routine { name: Path::new(path).display().to_string(), bytes })
    };
    let routines = words.rest().iter().map(|path| read(path)).collect::<Result<_, Trouble>>()?;
    Ok((number(words, "--base", LOWEST_BASE)?, routines))
}

fn from_linker(words: &Words, code_path: &OsStr, map_path: &OsStr) -> Result<(u16, Vec<Routine>), Trouble> {
    if words.given("--base") {
        return Err(Trouble::Usage("--base goes with routine files; to the linker it was told".into()));
    }
    if let Some(word) = words.rest().first() {
        return Err(Trouble::Usage(format!("routines are in the code of --ihx; what is {word:?}?")));
    }
    let wrong = |path: &OsStr, why| Trouble::Content(path.into(), why);
    let code = hex::code(&source::bytes(code_path, TEXT_BYTES)?).map_err(|why| wrong(code_path, why))?;
    let text = source::bytes(map_path, TEXT_BYTES)?;
    let symbols = map::symbols(&String::from_utf8_lossy(&text)).map_err(|why| wrong(map_path, why))?;
    let names = words.one("--routines")?.map(|names| names.to_string_lossy().into_owned());
    let names: Option<Vec<&str>> = names.as_ref().map(|names| names.split(',').collect());
    let routines = linked::routines(&code, &symbols, names.as_deref()).map_err(|why| wrong(map_path, why))?;
    Ok((code.base, routines))
}

/// The number of an option, in one to four hexadecimal digits.
fn number(words: &Words, name: &'static str, left_out: u16) -> Result<u16, Trouble> {
    let Some(value) = words.one(name)? else { return Ok(left_out) };
    let number = value.to_str().and_then(word);
    number.ok_or_else(|| Trouble::Usage(format!("{name} wants up to four hexadecimal digits, and not {value:?}")))
}

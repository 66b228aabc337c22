//! What a trace begins with and where it ends.

use crate::args::Words;
use crate::limits::word;
use crate::source;
use crate::trouble::Trouble;
use gate_host::{Layout, Registers, MEMORY_BYTES};
use std::ffi::OsStr;

/// Where `--steps` is not given. A routine may never end.
const DEFAULT_STEPS: u64 = 10_000;

/// How far to go.
pub struct Plan {
    pub steps: u64,
    pub default_steps: bool,
    pub breaks: Vec<u16>,
    /// How many steps to go back at the end.
    pub back: u64,
}

impl Plan {
    pub fn read(words: &Words) -> Result<Plan, Trouble> {
        let steps = words.number("--steps")?;
        Ok(Plan {
            steps: steps.unwrap_or(DEFAULT_STEPS),
            default_steps: steps.is_none(),
            breaks: words.all("--break").map(break_address).collect::<Result<_, _>>()?,
            back: words.number("--back")?.unwrap_or(0),
        })
    }

    /// Where no instruction begins a break would never come, and nobody would know why.
    pub fn fits(&self, layout: &Layout, marks: &[u16]) -> Result<(), Trouble> {
        let begins = |address: u16| {
            let offset = address.checked_sub(layout.base).map(usize::from).filter(|&offset| offset < layout.code.len());
            offset.is_some_and(|offset| marks[offset] > 0)
        };
        match self.breaks.iter().find(|&&address| !begins(address)) {
            Some(address) => Err(Trouble::Usage(format!("--break {address:04X}: no instruction begins there"))),
            None => Ok(()),
        }
    }
}

fn break_address(value: &OsStr) -> Result<u16, Trouble> {
    let address = value.to_str().and_then(word);
    address.ok_or_else(|| Trouble::Usage(format!("--break wants an address, such as 8006, and not {value:?}")))
}

/// `--registers A=12,X=3456`: those that are not named are 0. SP and PC are the start's.
pub fn registers(words: &Words) -> Result<Registers, Trouble> {
    let mut registers = Registers::default();
    let Some(value) = words.one("--registers")? else { return Ok(registers) };
    let wrong = || {
        Trouble::Usage(format!(
            "--registers wants some of A, X, Y and CC once each, such as A=12,X=3456,CC=01, and not {value:?}"
        ))
    };
    let mut named = Vec::new();
    for assigned in value.to_str().ok_or_else(wrong)?.split(',') {
        let (name, number) = assigned.split_once('=').ok_or_else(wrong)?;
        let number = word(number).ok_or_else(wrong)?;
        match name {
            "A" => registers.a = number.try_into().map_err(|_| wrong())?,
            "X" => registers.x = number,
            "Y" => registers.y = number,
            "CC" => registers.cc = number.try_into().map_err(|_| wrong())?,
            _ => return Err(wrong()),
        }
        if named.contains(&name) {
            return Err(wrong());
        }
        named.push(name);
    }
    Ok(registers)
}

/// The bytes of `--memory`, or zeros.
pub fn memory(words: &Words) -> Result<Vec<u8>, Trouble> {
    let Some(path) = words.one("--memory")? else { return Ok(vec![0; MEMORY_BYTES]) };
    let memory = source::bytes(path, MEMORY_BYTES as u64)?;
    match memory.len() {
        MEMORY_BYTES => Ok(memory),
        length => Err(Trouble::Content(path.into(), format!("{length} bytes, and a memory is {MEMORY_BYTES}, for 0000 to 7FFF"))),
    }
}

//! How a trace begins: with a start, or from a saved state.

use super::options;
use crate::args::Words;
use crate::source;
use crate::trouble::Trouble;
use gate_host::{resume, start, Accepted, Limits, Refused, Registers};

pub enum Begin {
    /// With these registers; SP and PC are the start's.
    Start(Registers),
    /// With the bytes of a file, whatever they are.
    Resume(Vec<u8>),
}

/// What a trace begins with.
pub struct Begun {
    pub registers: Registers,
    pub how: How,
}

pub enum How {
    Started(Accepted),
    /// After so many steps.
    Resumed(u64),
}

impl Begin {
    /// `--resume`, or a start with `--registers`.
    pub fn read(words: &Words) -> Result<Begin, Trouble> {
        let Some(path) = words.one("--resume")? else { return Ok(Begin::Start(options::registers(words)?)) };
        if words.given("--registers") {
            return Err(Trouble::Usage("--registers goes with a start; with --resume they are those of the saved state".into()));
        }
        if !words.given("--memory") {
            return Err(Trouble::Usage(
                "--resume wants --memory too, the file that --memory-out wrote with the saved state".into(),
            ));
        }
        Ok(Begin::Resume(source::saved(path)?))
    }

    pub fn begin(self, image: &[u8], limits: &Limits, marks: &mut [u16], memory: &mut [u8]) -> Result<Begun, Refused> {
        match self {
            Begin::Start(mut registers) => {
                let accepted = start(image, limits, marks, memory, &mut registers)?;
                Ok(Begun { registers, how: How::Started(accepted) })
            }
            Begin::Resume(saved) => {
                // Without budget it makes no step: each is made and printed here.
                let resumed = resume(image, limits, marks, memory, saved, 0)?;
                Ok(Begun { registers: resumed.registers, how: How::Resumed(resumed.steps) })
            }
        }
    }
}

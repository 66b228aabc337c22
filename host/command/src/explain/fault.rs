//! Where a refusal points.

use super::page::{name, range, Page};
use super::{hex, words};
use crate::code::{Code, Routine, Start};
use gate_host::decode;

pub struct Fault<'a> {
    pub code: &'a Code<'a>,
    /// The number of the routine, from 0.
    pub number: usize,
    pub routine: &'a Routine<'a>,
    /// From the first code byte.
    pub offset: usize,
}

impl<'a> Fault<'a> {
    pub fn at(code: &'a Code<'a>, offset: usize) -> Option<Fault<'a>> {
        let number = code.routine_of(offset)?;
        Some(Fault { code, number, routine: &code.routines[number], offset })
    }

    /// The number of the start there, and the start.
    pub fn start(&self) -> Option<(usize, &'a Start<'a>)> {
        let number = self.routine.start_at(self.offset)?;
        Some((number, &self.routine.starts[number]))
    }

    pub fn place(&self, page: &mut Page) {
        let (routine, range) = (name(page.lang, self.code, self.number), range(self.code, &self.routine.range));
        page.line(&words::place(page.lang, self.code.address(self.offset), self.offset, &routine, &range));
    }

    pub fn instruction(&self, page: &mut Page) {
        match (self.start(), self.routine.stuck) {
            (Some((_, start)), _) => page.line(&words::instruction(page.lang, &hex(start.bytes), start.text.as_str())),
            (None, Some(stuck)) => match decode(stuck.bytes, stuck.address) {
                Ok(decoded) => page.line(&words::instruction(page.lang, &hex(stuck.front()), decoded.text.as_str())),
                Err(_) => page.line(&words::found(page.lang, &hex(stuck.front()))),
            },
            (None, None) => {}
        }
    }
}

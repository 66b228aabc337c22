//! The parts that explanations are made of: names, listings and paths.

use super::limit_rules;
use super::paths::{Path, Reach};
use super::{hex, words, Lang};
use crate::code::{Code, Flow, Routine, Start, Stuck};
use gate_host::{decode, Area, Refusal};
use std::fmt::Write;
use std::ops::Range;

/// How many instructions are shown on each side of one.
const AROUND: usize = 4;
/// What begins an op-code of two bytes. Those after 91 and 92 are all outside the set.
pub const PRE_CODES: [u8; 4] = [0x72, 0x90, 0x91, 0x92];
/// How many lines of a path are shown at its beginning and at its end.
const PATH_ENDS: usize = 12;

/// An explanation as it grows.
pub struct Page {
    pub lang: Lang,
    pub text: String,
}

impl Page {
    pub fn new(lang: Lang) -> Page {
        Page { lang, text: String::new() }
    }

    /// A line at the margin.
    pub fn title(&mut self, text: &str) {
        self.text.extend([text.trim_end(), "\n"]);
    }

    /// A line of its own, under the title.
    pub fn line(&mut self, text: &str) {
        self.text.extend(["  ", text.trim_end(), "\n"]);
    }

    /// A line under one of these.
    pub fn item(&mut self, text: &str) {
        self.text.extend(["    ", text.trim_end(), "\n"]);
    }

    pub fn why(&mut self, sentence: &str) {
        self.line(&words::why(self.lang, sentence));
    }

    /// More causes than one.
    pub fn whys(&mut self, sentences: &[String]) {
        if let [first, rest @ ..] = sentences {
            self.why(first);
            rest.iter().for_each(|sentence| self.item(sentence));
        }
    }

    pub fn advise(&mut self, sentence: &str) {
        self.line(&words::to_do(self.lang, sentence));
    }

    /// The code of a routine around an offset, which is marked; with depths, where they are given.
    pub fn listing(&mut self, routine: &Routine, offset: usize, reach: Option<&Reach>) {
        let lang = self.lang;
        self.line(&if reach.is_some() { words::code_with_depths(lang) } else { words::code_around(lang) });
        let marked = routine.starts.iter().take_while(|start| start.offset < offset).count();
        let last = (marked + AROUND + 1).min(routine.starts.len());
        for number in marked.saturating_sub(AROUND)..last {
            let start = &routine.starts[number];
            let depth = reach.map(|reach| depth_text(reach.depth(number)));
            self.item(&listed(start.offset == offset, start.address, depth.as_deref(), start.bytes, start.text.as_str()));
        }
        if let Some(stuck) = routine.stuck.filter(|_| last == routine.starts.len()) {
            self.item(&listed(stuck.offset == offset, stuck.address, None, stuck.front(), &stuck.text(lang)));
        }
    }

    /// A path: its first and last starts, the jumps that it takes, and what moves the depth. The rest falls from one to the next.
    pub fn path(&mut self, routine: &Routine, path: &Path) {
        let mut depth = 0;
        let mut lines = Vec::new();
        for (place, &number) in path.starts.iter().enumerate() {
            let start = &routine.starts[number];
            let next = path.starts.get(place + 1).map(|&next| &routine.starts[next]);
            let note = next.and_then(|next| self.note(start, next));
            if place == 0 || next.is_none() || note.is_some() {
                let line = format!("{:04X} {depth:>4}  {:<20} {}", start.address, start.text.as_str(), note.unwrap_or_default());
                lines.push(line);
            }
            depth += start.pushed;
        }
        let left_out = lines.len().saturating_sub(2 * PATH_ENDS);
        for (place, line) in lines.iter().enumerate() {
            match place {
                PATH_ENDS if left_out > 0 => self.item(&words::lines_left_out(self.lang, left_out)),
                _ if (PATH_ENDS..PATH_ENDS + left_out).contains(&place) => {}
                _ => self.item(line),
            }
        }
    }

    /// What a path does at a start that goes on to another one, if it is worth a line.
    fn note(&self, start: &Start, next: &Start) -> Option<String> {
        let jumps = matches!(start.flow, Flow::Jumps(_)) || next.offset != start.end();
        match start.pushed {
            0 if jumps => Some(words::jump_taken(self.lang)),
            0 => None,
            pushed => Some(format!("{pushed:+}")),
        }
    }
}

fn listed(marked: bool, address: u16, depth: Option<&str>, bytes: &[u8], text: &str) -> String {
    let mut line = format!("{} {address:04X}", if marked { '>' } else { ' ' });
    if let Some(depth) = depth {
        let _ = write!(line, " {depth:>4}");
    }
    let _ = write!(line, "  {:<15} {text}", hex(bytes));
    line
}

fn depth_text(depth: Option<i32>) -> String {
    depth.map_or("-".into(), |depth| depth.to_string())
}

impl Stuck<'_> {
    /// The bytes that belong together: those left, an instruction that the version leaves out, or an op-code.
    pub fn front(&self) -> &[u8] {
        let length = match (self.refusal, decode(self.bytes, self.address)) {
            (Refusal::Truncated, _) => self.bytes.len(),
            (_, Ok(decoded)) => decoded.length,
            (_, Err(_)) if PRE_CODES.contains(&self.bytes[0]) => 2,
            (_, Err(_)) => 1,
        };
        &self.bytes[..length.min(self.bytes.len())]
    }

    fn text(&self, lang: Lang) -> String {
        match (self.refusal, decode(self.bytes, self.address)) {
            (Refusal::Truncated, _) => words::cut_short(lang),
            (_, Ok(decoded)) => format!("{} {}", decoded.text, words::not_of_the_set(lang)),
            (_, Err(_)) => words::not_of_the_set(lang),
        }
    }
}

/// "routine 1 of 2", and that it is main.
pub fn name(lang: Lang, code: &Code, number: usize) -> String {
    let count = code.routines.len();
    match number + 1 {
        last if last == count => words::main_routine(lang, last, count),
        other => words::routine(lang, other, count),
    }
}

/// The addresses of a routine.
pub fn range(code: &Code, range: &Range<usize>) -> String {
    limit_rules::text(Area { low: code.address(range.start), high: code.address(range.end - 1) })
}

/// The address after an instruction, which may be 10000.
pub fn next_address(start: &Start) -> String {
    format!("{:04X}", usize::from(start.address) + start.bytes.len())
}

//! `gate list`: the instructions of an accepted image as gatecheck prints them, or with the jumps drawn beside them.

use crate::args::{flag, with_value, Opt, Words};
use crate::code::{Code, Routine, Start};
use crate::flow::Drawing;
use crate::limits::limits;
use crate::trouble::Trouble;
use crate::{source, Command, Outcome};
use gate_host::{check, Refused, MARKS_ENOUGH};
use std::io::{self, Write};

pub const COMMAND: Command = Command { name: "list", help: include_str!("help/list.txt"), options: OPTIONS, run };

const OPTIONS: &[Opt] = &[with_value("--grant"), with_value("--stack"), with_value("--grant2"), flag("--flow")];

/// As far as most lines go: what is said at the right of some stands one below the other.
const LINE: usize = 28;

fn run(words: &Words, out: &mut dyn Write) -> Result<Outcome, Trouble> {
    let limits = limits(words)?;
    let image = source::image(words.only_image()?)?;
    let mut marks = [0; MARKS_ENOUGH];
    let verdict = check(&image, &limits, &mut marks).and_then(|accepted| Ok((accepted, Code::read(&image)?)));
    match verdict {
        Ok((accepted, code)) => {
            writeln!(out, "accepted {} {}", accepted.need, accepted.count)?;
            let listing = Listing { code: &code, marks: &marks };
            if words.given("--flow") {
                listing.flow(out)?
            } else {
                listing.plain(out)?
            };
            Ok(Outcome::Good)
        }
        Err(Refused { refusal, offset }) => {
            writeln!(out, "refused {} {offset}", refusal.number())?;
            Ok(Outcome::Refused)
        }
    }
}

struct Listing<'a> {
    code: &'a Code<'a>,
    marks: &'a [u16],
}

impl Listing<'_> {
    fn plain(&self, out: &mut dyn Write) -> io::Result<()> {
        for start in self.code.routines.iter().flat_map(|routine| &routine.starts) {
            writeln!(out, "{}", self.line(start))?;
        }
        Ok(())
    }

    /// Address, depth and text. An accepted image's mark at a start is its depth + 1.
    fn line(&self, start: &Start) -> String {
        format!("{:04X} {} {}", start.address, self.marks[start.offset].saturating_sub(1), start.text)
    }

    fn flow(&self, out: &mut dyn Write) -> io::Result<()> {
        let drawings: Vec<Drawing> = self.code.routines.iter().map(|routine| drawing(self.code, routine)).collect();
        let lanes = drawings.iter().map(Drawing::lanes).max().unwrap_or(0);
        for (number, (routine, drawing)) in self.code.routines.iter().zip(&drawings).enumerate() {
            writeln!(out, "\n{}", self.heading(number))?;
            for (row, start) in routine.starts.iter().enumerate() {
                let line = self.line(start);
                let drawn = drawing.row(row, lanes);
                match self.remark(start, drawing.is_drawn(row)) {
                    Some(remark) => writeln!(out, "{drawn}{line:LINE$}; {remark}")?,
                    None => writeln!(out, "{drawn}{line}")?,
                }
            }
        }
        Ok(())
    }

    fn heading(&self, number: usize) -> String {
        let (count, range) = (self.code.routines.len(), &self.code.routines[number].range);
        let addresses = format!("{:04X}-{:04X}", self.code.address(range.start), self.code.address(range.end - 1));
        match number + 1 {
            last if last == count => format!("main, {addresses}"),
            number => format!("routine {number} of {count}, {addresses}"),
        }
    }

    /// Where a call goes, and a jump that is not drawn.
    fn remark(&self, start: &Start, drawn: bool) -> Option<String> {
        let callee = start.flow.call().and_then(|target| self.code.routine_of(self.code.offset(target)?));
        let jump = start.flow.jump().filter(|_| !drawn);
        callee.map(|number| format!("calls routine {}", number + 1)).or(jump.map(|target| format!("-> {target:04X}")))
    }
}

/// The jumps of a routine; its rows are its starts.
fn drawing(code: &Code, routine: &Routine) -> Drawing {
    let target = |start: &Start| routine.start_at(code.offset(start.flow.jump()?)?);
    let jumps = routine.starts.iter().enumerate().filter_map(|(row, start)| Some((row, target(start)?)));
    Drawing::new(jumps)
}

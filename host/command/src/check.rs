//! `gate check`: a verdict for each image.

use crate::args::{with_value, Opt, Words};
use crate::code::Code;
use crate::explain::{self, Lang};
use crate::limits::{limits, limits_refused};
use crate::trouble::Trouble;
use crate::{images, Command, Outcome};
use gate_host::{check, turn, Accepted, Limits, Refused, Turn, MARKS_ENOUGH};
use std::io::Write;

pub const COMMAND: Command = Command { name: "check", help: include_str!("help/check.txt"), options: OPTIONS, run };

const OPTIONS: &[Opt] = &[with_value("--grant"), with_value("--stack"), with_value("--grant2")];

fn run(words: &Words, out: &mut dyn Write) -> Result<Outcome, Trouble> {
    let limits = limits(words)?;
    if limits_refused(&limits) {
        // Every image would be refused for them, and none is to blame.
        out.write_all(explain::of_limits(Lang::En, &limits).as_bytes())?;
        return Ok(Outcome::Refused);
    }
    let mut marks = [0; MARKS_ENOUGH];
    images::each(words, out, |name, image, out| match verdict(image, &limits, &mut marks) {
        Ok((Accepted { need, count }, turn, code)) => {
            writeln!(out, "{name}: accepted, need {need}, {count} instructions")?;
            writeln!(out, "  {}", explain::turn_line(Lang::En, &code, turn))?;
            Ok(Outcome::Good)
        }
        Err(refused) => {
            writeln!(out, "{name}: {refused}")?;
            Ok(Outcome::Refused)
        }
    })
}

fn verdict<'a>(image: &'a [u8], limits: &Limits, marks: &mut [u16]) -> Result<(Accepted, Turn, Code<'a>), Refused> {
    Ok((check(image, limits, marks)?, turn(image, limits, marks)?, Code::read(image)?))
}

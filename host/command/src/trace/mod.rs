//! `gate trace`: starts a routine, or resumes it, and prints each step.

mod begin;
mod files;
mod json;
mod machine;
mod options;
mod plain;

use crate::args::{flag, with_value, Opt, Words};
use crate::limits::limits;
use crate::trouble::Trouble;
use crate::{source, Command, Outcome};
use begin::{Begin, Begun};
use files::Files;
use gate_host::{layout, Refused, Registers, MARKS_ENOUGH};
use machine::{Machine, Move, Totals, MOST_STEPS};
use options::Plan;
use std::io::{self, Write};

pub const COMMAND: Command = Command { name: "trace", help: include_str!("../help/trace.txt"), options: OPTIONS, run };

const OPTIONS: &[Opt] = &[
    with_value("--grant"),
    with_value("--stack"),
    with_value("--grant2"),
    with_value("--steps"),
    with_value("--registers"),
    with_value("--memory"),
    with_value("--resume"),
    with_value("--break"),
    with_value("--back"),
    with_value("--save"),
    with_value("--memory-out"),
    flag("--json"),
];

/// The flags by bit of CC, from the highest: a letter for people, and the manual's name.
const FLAGS: [(u8, char, &str); 7] =
    [(7, 'V', "V"), (5, 'I', "I1"), (4, 'H', "H"), (3, 'I', "I0"), (2, 'N', "N"), (1, 'Z', "Z"), (0, 'C', "C")];

/// Why no further step is made.
pub enum End {
    Finished,
    /// As many as were asked for are made.
    Steps,
    /// As many as are made where none are asked for.
    DefaultSteps,
    /// The total is the largest that there is.
    Total,
    Break,
    /// The next step is not made, and this is the library's answer in words.
    Trapped(String),
}

/// How a trace is printed.
trait Printer {
    fn refused(&self, out: &mut dyn Write, refused: &Refused) -> io::Result<()>;
    fn begun(&self, out: &mut dyn Write, begun: &Begun) -> io::Result<()>;
    fn made(&self, out: &mut dyn Write, made: &Move) -> io::Result<()>;
    fn ended(&self, out: &mut dyn Write, end: &End, registers: &Registers, totals: &Totals) -> io::Result<()>;
    fn gone_back(&self, out: &mut dyn Write, undone: &Move) -> io::Result<()>;
    fn back(&self, out: &mut dyn Write, registers: &Registers, totals: &Totals) -> io::Result<()>;
    fn written(&self, out: &mut dyn Write, files: &Files) -> io::Result<()>;
}

fn run(words: &Words, out: &mut dyn Write) -> Result<Outcome, Trouble> {
    let limits = limits(words)?;
    let plan = Plan::read(words)?;
    let files = Files::read(words)?;
    let begin = Begin::read(words)?;
    let mut memory = options::memory(words)?;
    let image = source::image(words.only_image()?)?;
    let printer: &dyn Printer = if words.given("--json") { &json::Json } else { &plain::Plain };
    let mut marks = [0; MARKS_ENOUGH];
    let begun = begin.begin(&image, &limits, &mut marks, &mut memory);
    match begun.and_then(|begun| Ok((begun, layout(&image)?))) {
        Ok((begun, layout)) => {
            plan.fits(&layout, &marks)?;
            printer.begun(out, &begun)?;
            let mut machine = Machine::new(&image, &limits, layout, memory, &begun, plan.back);
            let outcome = forth(&mut machine, &plan, printer, out)?;
            back(&mut machine, &plan, printer, out)?;
            files.write(&machine)?;
            printer.written(out, &files)?;
            Ok(outcome)
        }
        Err(refused) => {
            printer.refused(out, &refused)?;
            Ok(Outcome::Refused)
        }
    }
}

fn forth(machine: &mut Machine, plan: &Plan, printer: &dyn Printer, out: &mut dyn Write) -> Result<Outcome, Trouble> {
    let end = loop {
        if machine.registers.pc == 0 {
            break End::Finished;
        }
        // A break at which it was paused does not stop it there again.
        let paused_here = machine.totals.resumed == Some(machine.totals.steps);
        if !paused_here && plan.breaks.iter().any(|&address| u32::from(address) == machine.registers.pc) {
            break End::Break;
        }
        if machine.totals.steps == MOST_STEPS {
            break End::Total;
        }
        if machine.totals.made() == plan.steps {
            break if plan.default_steps { End::DefaultSteps } else { End::Steps };
        }
        match machine.step() {
            Ok(made) => printer.made(out, &made)?,
            Err(answer) => break End::Trapped(answer),
        }
    };
    printer.ended(out, &end, &machine.registers, &machine.totals)?;
    // The guarantee is that a routine that was started, or resumed from a good state, does not trap, whatever registers and memory
    // it was begun with: all of these went through the start or the resume, and nothing but its own steps has written since. Should
    // one trap, the status says it.
    Ok(if matches!(end, End::Trapped(_)) { Outcome::Refused } else { Outcome::Good })
}

fn back(machine: &mut Machine, plan: &Plan, printer: &dyn Printer, out: &mut dyn Write) -> Result<(), Trouble> {
    if plan.back > 0 {
        while let Some(undone) = machine.back() {
            printer.gone_back(out, &undone)?;
        }
        printer.back(out, &machine.registers, &machine.totals)?;
    }
    Ok(())
}

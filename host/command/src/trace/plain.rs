//! A trace as text that can be compared line by line.

use super::begin::{Begun, How};
use super::files::Files;
use super::machine::{Move, Totals, MOST_STEPS};
use super::{End, Printer, FLAGS};
use gate_host::{Refusal, Refused, Registers};
use std::fmt::Write as _;
use std::io::{self, Write};

const HEADING: &str = "ADDR INSTRUCTION          A  X    Y    SP   V I H I N Z C  CYCLES     SUM  STORED";

pub struct Plain;

impl Printer for Plain {
    fn refused(&self, out: &mut dyn Write, refused: &Refused) -> io::Result<()> {
        writeln!(out, "{refused}")?;
        match refused.refusal {
            Refusal::NotSls => writeln!(out, "  To do: give --resume a file that --save wrote"),
            Refusal::NotGood => writeln!(out, "  To do: give the image, the limits and the memory that it was saved with"),
            _ => Ok(()),
        }
    }

    fn begun(&self, out: &mut dyn Write, begun: &Begun) -> io::Result<()> {
        let state = state(&begun.registers, &begun.registers);
        let how = match begun.how {
            How::Started(_) => "(start)",
            How::Resumed(_) => "(resumed)",
        };
        writeln!(out, "{HEADING}\n     {how:20} {}", state.trim_end())
    }

    fn made(&self, out: &mut dyn Write, made: &Move) -> io::Result<()> {
        writeln!(out, "{}", row(made, ""))
    }

    fn ended(&self, out: &mut dyn Write, end: &End, registers: &Registers, totals: &Totals) -> io::Result<()> {
        let pc = registers.pc;
        match end {
            End::Finished => write!(out, "finished")?,
            End::Steps => write!(out, "stopped before {pc:04X}, as --steps says")?,
            End::DefaultSteps => write!(out, "stopped before {pc:04X}, since --steps {} is the default", totals.made())?,
            End::Total => write!(out, "stopped before {pc:04X}, since a total of {MOST_STEPS} steps is the most")?,
            End::Break => write!(out, "break before {pc:04X}")?,
            End::Trapped(answer) => write!(out, "{answer}, before {pc:04X}")?,
        }
        writeln!(out, ": {}", sums(totals))
    }

    fn gone_back(&self, out: &mut dyn Write, undone: &Move) -> io::Result<()> {
        writeln!(out, "{}", row(undone, "-"))
    }

    fn back(&self, out: &mut dyn Write, registers: &Registers, totals: &Totals) -> io::Result<()> {
        writeln!(out, "back before {:04X}: {}", registers.pc, sums(totals))
    }

    fn written(&self, out: &mut dyn Write, files: &Files) -> io::Result<()> {
        match (&files.state, &files.memory) {
            (Some(state), Some(memory)) => writeln!(out, "saved in {}, and the memory in {}", state.display(), memory.display()),
            (None, Some(memory)) => writeln!(out, "the memory is in {}", memory.display()),
            _ => Ok(()),
        }
    }
}

fn sums(totals: &Totals) -> String {
    let (steps, cycles) = (totals.steps, totals.cycles);
    match totals.resumed {
        None => format!("steps {steps}, cycles {cycles}"),
        Some(_) => format!("steps {steps} in all; since resumed steps {}, cycles {cycles}", totals.made()),
    }
}

/// The instruction, and the registers and the bytes after it or, gone back, before it. The sign is that of its cycles.
fn row(moved: &Move, sign: &str) -> String {
    let Move { address, text, from, to, cycles, totals, .. } = moved;
    let cycles = format!("{sign}{cycles}");
    let mut row = format!("{address:04X} {:20} {} {cycles:>7} {:>7}", text.as_str(), state(from, to), totals.cycles);
    for byte in &moved.bytes {
        // Writing to a string does not fail.
        let _ = write!(row, "  {:04X}: {:02X}->{:02X}", byte.address, byte.before, byte.after);
    }
    row
}

/// Registers and flags after a move: a letter where one is set, `-` where it is clear, and `*` after those that changed.
fn state(from: &Registers, to: &Registers) -> String {
    let mut state = format!("{:02X} {:04X} {:04X} {:04X} ", to.a, to.x, to.y, to.sp);
    for (bit, letter, _) in FLAGS {
        let changed = (from.cc ^ to.cc) >> bit & 1 == 1;
        state.push(if to.cc >> bit & 1 == 1 { letter } else { '-' });
        state.push(if changed { '*' } else { ' ' });
    }
    state
}

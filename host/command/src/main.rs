//! `gate`: what people ask of gate routines. Whatever it says of an image comes from the proved library.
//!
//! The exit status is 0 where all is well, 1 where an image is refused or a routine traps, and 2 where something could not be tried.

mod args;
mod check;
mod code;
mod explain;
mod flow;
mod hex;
mod images;
mod limits;
mod linked;
mod list;
mod map;
mod pack;
mod slu;
mod source;
mod trace;
mod trouble;
mod unpack;

use args::Words;
use std::env::args_os;
use std::ffi::OsString;
use std::io::{stdout, BufWriter, Write};
use std::process::ExitCode;
use trouble::Trouble;

/// What came of a command, the worse the greater.
#[derive(Clone, Copy, Debug, PartialEq, Eq, PartialOrd, Ord)]
pub enum Outcome {
    Good,
    Refused,
    /// Some of it could not be tried, which has been said.
    Untried,
}

/// A command by its name: its options, its help, and what it does.
struct Command {
    name: &'static str,
    help: &'static str,
    options: &'static [args::Opt],
    run: fn(&Words, &mut dyn Write) -> Result<Outcome, Trouble>,
}

const COMMANDS: &[Command] = &[check::COMMAND, explain::COMMAND, list::COMMAND, trace::COMMAND, pack::COMMAND, unpack::COMMAND];

const HELP: &str = include_str!("help/gate.txt");

fn main() -> ExitCode {
    let mut out = BufWriter::new(stdout().lock());
    let answer = run(args_os().skip(1).collect(), &mut out).and_then(|outcome| {
        out.flush()?;
        Ok(outcome)
    });
    match answer {
        Ok(Outcome::Good) => ExitCode::SUCCESS,
        Ok(Outcome::Refused) => ExitCode::from(1),
        Ok(Outcome::Untried) => ExitCode::from(2),
        Err(trouble) => {
            trouble.say();
            ExitCode::from(2)
        }
    }
}

fn run(words: Vec<OsString>, out: &mut dyn Write) -> Result<Outcome, Trouble> {
    let Some((first, rest)) = words.split_first() else {
        return Err(Trouble::Usage("no command is given; `gate --help` lists them".into()));
    };
    match first.to_str() {
        Some("--help" | "-h" | "help") => print(out, HELP),
        Some("--version" | "-V") => {
            print(out, &format!("gate {}, library {}\n", gate_host::VERSION, gate_host::library_version()))
        }
        name => match COMMANDS.iter().find(|command| Some(command.name) == name) {
            Some(command) if rest.iter().any(|word| word == "--help" || word == "-h") => print(out, command.help),
            Some(command) => (command.run)(&Words::parse(rest, command.options)?, out),
            None => Err(Trouble::Usage(format!("there is no command {first:?}; `gate --help` lists them"))),
        },
    }
}

fn print(out: &mut dyn Write, text: &str) -> Result<Outcome, Trouble> {
    out.write_all(text.as_bytes())?;
    Ok(Outcome::Good)
}

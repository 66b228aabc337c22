//! Why a command could not be tried.

use std::fmt::{Display, Formatter};
use std::io::{self, stderr, Write};
use std::path::PathBuf;

#[derive(Debug)]
pub enum Trouble {
    /// The words of the command are not as its help says.
    Usage(String),
    /// A file could not be read or written.
    File(PathBuf, io::Error),
    /// A file does not hold what it should.
    Content(PathBuf, String),
    /// No image can be made of what was given.
    NoImage(String),
    /// What was to be printed could not be written.
    Output(io::Error),
}

impl Trouble {
    /// Says it on standard error. Where that is closed, the exit status alone has to.
    pub fn say(&self) {
        let _ = writeln!(stderr(), "gate: {self}");
    }
}

impl Display for Trouble {
    fn fmt(&self, formatter: &mut Formatter<'_>) -> std::fmt::Result {
        match self {
            Trouble::Usage(why) => formatter.write_str(why),
            Trouble::File(path, error) => write!(formatter, "{}: {error}", path.display()),
            Trouble::Content(path, why) => write!(formatter, "{}: {why}", path.display()),
            Trouble::NoImage(why) => write!(formatter, "no image can be made: {why}"),
            Trouble::Output(error) if error.kind() == io::ErrorKind::BrokenPipe => {
                formatter.write_str("standard output was closed before all was written")
            }
            Trouble::Output(error) => write!(formatter, "standard output: {error}"),
        }
    }
}

impl From<io::Error> for Trouble {
    fn from(error: io::Error) -> Trouble {
        Trouble::Output(error)
    }
}

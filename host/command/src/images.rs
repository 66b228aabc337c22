//! The images that a command is given, one after another.

use crate::args::Words;
use crate::trouble::Trouble;
use crate::{source, Outcome};
use std::io::{stderr, stdout, IsTerminal, Write};
use std::path::Path;
use std::time::{Duration, Instant};

/// More images than this are many, and progress is shown.
const MANY: usize = 50;
const EVERY: Duration = Duration::from_millis(100);

/// Tries each image, by its name and bytes. Of one that cannot be read it says so, and goes on.
pub fn each(
    words: &Words,
    out: &mut dyn Write,
    mut tried: impl FnMut(&str, &[u8], &mut dyn Write) -> Result<Outcome, Trouble>,
) -> Result<Outcome, Trouble> {
    let paths = words.rest();
    if paths.is_empty() {
        return Err(Trouble::Usage("no image is given".into()));
    }
    let mut progress = Progress::of(paths.len());
    let mut worst = Outcome::Good;
    for (done, path) in paths.iter().enumerate() {
        let outcome = match source::image(path) {
            Ok(image) => tried(&Path::new(path).display().to_string(), &image, out)?,
            Err(trouble) => {
                out.flush()?;
                progress.wipe();
                trouble.say();
                Outcome::Untried
            }
        };
        worst = worst.max(outcome);
        progress.show(done + 1);
    }
    progress.wipe();
    Ok(worst)
}

/// A line on standard error that says how many images are done.
struct Progress {
    total: usize,
    /// When it was last written, if it is to be written at all.
    last: Option<Instant>,
    /// The letters that are there now.
    width: usize,
}

impl Progress {
    /// Where verdicts go to a terminal too they are progress enough, and the two would mix.
    fn of(total: usize) -> Progress {
        let shown = total > MANY && stderr().is_terminal() && !stdout().is_terminal();
        Progress { total, last: shown.then(Instant::now), width: 0 }
    }

    fn show(&mut self, done: usize) {
        if self.last.is_some_and(|last| last.elapsed() >= EVERY) {
            self.last = Some(Instant::now());
            self.write(&line(done, self.total));
        }
    }

    fn wipe(&mut self) {
        if self.width > 0 {
            let blank = " ".repeat(self.width);
            self.write(&blank);
            self.write("");
        }
    }

    /// Writes over what is there. If that fails there is no progress to see, and nothing else is lost.
    fn write(&mut self, text: &str) {
        let _ = write!(stderr(), "\r{text}").and_then(|()| stderr().flush());
        self.width = text.len();
    }
}

fn line(done: usize, total: usize) -> String {
    format!("{done} of {total}")
}

#[cfg(test)]
mod tests {
    #[test]
    fn progress_says_how_many_are_done() {
        assert_eq!(super::line(123, 4567), "123 of 4567");
    }
}

//! `gate unpack`: the routines of an image as files.

use crate::args::{with_value, Opt, Words};
use crate::trouble::Trouble;
use crate::{slu, source, Command, Outcome};
use gate_host::layout;
use std::ffi::OsStr;
use std::fs;
use std::io::Write;
use std::path::{Path, PathBuf};

pub const COMMAND: Command = Command { name: "unpack", help: include_str!("help/unpack.txt"), options: OPTIONS, run };

const OPTIONS: &[Opt] = &[with_value("-d")];

fn run(words: &Words, out: &mut dyn Write) -> Result<Outcome, Trouble> {
    let path = words.only_image()?;
    let image = source::image(path)?;
    let layout = match layout(&image) {
        Ok(layout) => layout,
        Err(refusal) => {
            writeln!(out, "{}: {refusal}", Path::new(path).display())?;
            return Ok(Outcome::Refused);
        }
    };
    let folder = Path::new(words.one("-d")?.unwrap_or(OsStr::new("")));
    if !folder.as_os_str().is_empty() {
        fs::create_dir_all(folder).map_err(|error| Trouble::File(folder.into(), error))?;
    }
    let files = files(folder, layout.routines().len());
    for (file, routine) in files.iter().zip(layout.routines()) {
        fs::write(file, &layout.code[routine]).map_err(|error| Trouble::File(file.clone(), error))?;
    }
    slu::print(out, &layout, files.iter().map(|file| file.display().to_string()))?;
    Ok(Outcome::Good)
}

/// A file for each routine. Where one has a number of two digits all have, so that the names sort as the routines stand.
fn files(folder: &Path, routines: usize) -> Vec<PathBuf> {
    let digits = if routines > 10 { 2 } else { 1 };
    let numbered = (1..routines).map(|number| folder.join(format!("routine-{number:0digits$}.bin")));
    numbered.chain([folder.join("main.bin")]).collect()
}

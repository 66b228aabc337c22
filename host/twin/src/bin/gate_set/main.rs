//! The tables of docs/GATE-SET.md: every op-code of the set, as the proved library decodes and steps it.
//!
//!     gate-set                    prints the tables
//!     gate-set --compare FILE     fails where FILE has others between its markers
//!     gate-set --write FILE       puts them there

mod form;
mod seen;
mod tables;

use std::fs;
use std::process::exit;

const BEGIN: &str = "<!-- gate-set prints from here -->\n";
const END: &str = "<!-- to here -->\n";

/// What stands before, between and after the markers of a file.
fn parts(text: &str) -> Option<(&str, &str, &str)> {
    let (before, rest) = text.split_once(BEGIN)?;
    let (between, after) = rest.split_once(END)?;
    Some((before, between, after))
}

/// Where two tables differ first.
fn difference(stored: &str, printed: &str) -> Option<String> {
    let first = stored.lines().zip(printed.lines()).find(|(one, other)| one != other);
    match first {
        Some((one, other)) => Some(format!("the file has\n{one}\nand the library\n{other}")),
        None => (stored != printed).then(|| "the tables are longer or shorter than the library's".to_string()),
    }
}

fn with_file(word: &str, file: &str) -> Result<(), String> {
    let text = fs::read_to_string(file).map_err(|error| error.to_string())?;
    let (before, stored, after) = parts(&text).ok_or("the markers are missing")?;
    let printed = tables::printed();
    match word {
        "--compare" => difference(stored, &printed).map_or(Ok(()), Err),
        "--write" => fs::write(file, [before, BEGIN, &printed, END, after].concat()).map_err(|error| error.to_string()),
        _ => Err(format!("{word} is neither --compare nor --write")),
    }
}

fn main() {
    let words: Vec<String> = std::env::args().skip(1).collect();
    let done = match &words[..] {
        [] => {
            print!("{}", tables::printed());
            Ok(())
        }
        [word, file] => with_file(word, file).map_err(|message| format!("{file}: {message}")),
        _ => Err("gate-set [--compare FILE | --write FILE]".to_string()),
    };
    if let Err(message) = done {
        eprintln!("{message}");
        exit(1);
    }
}

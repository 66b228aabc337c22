//! The binary, the examples, and files for a while.

use gate_host::{Area, Limits};
use std::ffi::{OsStr, OsString};
use std::fs;
use std::path::{Path, PathBuf};
use std::process::Command;

pub struct Answer {
    pub status: i32,
    pub out: String,
    pub err: String,
}

/// Runs a command of `gate`.
pub fn gate(words: &[OsString]) -> Answer {
    let output = Command::new(env!("CARGO_BIN_EXE_gate")).args(words).output().expect("the binary runs");
    let text = |bytes| String::from_utf8(bytes).expect("UTF-8");
    Answer { status: output.status.code().expect("an exit status"), out: text(output.stdout), err: text(output.stderr) }
}

/// The words of a command: its name and limits, those that are given, and the image.
pub fn words(name: &str, limits: &Limits, more: &[&str], image: &Path) -> Vec<OsString> {
    let mut words: Vec<OsString> = vec![name.into()];
    for (option, Area { low, high }) in [("--grant", limits.grant), ("--stack", limits.stack), ("--grant2", limits.second)] {
        words.extend([option.into(), format!("{low:04X}-{high:04X}").into()]);
    }
    words.extend(more.iter().map(OsString::from));
    words.push(image.into());
    words
}

pub struct Example {
    pub name: String,
    pub limits: Limits,
    pub image: PathBuf,
    pub verdict: String,
}

/// The examples that are accepted, the one compiled from C too.
pub fn accepted() -> Vec<Example> {
    ["", "c"].into_iter().flat_map(examples).collect()
}

/// The examples of a folder of `examples`, or of itself where none is named.
pub fn examples(folder: &str) -> Vec<Example> {
    let folder = Path::new(env!("CARGO_MANIFEST_DIR")).join("../../examples").join(folder);
    let files = fs::read_dir(folder).expect("the examples").map(|entry| entry.expect("an entry").path());
    let mut images: Vec<PathBuf> = files.filter(|path| path.extension() == Some(OsStr::new("slu"))).collect();
    images.sort();
    images.into_iter().map(example).collect()
}

fn example(image: PathBuf) -> Example {
    let given = fs::read(image.with_extension("in")).expect("limits and image");
    let word = |at: usize| u16::from_be_bytes([given[at], given[at + 1]]);
    let area = |at: usize| Area { low: word(at), high: word(at + 2) };
    Example {
        name: image.file_stem().and_then(OsStr::to_str).expect("a name").into(),
        limits: Limits { grant: area(0), stack: area(4), second: area(8) },
        verdict: fs::read_to_string(image.with_extension("verdict")).expect("a verdict"),
        image,
    }
}

/// A file of these bytes, of a name that no other test has.
pub fn file(name: &str, bytes: &[u8]) -> PathBuf {
    let path = Path::new(env!("CARGO_TARGET_TMPDIR")).join(name);
    fs::write(&path, bytes).expect("a file");
    path
}

fn stored(folder: &str) -> PathBuf {
    Path::new(env!("CARGO_MANIFEST_DIR")).join("tests").join(folder)
}

/// Compares with what is stored for an example, or stores it.
pub fn compare(folder: &str, name: &str, printed: &str) {
    let path = stored(folder).join(name).with_extension("txt");
    if std::env::var_os("GATE_STORE").is_some() {
        fs::write(&path, printed).expect("stored");
    }
    let stored = fs::read_to_string(&path).unwrap_or_default();
    assert_eq!(printed, stored, "{} holds something else", path.display());
}

/// How many files are stored: one that no test compares would say what nobody prints.
pub fn count(folder: &str) -> usize {
    fs::read_dir(stored(folder)).expect("what is stored").count()
}

//! Running the command in a folder of its own.

use std::ffi::OsStr;
use std::path::{Path, PathBuf};
use std::process::{Command, Output};
use std::sync::atomic::{AtomicU32, Ordering};
use std::{env, fs, process};

pub const GATE: &str = env!("CARGO_BIN_EXE_gate");

/// A folder that goes when the test is over.
pub struct Folder(PathBuf);

impl Folder {
    pub fn new() -> Folder {
        static MADE: AtomicU32 = AtomicU32::new(0);
        let name = format!("gate-command-{}-{}", process::id(), MADE.fetch_add(1, Ordering::Relaxed));
        let path = env::temp_dir().join(name);
        fs::create_dir(&path).expect("a folder is made");
        Folder(path)
    }

    pub fn path(&self) -> &Path {
        &self.0
    }

    pub fn write(&self, name: &str, bytes: impl AsRef<[u8]>) {
        fs::write(self.0.join(name), bytes).expect("a file is written");
    }

    pub fn read(&self, name: &str) -> Vec<u8> {
        fs::read(self.0.join(name)).unwrap_or_else(|error| panic!("{name}: {error}"))
    }

    pub fn has(&self, name: &str) -> bool {
        self.0.join(name).exists()
    }

    /// Runs `gate` there.
    pub fn gate(&self, words: &[impl AsRef<OsStr>]) -> Output {
        Command::new(GATE).args(words).current_dir(&self.0).output().expect("gate runs")
    }

    /// What `gate` prints where all is well.
    pub fn good(&self, words: &[impl AsRef<OsStr>]) -> String {
        let done = self.gate(words);
        assert!(done.status.success() && done.stderr.is_empty(), "{done:?}");
        String::from_utf8(done.stdout).expect("text")
    }

    /// What `gate` says on standard error where something could not be tried: one line, and nothing is printed.
    pub fn trouble(&self, words: &[impl AsRef<OsStr>]) -> String {
        said(&self.gate(words))
    }
}

impl Drop for Folder {
    fn drop(&mut self) {
        // A folder that stays is no reason to fail.
        let _ = fs::remove_dir_all(&self.0);
    }
}

/// The one line on standard error of a command that could not be tried.
pub fn said(done: &Output) -> String {
    let said = String::from_utf8_lossy(&done.stderr).into_owned();
    let line = said.strip_prefix("gate: ").and_then(|said| said.strip_suffix('\n'));
    assert!(done.status.code() == Some(2) && done.stdout.is_empty(), "{done:?}");
    line.filter(|line| !line.contains('\n')).unwrap_or_else(|| panic!("{said:?} is not one line")).into()
}

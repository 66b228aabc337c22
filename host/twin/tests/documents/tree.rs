//! The repository as a clone has it: the files that git knows, as they stand.

use crate::markdown::{blocks, Block};
use std::collections::BTreeSet;
use std::fs;
use std::path::{Path, PathBuf};
use std::process::Command;

pub struct Tree {
    top: PathBuf,
    files: BTreeSet<String>,
    folders: BTreeSet<String>,
}

pub struct Document {
    /// From the top of the repository.
    pub path: String,
    pub blocks: Vec<Block>,
}

impl Tree {
    pub fn read() -> Tree {
        let top = Path::new(env!("CARGO_MANIFEST_DIR")).join("../..");
        let listed = Command::new("git").args(["ls-files", "-z"]).current_dir(&top).output().expect("git");
        assert!(listed.status.success(), "git knows the files: {}", String::from_utf8_lossy(&listed.stderr));
        let listed = String::from_utf8(listed.stdout).expect("names in UTF-8");
        let known = listed.split('\0').filter(|file| !file.is_empty() && top.join(file).is_file());
        let files: BTreeSet<String> = known.map(str::to_string).collect();
        let above =
            |file: &String| Path::new(file).ancestors().skip(1).map(|p| p.to_string_lossy().into()).collect::<Vec<String>>();
        let folders = files.iter().flat_map(above).collect();
        Tree { top, files, folders }
    }

    pub fn top(&self) -> &Path {
        &self.top
    }

    pub fn files(&self) -> impl Iterator<Item = &str> {
        self.files.iter().map(String::as_str)
    }

    /// Whether there is such a file or folder.
    pub fn has(&self, path: &str) -> bool {
        let path = path.trim_end_matches('/');
        self.files.iter().chain(&self.folders).any(|there| fits(path, there))
    }

    pub fn text(&self, file: &str) -> String {
        fs::read_to_string(self.top.join(file)).unwrap_or_else(|error| panic!("{file}: {error}"))
    }

    pub fn documents(&self) -> Vec<Document> {
        let named = self.files().filter(|file| file.ends_with(".md"));
        named.map(|file| Document { path: file.to_string(), blocks: blocks(&self.text(file)) }).collect()
    }

    /// Copies all files into a folder.
    pub fn copy(&self, to: &Path) {
        for file in self.files() {
            let copy = to.join(file);
            fs::create_dir_all(copy.parent().expect("a folder")).expect("a folder is made");
            fs::copy(self.top.join(file), copy).unwrap_or_else(|error| panic!("{file}: {error}"));
        }
    }
}

/// Whether a path is as written, where NAME stands for any name.
pub fn fits(written: &str, path: &str) -> bool {
    match written.split_once("NAME") {
        Some((before, after)) => {
            let name = path.strip_prefix(before).and_then(|rest| rest.strip_suffix(after));
            name.is_some_and(|name| !name.is_empty() && !name.contains('/'))
        }
        None => written == path,
    }
}

/// The folder of a file; of one at the top, nothing.
pub fn folder(file: &str) -> &str {
    file.rsplit_once('/').map_or("", |(folder, _)| folder)
}

/// A path that begins at a folder, with its .. undone.
pub fn below(folder: &str, path: &str) -> String {
    let mut parts: Vec<&str> = folder.split('/').filter(|part| !part.is_empty()).collect();
    for part in path.split('/') {
        match part {
            ".." => drop(parts.pop()),
            "." | "" => {}
            _ => parts.push(part),
        }
    }
    parts.join("/")
}

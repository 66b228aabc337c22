//! Each example explained in both languages, and compared with `explained/NAME.LANG.txt`.
//!
//! With GATE_STORE=1 in the environment what is stored is written anew, to be looked at before it is kept.

use std::collections::BTreeSet;
use std::fs;
use std::path::{Path, PathBuf};
use std::process::{Command, Output};

fn top() -> PathBuf {
    Path::new(env!("CARGO_MANIFEST_DIR")).join("../..")
}

/// The names of the examples that have an image, from the top of the repository: `examples/filling`.
fn examples() -> Vec<String> {
    let mut names = Vec::new();
    let mut folders = vec![String::from("examples")];
    while let Some(folder) = folders.pop() {
        for entry in fs::read_dir(top().join(&folder)).unwrap() {
            let entry = entry.unwrap();
            let path = format!("{folder}/{}", entry.file_name().into_string().unwrap());
            if entry.file_type().unwrap().is_dir() {
                folders.push(path);
            } else if let Some(name) = path.strip_suffix(".slu") {
                names.push(name.into());
            }
        }
    }
    names.sort();
    names
}

/// The three areas of an example, as its .in file begins: 0000-00FF.
fn areas(name: &str) -> Vec<String> {
    let bytes = fs::read(top().join(format!("{name}.in"))).unwrap();
    bytes[..12].chunks(4).map(|ends| format!("{:02X}{:02X}-{:02X}{:02X}", ends[0], ends[1], ends[2], ends[3])).collect()
}

fn explain(name: &str, lang: &str) -> Output {
    let areas = areas(name);
    Command::new(env!("CARGO_BIN_EXE_gate"))
        .current_dir(top())
        .args(["explain", "--grant", &areas[0], "--stack", &areas[1], "--grant2", &areas[2], "--lang", lang])
        .arg(format!("{name}.slu"))
        .output()
        .unwrap()
}

#[test]
fn examples_are_explained_as_stored() {
    let folder = Path::new(env!("CARGO_MANIFEST_DIR")).join("tests/explained");
    let write = std::env::var_os("GATE_STORE").is_some();
    let mut wanted = BTreeSet::new();
    for name in examples() {
        let verdict = fs::read_to_string(top().join(format!("{name}.verdict"))).unwrap();
        let status = if verdict.starts_with("accepted") { 0 } else { 1 };
        for lang in ["en", "fr"] {
            let output = explain(&name, lang);
            assert_eq!((output.status.code(), &output.stderr[..]), (Some(status), &b""[..]), "{name}");
            let file = format!("{}.{lang}.txt", name.rsplit('/').next().unwrap());
            if write {
                fs::write(folder.join(&file), &output.stdout).unwrap();
            }
            let stored = fs::read_to_string(folder.join(&file)).unwrap_or_default();
            assert_eq!(String::from_utf8(output.stdout).unwrap(), stored, "{file} is not what gate explain prints");
            wanted.insert(file);
        }
    }
    let stored = fs::read_dir(&folder).unwrap().map(|entry| entry.unwrap().file_name().into_string().unwrap());
    assert_eq!(stored.collect::<BTreeSet<_>>(), wanted, "files in tests/explained and examples");
}

#[test]
fn explanations_have_the_numbers_and_places_of_the_verdicts() {
    let mut numbers = BTreeSet::new();
    for name in examples() {
        let verdict = fs::read_to_string(top().join(format!("{name}.verdict"))).unwrap();
        let words: Vec<&str> = verdict.lines().next().unwrap().split(' ').collect();
        let text = String::from_utf8(explain(&name, "en").stdout).unwrap();
        let number: u8 = if words[0] == "refused" { words[1].parse().unwrap() } else { 0 };
        numbers.insert(number);
        match number {
            0 => assert!(text.contains(&format!("Need: {} bytes", words[1])), "{text}"),
            _ => assert!(text.lines().next().unwrap().contains(&format!(": refused with {number}: ")), "{text}"),
        }
        if (6..=15).contains(&number) {
            assert!(text.contains(&format!(", offset {}, ", words[2])), "{text}");
        }
    }
    // With marks enough there is no 5.
    assert_eq!(numbers, (0..=16).filter(|&number| number != 5).collect());
}

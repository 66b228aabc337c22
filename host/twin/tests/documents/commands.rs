//! The commands and programs that documents show, run in a copy of the repository.

use crate::markdown::Kind;
use crate::tree::{Document, Tree};
use std::collections::BTreeSet;
use std::os::unix::fs::PermissionsExt;
use std::path::{Path, PathBuf};
use std::process::{self, Command, Output};
use std::{env, fs};

/// Commands that are not run as printed: the line, where * stands for its rest; what is run in its place, with that rest, if
/// anything is; and why.
const INSTEAD: [(&str, Option<&str>, &str); 11] = [
    (".ci/run", None, "proves every crate"),
    ("host/test", None, "runs this test"),
    ("bench/run", None, "measures for half a minute, and needs uCsim"),
    ("make", None, "proves for minutes, by rt"),
    ("host/rattle program gatecheck && *", Some(""), "proves for minutes; the program is there"),
    ("host/rattle program machine_cases", None, "proves for minutes, and `rt ci` does it"),
    ("target/bin/machine_cases *", None, "`rt ci` holds the program to the same file"),
    (
        "cc loader.c *",
        Some("make -s install-lib && cc examples/loader.c "),
        "stands for a loader of one's own, and follows `make install`",
    ),
    (
        "cargo run --release --manifest-path host/Cargo.toml --package gate-twin --bin gate-set *",
        None,
        "tests/gate_set.rs does it",
    ),
    ("conformance/record/*", None, "needs the tools that were recorded from"),
    ("examples/verdicts GATECHECK", Some("examples/verdicts target/bin/gatecheck"), "stands for the command"),
];

/// Indented blocks that are neither commands nor what these print: how each begins, and what it is.
const NO_COMMANDS: [(&str, &str); 3] =
    [("NAME: KIND |", "the form of a case"), ("NEG A with 80: step |", "a case"), ("check    VERDICT", "the forms of answers")];

/// Languages of fenced blocks that are neither commands nor programs, and what they are.
const LANGUAGES: [(&str, &str); 5] = [
    ("toml", "lines for another package's Cargo.toml"),
    ("slu", "bytes, which tests/format.rs reads"),
    ("verdict", "their listing, which it reads too"),
    ("cases", "cases, which it reads too"),
    ("antt", "words of theorems"),
];

/// The endings of a paragraph that says: the next block is what the commands or the program before it print, and how they end.
const PRINTS: [(&str, i32); 2] = [("prints", 0), ("prints, with status 1,", 1)];

pub struct Trial {
    /// A folder with the files that a clone has, the archive, and gatecheck if there is one.
    clone: PathBuf,
    gatecheck: bool,
    sdcc: bool,
    printed: Printed,
    /// How the last block failed: its status, and the fault that this is unless the document tells of it.
    failed: Option<(Option<i32>, String)>,
    used: BTreeSet<&'static str>,
    faults: Vec<String>,
    commands: usize,
    programs: usize,
    compared: usize,
    left_out: usize,
}

/// What the last block of commands or the last program printed.
enum Printed {
    Nothing,
    LeftOut,
    Lines(String),
}

impl Trial {
    pub fn begin(tree: &Tree) -> Trial {
        let given = env::var_os("GATE_LIB_DIR").map(PathBuf::from);
        let (libraries, programs) = match &given {
            Some(folder) => (folder.clone(), folder.clone()),
            None => (tree.top().join("target/staticlib"), tree.top().join("target/bin")),
        };
        let (archive, program) = (libraries.join("libgate_c.a"), programs.join("gatecheck"));
        let gatecheck = program.is_file();
        assert!(archive.is_file(), "there is no {}: run `host/rattle library` first", archive.display());
        assert!(gatecheck || given.is_some(), "there is no {}: run `host/rattle program gatecheck` first", program.display());
        let clone = env::temp_dir().join(format!("gate-documents-{}", process::id()));
        tree.copy(&clone);
        copy_built(&archive, &clone.join("target/staticlib"));
        if gatecheck {
            copy_built(&program, &clone.join("target/bin"));
        }
        let scripts = clone.join("bin");
        fs::create_dir_all(&scripts).expect("a folder is made");
        // No command that is in no list proves for minutes.
        script(&scripts.join("rt"), "echo 'rt is not run by this test: the command belongs into its list' >&2\nexit 1");
        let gate = "cargo run --quiet --offline --jobs 1 --manifest-path \"$(dirname \"$0\")/../host/Cargo.toml\" --package gate-command";
        script(&scripts.join("gate"), &format!("exec {gate} -- \"$@\""));
        let sdcc = Command::new("sdcc").arg("--version").output().is_ok_and(|done| done.status.success());
        let (printed, used, faults) = (Printed::Nothing, BTreeSet::new(), Vec::new());
        Trial { clone, gatecheck, sdcc, printed, failed: None, used, faults, commands: 0, programs: 0, compared: 0, left_out: 0 }
    }

    pub fn hold(&mut self, document: &Document) {
        self.printed = Printed::Nothing;
        let mut before = "";
        for block in &document.blocks {
            if let Kind::Code(language) = &block.kind {
                self.hold_block(&format!("{}:{}", document.path, block.line), language, before, &block.text);
            }
            before = if let Kind::Text = block.kind { &block.text } else { "" };
        }
        self.hold_status(&document.path, None);
    }

    fn hold_block(&mut self, place: &str, language: &str, before: &str, block: &str) {
        let none = NO_COMMANDS.iter().find(|(begin, _)| language.is_empty() && block.starts_with(begin));
        let other = LANGUAGES.iter().find(|(name, _)| *name == language);
        let prints = PRINTS.iter().find(|(ending, _)| before.trim_end_matches(':').ends_with(ending));
        self.hold_status(place, prints.map(|(_, status)| *status));
        if prints.is_some() {
            self.compare(place, block);
        } else if let Some((listed, _)) = none.or(other) {
            self.used.insert(listed);
        } else if language == "rust" {
            self.run_program(place, block);
        } else if matches!(language, "" | "sh") {
            self.run_commands(place, block);
        } else {
            self.faults.push(format!("{place}: no list has the language {language}"));
        }
    }

    /// The last block has to end as the document tells, and well where it tells nothing.
    fn hold_status(&mut self, place: &str, told: Option<i32>) {
        match (self.failed.take(), told) {
            (Some((status, _)), Some(told)) if status == Some(told) => {}
            (Some((_, fault)), _) => self.faults.push(fault),
            (None, Some(told)) if told != 0 && !matches!(self.printed, Printed::LeftOut) => {
                self.faults.push(format!("{place}: status {told} is told, and it is 0"));
            }
            (None, _) => {}
        }
    }

    fn run_commands(&mut self, place: &str, block: &str) {
        let block = block.replace("\\\n", " ");
        let lines = block.lines().filter(|line| !line.trim().is_empty() && !line.trim().starts_with('#'));
        let commands: Vec<String> = lines.filter_map(|line| self.instead(line)).collect();
        let (commands, without): (Vec<String>, Vec<String>) =
            commands.into_iter().partition(|command| self.missing(command).is_none());
        for command in &without {
            println!("{place}: left out, for there is no {}: {command}", self.missing(command).unwrap_or_default());
        }
        self.left_out += without.len();
        self.commands += commands.len();
        if without.is_empty() || !commands.is_empty() {
            self.run(place, &commands.join("\n"));
        } else {
            self.printed = Printed::LeftOut;
        }
    }

    /// What a command needs and is not there.
    fn missing(&self, command: &str) -> Option<&'static str> {
        let needs = |words: &[&str]| words.iter().any(|word| command.contains(word));
        if !self.gatecheck && needs(&["target/bin/gatecheck", "make install"]) {
            Some("gatecheck beside the archive")
        } else if !self.sdcc && needs(&["sdcc", "sdasstm8", "sdldstm8", "mode.", "examples/make", "examples/stored"]) {
            Some("sdcc")
        } else {
            None
        }
    }

    /// What is run for a line, if anything is.
    fn instead(&mut self, line: &str) -> Option<String> {
        let command = line.split(" #").next().unwrap_or(line).trim();
        let rest = |listed: &str| match listed.strip_suffix('*') {
            Some(begin) => command.strip_prefix(begin),
            None => (command == listed).then_some(""),
        };
        let found = INSTEAD.iter().find_map(|(listed, run, _)| rest(listed).map(|rest| (*listed, *run, rest)));
        let Some((listed, run, rest)) = found else { return Some(line.to_string()) };
        self.used.insert(listed);
        self.left_out += usize::from(run.is_none());
        run.map(|words| format!("{words}{rest}"))
    }

    /// Runs a Rust program in a package of its own, from the top of the copy.
    fn run_program(&mut self, place: &str, program: &str) {
        let package = self.clone.join("program");
        fs::create_dir_all(package.join("src")).expect("a folder is made");
        let manifest =
            "[package]\nname = \"program\"\nedition = \"2021\"\n\n[dependencies]\ngate-host = { path = \"../host\" }\n";
        fs::write(package.join("Cargo.toml"), manifest).expect("a package is written");
        fs::write(package.join("src/main.rs"), program).expect("a program is written");
        self.programs += 1;
        self.run(place, "cargo run --quiet --offline --jobs 1 --manifest-path program/Cargo.toml");
    }

    fn run(&mut self, place: &str, script: &str) {
        let done = self.shell(script);
        if !done.status.success() {
            let fault = format!("{place}: {}: {}\n{script}", done.status, String::from_utf8_lossy(&done.stderr));
            self.failed = Some((done.status.code(), fault));
        }
        self.printed = Printed::Lines(String::from_utf8_lossy(&done.stdout).into_owned());
    }

    /// The archive is that of the copy, gate is built in it, `make install` installs into it, and there is no rt.
    fn shell(&self, script: &str) -> Output {
        let installed = self.clone.join("installed");
        let path = format!("{}:{}", self.clone.join("bin").display(), env::var("PATH").unwrap_or_default());
        let mut shell = Command::new("sh");
        shell.args(["-e", "-c", script]).current_dir(&self.clone).stdin(process::Stdio::null()).env("PATH", path);
        shell.env("GATE", self.clone.join("bin/gate"));
        shell.env("GATE_LIB_DIR", self.clone.join("target/staticlib")).env("PKG_CONFIG_PATH", installed.join("lib/pkgconfig"));
        shell.env("MAKEFLAGS", format!("PREFIX={}", installed.display())).env_remove("CARGO_TARGET_DIR").output().expect("sh")
    }

    fn compare(&mut self, place: &str, block: &str) {
        let told: Vec<&str> = block.lines().collect();
        match &self.printed {
            Printed::Nothing => self.faults.push(format!("{place}: no command prints this")),
            Printed::LeftOut => {}
            Printed::Lines(printed) if agree(&told, &printed.lines().collect::<Vec<_>>()) => self.compared += 1,
            Printed::Lines(printed) => self.faults.push(format!("{place}: told is\n{block}\nand printed\n{printed}")),
        }
    }

    pub fn end(mut self) -> Vec<String> {
        println!("{} commands and {} programs were run, and {} outputs compared", self.commands, self.programs, self.compared);
        println!("{} commands are left to other tests", self.left_out);
        let listed =
            INSTEAD.iter().map(|(listed, ..)| listed).chain(NO_COMMANDS.iter().chain(&LANGUAGES).map(|(listed, _)| listed));
        let unused = listed.filter(|listed| !self.used.contains(*listed));
        self.faults.extend(unused.map(|listed| format!("the list has {listed}, and no document")));
        fs::remove_dir_all(&self.clone).expect("the copy is removed");
        self.faults
    }
}

/// Copies what rt has built into a folder of the copy.
fn copy_built(file: &Path, folder: &Path) {
    fs::create_dir_all(folder).expect("a folder is made");
    fs::copy(file, folder.join(file.file_name().expect("a file"))).unwrap_or_else(|error| panic!("{}: {error}", file.display()));
}

/// Writes a script that may be run.
fn script(path: &Path, text: &str) {
    fs::write(path, format!("#!/bin/sh\n{text}\n")).expect("a script is written");
    fs::set_permissions(path, fs::Permissions::from_mode(0o755)).expect("a script may be run");
}

/// Whether lines are as told, where .. stands for any lines.
fn agree(told: &[&str], printed: &[&str]) -> bool {
    match told {
        [] => printed.is_empty(),
        ["..", rest @ ..] => (0..=printed.len()).any(|skipped| agree(rest, &printed[skipped..])),
        [line, rest @ ..] => printed.first() == Some(line) && agree(rest, &printed[1..]),
    }
}

//! Where something cannot be tried: a line on standard error, status 2, and nothing that looks like a verdict.

use crate::folder::{said, Folder, GATE};
use gate_twin::random::Random;
use std::ffi::{OsStr, OsString};
use std::fs::{self, File};
use std::os::fd::OwnedFd;
use std::os::unix::ffi::OsStrExt;
use std::os::unix::fs::PermissionsExt;
use std::os::unix::net::UnixStream;
use std::process::{Command, Output, Stdio};
use std::time::{Duration, Instant};

const SEED: u64 = 26;

/// The commands that read an image under limits.
const WITH_LIMITS: [&str; 4] = ["check", "explain", "list", "trace"];

const ALL: [&str; 6] = ["check", "explain", "list", "trace", "pack", "unpack"];

const LIMITS: [&str; 4] = ["--grant", "0000-00FF", "--stack", "0300-03FF"];

/// One routine, which stores 05 at 0010.
const IMAGE: &[u8] = b"SLU\x00\x02\x80\x00\x01\x00\x05\xA6\x05\xB7\x10\x81";

/// The same outside the grant.
const REFUSED: &[u8] = b"SLU\x00\x02\x80\x00\x01\x00\x06\xA6\x05\xC7\x01\x00\x81";

fn folder() -> Folder {
    let folder = Folder::new();
    folder.write("image.slu", IMAGE);
    folder.write("refused.slu", REFUSED);
    folder.write("main.bin", [0x81]);
    folder.write("empty", []);
    fs::create_dir(folder.path().join("folder")).expect("a folder is made");
    folder
}

/// The words of each command, with the file in the place of its image or routine.
fn reading(file: &OsStr) -> Vec<Vec<OsString>> {
    let before = |command: &str| -> Vec<OsString> {
        match command {
            "pack" => ["pack", "-o", "made.slu"].map(OsString::from).to_vec(),
            "unpack" => ["unpack", "-d", "parts"].map(OsString::from).to_vec(),
            _ => [&[command], &LIMITS[..]].concat().into_iter().map(OsString::from).collect(),
        }
    };
    ALL.iter().map(|command| [before(command), vec![file.into()]].concat()).collect()
}

#[test]
fn help_is_there_for_every_command() {
    let folder = folder();
    for word in ["--help", "-h", "help"] {
        let help = folder.good(&[word]);
        let named: Vec<&str> = help.lines().filter_map(|line| line.strip_prefix("  gate ")?.split(' ').next()).collect();
        assert_eq!(named, ALL);
    }
    for command in ALL {
        for words in [vec![command, "--help"], vec![command, "-h"], vec![command, "--what", "none.slu", "--help"]] {
            let help = folder.good(&words);
            assert!(help.starts_with(&format!("gate {command} ")), "{help}");
            let examples = help.lines().skip_while(|line| *line != "Examples:");
            assert!(examples.filter(|line| line.starts_with(&format!("  gate {command} "))).count() >= 2, "{help}");
            assert!(help.contains("\nExit status: "), "{help}");
        }
    }
    assert!(folder.good(&["--version"]).starts_with(concat!("gate ", env!("CARGO_PKG_VERSION"))));
}

#[test]
fn words_that_are_not_as_help_says_are_told() {
    let folder = folder();
    let none: [&str; 0] = [];
    assert_eq!(folder.trouble(&none), "no command is given; `gate --help` lists them");
    assert_eq!(folder.trouble(&["chek"]), "there is no command \"chek\"; `gate --help` lists them");
    assert_eq!(folder.trouble(&["--chek"]), "there is no command \"--chek\"; `gate --help` lists them");
    for command in ALL {
        assert_eq!(folder.trouble(&[command, "--what"]), "there is no option --what");
        assert_eq!(folder.trouble(&[command, "-x=1", "image.slu"]), "there is no option -x");
    }
    assert_eq!(folder.trouble(&["pack", "main.bin", "-o"]), "-o wants a value");
    assert_eq!(folder.trouble(&["pack", "main.bin", "-o", "a", "-o", "b"]), "-o is given twice");
    assert_eq!(folder.trouble(&["unpack"]), "one image is wanted");
    assert_eq!(folder.trouble(&["unpack", "image.slu", "image.slu"]), "one image is wanted");
}

#[test]
fn limits_that_are_none_are_told() {
    let folder = folder();
    for command in WITH_LIMITS {
        let with = |words: &[&'static str]| [&[command], words, &["image.slu"]].concat();
        assert_eq!(folder.trouble(&with(&["--stack", "0300-03FF"])), "--grant LOW-HIGH is missing");
        assert_eq!(folder.trouble(&with(&["--grant", "0-FF"])), "--stack LOW-HIGH is missing");
        assert_eq!(folder.trouble(&with(&["--grant=0-FF", "--grant=0-FF", "--stack=300-3FF"])), "--grant is given twice");
        for area in ["", "-", "0", "0-", "-FF", "0-G", "0-10000", "0--FF", "0x0-0xFF", "+0-FF", "0 - FF", "é-é"] {
            let said = folder.trouble(&[command, "--grant", area, "--stack", "0300-03FF", "image.slu"]);
            assert_eq!(said, format!("--grant wants two addresses, such as 0000-00FF, and not {area:?}"));
        }
        assert!(folder.trouble(&[&[command], &LIMITS[..]].concat()).contains("image"), "{command}: none is given");
    }
}

#[test]
fn files_that_cannot_be_read_are_told() {
    let folder = folder();
    folder.write("locked", IMAGE);
    fs::set_permissions(folder.path().join("locked"), fs::Permissions::from_mode(0o000)).expect("a file is locked");
    // Who may read all files, reads this one too.
    let locked = File::open(folder.path().join("locked")).is_err();
    for (file, why, there) in [
        ("none.slu", "No such file or directory", true),
        ("folder", "Is a directory", true),
        ("main.bin/x", "Not a directory", true),
        ("locked", "Permission denied", locked),
    ] {
        for words in reading(OsStr::new(file)).iter().filter(|_| there) {
            let said = folder.trouble(words);
            assert!(said.starts_with(&format!("{file}: {why}")), "{words:?}: {said}");
        }
    }
    for name in ["--ihx", "--map"] {
        let (ihx, map) = if name == "--ihx" { ("none", "empty") } else { ("code.ihx", "none") };
        folder.write("code.ihx", ":0180000081FE\n:00000001FF\n");
        let said = folder.trouble(&["pack", "-o", "made.slu", "--ihx", ihx, "--map", map]);
        assert!(said.starts_with("none: No such file"), "{said}");
    }
    assert!(!folder.has("made.slu") && !folder.has("parts"));
}

#[test]
fn files_that_cannot_be_written_are_told() {
    let folder = folder();
    for (file, why) in
        [("folder", "Is a directory"), ("none/made.slu", "No such file or directory"), ("/dev/full", "No space left")]
    {
        let said = folder.trouble(&["pack", "-o", file, "main.bin"]);
        assert!(said.starts_with(&format!("{file}: {why}")), "{said}");
    }
    let said = folder.trouble(&["unpack", "image.slu", "-d", "empty"]);
    assert!(said.starts_with("empty: File exists"), "{said}");
    fs::create_dir(folder.path().join("folder/main.bin")).expect("a folder is made");
    let said = folder.trouble(&["unpack", "image.slu", "-d", "folder"]);
    assert!(said.starts_with("folder/main.bin: Is a directory"), "{said}");
}

#[test]
fn huge_files_are_not_read_to_their_end() {
    let folder = folder();
    let huge = File::create(folder.path().join("huge")).expect("a file is made");
    huge.set_len(10 << 30).expect("it has 10 GB, and no block");
    let begun = Instant::now();
    let mut all = reading(OsStr::new("huge"));
    all.push(["pack", "-o", "made.slu", "--ihx", "huge", "--map", "empty"].map(OsString::from).to_vec());
    for words in all {
        let said = folder.trouble(&words);
        assert!(said.starts_with("huge: longer than "), "{words:?}: {said}");
    }
    assert!(begun.elapsed() < Duration::from_secs(5), "a second for each would be too long");
}

#[test]
fn names_need_not_be_utf8() {
    let folder = folder();
    let name = OsStr::from_bytes(b"\xFFimage.slu");
    for words in reading(name) {
        let said = folder.trouble(&words);
        assert!(said.contains("image.slu: No such file"), "{words:?}: {said}");
    }
    fs::write(folder.path().join(name), IMAGE).expect("a file is written");
    for words in reading(name) {
        assert_eq!(folder.gate(&words).status.code(), Some(0), "{words:?}");
    }
    fs::write(folder.path().join(OsStr::from_bytes(b"-\xFF")), IMAGE).expect("a file is written");
    for words in reading(OsStr::from_bytes(b"-\xFF")) {
        assert!(folder.trouble(&words).starts_with("there is no option "), "{words:?}");
        let (file, before) = words.split_last().expect("words");
        let behind = [before, &["--".into(), file.clone()]].concat();
        assert_eq!(folder.gate(&behind).status.code(), Some(0), "{behind:?}");
    }
    assert!(folder.trouble(&[OsStr::from_bytes(b"\xFF")]).starts_with("there is no command "));
    let limits = [OsStr::new("check"), OsStr::new("--grant"), OsStr::from_bytes(b"0-\xFF"), OsStr::new("image.slu")];
    assert!(folder.trouble(&limits).starts_with("--grant wants two addresses"));
    let base = ["pack", "main.bin", "-o", "made.slu", "--base"].map(OsStr::new);
    assert!(folder.trouble(&[&base[..], &[OsStr::from_bytes(b"\xFF")]].concat()).starts_with("--base wants up to four"));
}

/// An end of a pipe that nobody reads from.
fn closed() -> Stdio {
    let (kept, dropped) = UnixStream::pair().expect("a pair of sockets");
    drop(dropped);
    OwnedFd::from(kept).into()
}

fn into(folder: &Folder, words: &[OsString], out: Stdio, err: Stdio) -> Output {
    let started = Command::new(GATE).args(words).current_dir(folder.path()).stdout(out).stderr(err).spawn();
    started.and_then(|child| child.wait_with_output()).expect("gate runs")
}

#[test]
fn output_that_nobody_takes_is_told() {
    let folder = folder();
    let image = reading(OsStr::new("image.slu"));
    let help = ALL.map(|command| [command, "--help"].map(OsString::from).to_vec());
    for words in image.iter().chain(&help) {
        let done = into(&folder, words, closed(), Stdio::piped());
        assert_eq!(said(&done), "standard output was closed before all was written", "{words:?}");
        let full = File::create("/dev/full").expect("/dev/full");
        let done = into(&folder, words, full.into(), Stdio::piped());
        assert!(said(&done).starts_with("standard output: No space left"), "{words:?}");
        assert_eq!(into(&folder, words, closed(), closed()).status.code(), Some(2), "{words:?}: standard error closed too");
    }
    for words in reading(OsStr::new("none.slu")) {
        assert_eq!(into(&folder, &words, closed(), closed()).status.code(), Some(2), "{words:?}");
    }
}

/// Whatever the words, there is an answer: a status from 0 to 2, and 2 exactly where standard error says why.
#[test]
fn any_words_get_an_answer() {
    const WORDS: [&[u8]; 34] = [
        b"--grant",
        b"--stack",
        b"--grant2",
        b"--steps",
        b"--registers",
        b"--memory",
        b"--break",
        b"--back",
        b"--json",
        b"--flow",
        b"--lang",
        b"-o",
        b"-d",
        b"--base",
        b"--version",
        b"--ihx",
        b"--map",
        b"--routines",
        b"--",
        b"-",
        b"",
        b"0000-00FF",
        b"0300-03FF",
        b"A=12",
        b"8000",
        b"2",
        b"image.slu",
        b"refused.slu",
        b"main.bin",
        b"empty",
        b"folder",
        b"fr",
        b"\xFF\xFE",
        b"--grant=0-FF",
    ];
    let mut met = [0; 3];
    for case in 0..1_000 {
        let mut random = Random::new(SEED, case);
        let folder = folder();
        let mut words = vec![OsStr::new(random.pick(&ALL))];
        if random.one_in(2) {
            words.extend(LIMITS.map(OsStr::new));
        }
        words.extend((0..random.below(4)).map(|_| OsStr::from_bytes(random.pick(&WORDS))));
        words.push(OsStr::new(random.pick(&["image.slu", "refused.slu", "main.bin"])));
        let done = folder.gate(&words);
        let status = done.status.code().and_then(|status| usize::try_from(status).ok()).filter(|status| *status <= 2);
        let status = status.unwrap_or_else(|| panic!("{words:?}: {done:?}"));
        met[status] += 1;
        assert_eq!(status == 2, !done.stderr.is_empty(), "{words:?}: {done:?}");
        assert!(status < 2 || done.stderr.starts_with(b"gate: "), "{words:?}: {done:?}");
    }
    assert!(met.iter().all(|met| *met > 10), "{met:?}");
}

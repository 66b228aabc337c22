//! `gate check` and `gate explain` on several images, and the language by the locale.

use std::path::Path;
use std::process::Command;

const LIMITS: [&str; 4] = ["--grant", "0000-00FF", "--stack", "0300-03FF"];
const GOOD: &str = "examples/filling.slu";
const BAD: &str = "examples/refused/08-outside-the-set.slu";

/// What a command prints on standard output and on standard error, and its status.
fn gate(words: &[&str], locale: &[(&str, &str)]) -> (String, String, Option<i32>) {
    let mut command = Command::new(env!("CARGO_BIN_EXE_gate"));
    command.current_dir(Path::new(env!("CARGO_MANIFEST_DIR")).join("../.."));
    for variable in ["LC_ALL", "LC_MESSAGES", "LANG"] {
        command.env_remove(variable);
    }
    let output = command.args(words).envs(locale.iter().copied()).output().unwrap();
    let text = |bytes| String::from_utf8(bytes).unwrap();
    (text(output.stdout), text(output.stderr), output.status.code())
}

fn with_limits(command: &str, images: &[&str]) -> (String, String, Option<i32>) {
    gate(&[&[command], &LIMITS[..], images].concat(), &[])
}

#[test]
fn each_image_has_a_line_and_the_worst_decides() {
    let good = format!("{GOOD}: accepted, need 2, 9 instructions\n  Turn: at most 9 steps\n");
    let bad = format!("{BAD}: refused with 8 at offset 2: outside the set of the version\n");
    assert_eq!(with_limits("check", &[GOOD]), (good.clone(), String::new(), Some(0)));
    assert_eq!(with_limits("check", &[BAD, GOOD]), (bad.clone() + &good, String::new(), Some(1)));
}

#[test]
fn an_accepted_image_has_its_turn() {
    for (name, verdict, turn) in [
        ("flap-gate", "need 6, 30 instructions", "at most 64 steps"),
        ("generating", "need 2, 14 instructions", "none, a jump goes back: 800C JRPL $8005"),
        ("long-wait", "need 22, 114 instructions", "above 4,294,967,295 steps"),
    ] {
        let image = format!("examples/{name}.slu");
        let wanted = format!("{image}: accepted, {verdict}\n  Turn: {turn}\n");
        assert_eq!(with_limits("check", &[&image]), (wanted, String::new(), Some(0)));
    }
}

#[test]
fn an_image_that_cannot_be_read_does_not_stop_the_others() {
    for command in ["check", "explain"] {
        let (out, err, status) = with_limits(command, &["examples/none.slu", GOOD, "examples", BAD]);
        assert_eq!(status, Some(2), "{command}");
        let verdicts: Vec<&str> = out.lines().filter(|line| line.starts_with("examples/")).collect();
        assert!(verdicts.len() == 2 && verdicts[0].starts_with(GOOD) && verdicts[1].starts_with(BAD), "{out}");
        let troubles: Vec<&str> = err.lines().collect();
        assert!(troubles.len() == 2 && troubles[0].starts_with("gate: examples/none.slu: "), "{err}");
        assert!(troubles[1].starts_with("gate: examples: "), "{err}");
    }
}

#[test]
fn limits_that_are_refused_are_said_once() {
    let words = ["--grant", "0000-0300", "--stack", "0300-03FF", GOOD, BAD, "examples/none.slu"];
    let wanted = "\
limits: refused with 1: limits break a rule
  Why: the grant 0000-0300 and the stack area 0300-03FF have 0300 in common; no address may be in two areas
  To do: correct the limits, which are the controller's; no image was looked at
";
    for command in ["check", "explain"] {
        let output = gate(&[&[command], &words[..]].concat(), &[]);
        assert_eq!(output, (wanted.into(), String::new(), Some(1)), "{command}");
    }
}

#[test]
fn many_images_are_checked_without_progress_where_nobody_watches() {
    let (out, err, status) = with_limits("check", &[GOOD; 200]);
    let verdicts = out.lines().filter(|line| line.starts_with(GOOD)).count();
    assert_eq!((verdicts, err.as_str(), status), (200, "", Some(0)));
}

#[test]
fn the_language_is_that_of_the_option_or_the_locale() {
    let explain = |more: &[&str], locale: &[(&str, &str)]| gate(&[&["explain"], &LIMITS[..], more, &[GOOD]].concat(), locale).0;
    let is_french = |text: String| text.starts_with(&format!("{GOOD} : acceptée\n"));
    assert!(!is_french(explain(&[], &[])));
    assert!(is_french(explain(&[], &[("LANG", "fr_FR.UTF-8")])));
    assert!(!is_french(explain(&[], &[("LC_ALL", "C"), ("LANG", "fr_FR.UTF-8")])));
    assert!(is_french(explain(&[], &[("LC_MESSAGES", "fr_BE"), ("LANG", "en_GB")])));
    assert!(!is_french(explain(&["--lang", "en"], &[("LC_ALL", "fr")])));
    assert!(is_french(explain(&["--lang=fr"], &[("LC_ALL", "en")])));
    let (out, err, status) = gate(&[&["explain", "--lang", "de"], &LIMITS[..], &[GOOD]].concat(), &[]);
    assert_eq!((out.as_str(), status), ("", Some(2)));
    assert_eq!(err, "gate: --lang wants en or fr, and not \"de\"\n");
}

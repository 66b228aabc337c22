//! docs/GATE-SET.md has the tables that `gate-set` prints of the library, and a changed one is found.

use std::fs;
use std::path::{Path, PathBuf};
use std::process::{Command, Output};

fn document() -> PathBuf {
    Path::new(env!("CARGO_MANIFEST_DIR")).join("../../docs/GATE-SET.md")
}

fn compared(file: &Path) -> Output {
    Command::new(env!("CARGO_BIN_EXE_gate-set")).arg("--compare").arg(file).output().expect("gate-set runs")
}

#[test]
fn tables_are_the_library_s() {
    let output = compared(&document());
    assert!(output.status.success(), "{}", String::from_utf8_lossy(&output.stderr));
}

#[test]
fn changed_table_is_found() {
    let text = fs::read_to_string(document()).expect("docs/GATE-SET.md");
    let changed = text.replacen("| `SRL A` | 44 | 1 | 1 |", "| `SRL A` | 44 | 1 | 2 |", 1);
    assert_ne!(text, changed);
    let file = Path::new(env!("CARGO_TARGET_TMPDIR")).join("GATE-SET.md");
    fs::write(&file, changed).expect("a file of the test's own");
    let output = compared(&file);
    assert!(!output.status.success() && String::from_utf8_lossy(&output.stderr).contains("`SRL A`"));
}

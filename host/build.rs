//! Links `libgate_c.a`, which `host/rattle library` writes: the one of the folder that `GATE_LIB_DIR` names; else the repository's own;
//! else the one that is installed, if pkg-config knows of this version.
//! Checking and documenting need no archive, so where there is none this only warns; linking then fails.

use std::env;
use std::path::PathBuf;
use std::process::Command;

fn main() {
    println!("cargo:rerun-if-env-changed=GATE_LIB_DIR");
    println!("cargo:rerun-if-env-changed=PKG_CONFIG_PATH");
    let own = PathBuf::from(env::var_os("CARGO_MANIFEST_DIR").expect("cargo sets it")).join("../target/staticlib");
    let folder = match env::var_os("GATE_LIB_DIR").filter(|named| !named.is_empty()) {
        Some(named) => PathBuf::from(named),
        None if own.join("libgate_c.a").is_file() => own,
        None => installed().unwrap_or(own),
    };
    let library = folder.join("libgate_c.a");
    println!("cargo:rerun-if-changed={}", library.display());
    if library.is_file() {
        println!("cargo:rustc-link-search=native={}", folder.display());
        println!("cargo:rustc-link-lib=static=gate_c");
    } else {
        println!("cargo:warning=there is no {}, so no program can be linked:", library.display());
        println!(
            "cargo:warning=run `make` at the top of the repository, or set GATE_LIB_DIR to the folder that holds libgate_c.a"
        );
    }
}

/// The folder of the installed library, if it has the version of this package.
fn installed() -> Option<PathBuf> {
    let library = concat!("gate = ", env!("CARGO_PKG_VERSION"));
    let answer = Command::new("pkg-config").args(["--variable=libdir", library]).output().ok()?;
    let folder = String::from_utf8(answer.stdout).ok()?;
    (answer.status.success() && !folder.trim().is_empty()).then(|| folder.trim().into())
}

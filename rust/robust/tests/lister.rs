//! Listers with their input and output closed, cut or far too long.

use std::env;
use std::path::{Path, PathBuf};
use std::process::{Command, Output};

const ROBUST: &str = env!("CARGO_BIN_EXE_robust");

fn tried(words: &[&str]) -> Output {
    Command::new(ROBUST)
        .arg("lister")
        .args(words)
        .output()
        .expect("it runs")
}

#[track_caller]
fn passes(words: &[&str]) {
    let output = tried(words);
    let told = String::from_utf8_lossy(&output.stderr).to_string();
    assert!(output.status.success(), "{told}");
}

#[test]
fn the_second_lister() {
    passes(&[ROBUST, "second-lister"]);
}

/// The proved lister: where CANTARIBOL_LISTER says, or where its build leaves
/// it. A named one must be there; `robust lister` is for a gate that has it.
#[test]
fn the_main_lister() {
    let beside = || Path::new(env!("CARGO_MANIFEST_DIR")).join("../../crates/lister/out/lister");
    let named = env::var_os("CANTARIBOL_LISTER").map(PathBuf::from);
    let program = named.clone().unwrap_or_else(beside);
    if named.is_none() && !program.exists() {
        eprintln!("no lister built: only the second one is tried");
        return;
    }
    passes(&[program.to_str().expect("a path in UTF-8")]);
}

#[test]
fn programs_that_are_no_lister_are_found() {
    let silent = &["true"][..];
    let echoing = &["cat"];
    let constant = &["sh", "-c", "echo REFUSED 2 0"];
    let crashing = &["sh", "-c", "kill -SEGV $$"];
    let missing = &["/nowhere/lister"];
    for (words, fault) in [
        (silent, "printed \"\""),
        (echoing, "printed \"\""),
        (constant, "and not \"REFUSED 9 0\\n\""),
        (crashing, "crashed"),
        (missing, "No such file"),
    ] {
        let output = tried(words);
        let told = String::from_utf8_lossy(&output.stderr).to_string();
        assert_eq!(output.status.code(), Some(1), "{words:?}");
        assert!(told.contains(fault), "{told}");
    }
}

//! Damaged files through the library, and too few of them.

use std::process::{Command, Output};

fn robust(words: &[&str]) -> Output {
    Command::new(env!("CARGO_BIN_EXE_robust"))
        .args(words)
        .output()
        .expect("it runs")
}

#[test]
fn damaged_files_reach_every_number() {
    let output = robust(&["--seed", "3", "--count", "10000"]);
    let told = String::from_utf8_lossy(&output.stderr).to_string();
    assert!(output.status.success(), "{:?} {told}", output.status);
}

#[test]
fn what_is_never_reached_is_a_failure() {
    let output = robust(&["--count", "1"]);
    let told = String::from_utf8_lossy(&output.stderr).to_string();
    assert_eq!(output.status.code(), Some(1));
    assert!(
        told.starts_with("robust: never reached: refusal "),
        "{told}"
    );
}

#[test]
fn words_it_does_not_know() {
    for words in [&["--count"][..], &["--count", "many"], &["--files", "3"]] {
        let output = robust(words);
        assert_eq!(output.status.code(), Some(1), "{words:?}");
    }
}

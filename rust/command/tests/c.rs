//! The C header and the C example.

mod common;
use common::*;
use generator::bundle::bundle;
use std::path::PathBuf;
use std::process::Command;

fn include() -> PathBuf {
    PathBuf::from(concat!(env!("CARGO_MANIFEST_DIR"), "/../../include"))
}

/// The C compiler, which Rust needs for linking anyway, without patience.
fn compiler() -> Command {
    let mut compiler = Command::new("cc");
    compiler.args(["-std=c99", "-Wall", "-Wextra", "-Wpedantic", "-Werror"]);
    compiler
}

#[test]
fn the_example_compiles() {
    let output = compiler()
        .arg("-fsyntax-only")
        .arg(include().join("example.c"))
        .output()
        .expect("cc");
    let message = String::from_utf8_lossy(&output.stderr).to_string();
    assert!(output.status.success(), "{message}");
}

/// Where the archive stands, as `cantaribol-sys` looks for it.
fn archive() -> PathBuf {
    let beside = concat!(env!("CARGO_MANIFEST_DIR"), "/../../crates/host/out");
    let folder = std::env::var_os("CANTARIBOL_LIB").map_or(beside.into(), PathBuf::from);
    folder.join("libhost.a")
}

fn built(name: &str) -> PathBuf {
    let program = scratch(name);
    let output = compiler()
        .arg(include().join("example.c"))
        .arg(archive())
        .arg("-o")
        .arg(&program)
        .output()
        .expect("cc");
    let message = String::from_utf8_lossy(&output.stderr).to_string();
    assert!(output.status.success(), "{message}");
    program
}

fn said_by(program: &PathBuf, words: &[&str]) -> Said {
    let output = Command::new(program).args(words).output();
    output.expect("it runs").into()
}

/// Its last line has the ending and the count only.
#[test]
fn bundled_designs() {
    let program = built("c-example-bundled");
    for design in bundle() {
        let expected = stored(design.name, "expected");
        let lines: Vec<&str> = expected.lines().collect();
        let (last, clocks) = lines.split_last().expect("an ending");
        let ending: Vec<&str> = last.split(' ').take(2).collect();
        let path = designs().join(design.name).with_extension("bin");
        let path = path.to_str().expect("a plain path");
        let said = said_by(&program, &[path, &clocks.len().to_string()]);
        assert_eq!((said.status, &said.err[..]), (Some(0), ""));
        let expected = format!("{}\n{}\n", clocks.join("\n"), ending.join(" "));
        assert_eq!(said.out, expected, "{}", design.name);
    }
}

#[test]
fn refused_stuck_and_at_fault() {
    let program = built("c-example-bad");
    let path = scratch("c-example.bin");
    let path = path.to_str().expect("a plain path");
    let said_of = |file: &[u8]| {
        std::fs::write(path, file).expect("a file");
        let said = said_by(&program, &[path]);
        (said.status, said.out)
    };
    let refused = (Some(1), "REFUSED 2 8\n".to_string());
    assert_eq!(said_of(&P10[..20]), refused);
    let refused = (Some(1), "REFUSED 1 0\n".to_string());
    assert_eq!(said_of(&[0; 32_769]), refused);
    let stuck = (Some(1), "0 S\nSTUCK 0 0 21\n".to_string());
    assert_eq!(said_of(NUMBER_GUARD), stuck);
    let empty = (Some(0), "0 .\nQUIET 0\n".to_string());
    assert_eq!(said_of(b"SC\0"), empty);
    assert_eq!(said_by(&program, &[]).status, Some(2));
    assert_eq!(said_by(&program, &["no-such-file"]).status, Some(2));
}

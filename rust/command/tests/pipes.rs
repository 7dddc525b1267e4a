//! Pipes that are closed early, and outputs that cannot be written.

mod common;
use common::*;
use std::io::pipe;
use std::process::{Command, Output, Stdio};

/// The pipe's other end, with nobody at this one.
fn closed() -> Stdio {
    let (reader, writer) = pipe().expect("a pipe");
    drop(reader);
    writer.into()
}

fn with_input(command: &mut Command, input: &[u8]) -> Output {
    use std::io::Write;
    let mut child = command.stdin(Stdio::piped()).spawn().expect("it runs");
    let _ = child.stdin.take().expect("a pipe").write_all(input);
    child.wait_with_output().expect("it ends")
}

/// Nobody reads the output: no message, and the status as always.
#[track_caller]
fn quiet_with_closed_out(words: &[&str], input: &[u8]) {
    let output = with_input(
        command()
            .args(words)
            .stdout(closed())
            .stderr(Stdio::piped()),
        input,
    );
    assert_eq!(output.status.code(), Some(0), "{words:?}");
    assert_eq!(String::from_utf8_lossy(&output.stderr), "", "{words:?}");
}

#[test]
fn closed_standard_output() {
    quiet_with_closed_out(&["--help"], b"");
    quiet_with_closed_out(&["--version"], b"");
    quiet_with_closed_out(&["convert", "-", "-o", "-", "--to", "hex"], P10);
    quiet_with_closed_out(&["show", "--help"], b"");
    quiet_with_closed_out(&["show", "-"], P10);
    quiet_with_closed_out(&["check", "-"], P10);
    quiet_with_closed_out(&["list", "-"], P10);
    quiet_with_closed_out(&["run", "-", "--clocks", "9"], P10);
    quiet_with_closed_out(&["trace", "-", "--vcd", "-"], P10);
}

/// The same by its name.
#[cfg(target_os = "linux")]
#[test]
fn closed_pipe_with_a_name() {
    quiet_with_closed_out(&["trace", "-", "--vcd", "/dev/stdout"], P10);
    quiet_with_closed_out(&["convert", "-", "--to=hex", "-o", "/dev/stdout"], P10);
}

/// Files behind the reader's last line are checked all the same.
#[test]
fn several_files_with_closed_standard_output() {
    let passes = designs().join("p10.hex");
    let files = vec![passes.as_os_str(); 500];
    let output = with_input(
        command()
            .arg("check")
            .args(files)
            .arg("-")
            .stdout(closed())
            .stderr(Stdio::piped()),
        &P10[..20],
    );
    assert_eq!(output.status.code(), Some(1));
    assert!(String::from_utf8_lossy(&output.stderr).contains("refused"));
}

/// What is found out stands, also when nobody reads it.
#[test]
fn refused_with_closed_standard_output() {
    let output = with_input(
        command()
            .args(["show", "-"])
            .stdout(closed())
            .stderr(Stdio::piped()),
        &P10[..20],
    );
    assert_eq!(output.status.code(), Some(1));
    assert!(String::from_utf8_lossy(&output.stderr).contains("refused"));
}

/// A message that cannot be written is no crash.
#[test]
fn closed_standard_error() {
    let output = command().stderr(closed()).output().expect("it runs");
    assert_eq!(output.status.code(), Some(2));
    let output = with_input(
        command()
            .args(["show", "-"])
            .stdout(Stdio::piped())
            .stderr(closed()),
        &P10[..20],
    );
    assert_eq!(output.status.code(), Some(1));
    assert_eq!(String::from_utf8_lossy(&output.stdout), "REFUSED 2 8\n");
}

/// A full device is a fault, and is told.
#[cfg(target_os = "linux")]
#[test]
fn full_standard_output() {
    use std::fs::File;
    let full = File::create("/dev/full").expect("the full device");
    let output = with_input(
        command()
            .args(["show", "-"])
            .stdout(full)
            .stderr(Stdio::piped()),
        P10,
    );
    assert_eq!(output.status.code(), Some(2));
    let message = String::from_utf8_lossy(&output.stderr).to_string();
    assert!(
        message.starts_with("cantaribol: standard output: "),
        "{message}"
    );
}

/// A reader that has had enough after one line ends a list without end.
#[test]
fn a_reader_that_leaves() {
    use std::io::{BufRead, BufReader};
    let path = designs().join("p10.hex");
    for words in [
        &["list", "--clocks", "4294967295"][..],
        &["trace", "--vcd", "-", "--clocks", "4294967295"],
    ] {
        let mut child = command()
            .args(words)
            .arg(&path)
            .stdout(Stdio::piped())
            .stderr(Stdio::piped())
            .spawn()
            .expect("it runs");
        let mut first = String::new();
        let mut reader = BufReader::new(child.stdout.take().expect("a pipe"));
        reader.read_line(&mut first).expect("a line");
        assert!(!first.is_empty());
        drop(reader);
        let output = child.wait_with_output().expect("it ends");
        assert_eq!(output.status.code(), Some(0), "{words:?}");
        assert_eq!(String::from_utf8_lossy(&output.stderr), "", "{words:?}");
    }
}

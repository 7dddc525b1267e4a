//! `trace` never writes over its input, and leaves no half dump.

mod common;
use common::*;
use std::fs::{self, File};
use std::os::unix::fs::symlink;
use std::path::Path;
use std::process::Command;

fn traced(folder: &Path, input: &str, out: &str) -> Command {
    let mut command = command();
    command.current_dir(folder);
    command.args(["trace", input, "--vcd", out]);
    command
}

#[track_caller]
fn refused(command: &mut Command, out: &str) {
    let said = Said::from(command.output().expect("it runs"));
    assert_eq!((said.status, &said.out[..]), (Some(2), ""), "{out}");
    let message = "this is the input, which is not written over\n";
    assert_eq!(said.err, format!("cantaribol: {out}: {message}"));
}

/// By its name, by another path, by a hard and by a symbolic link.
#[test]
fn over_its_input() {
    let folder = empty_folder("trace/input");
    fs::write(folder.join("design"), P10).expect("a file");
    fs::create_dir(folder.join("inner")).expect("a folder");
    fs::hard_link(folder.join("design"), folder.join("hard")).expect("a link");
    symlink("design", folder.join("soft")).expect("a link");
    symlink("../soft", folder.join("inner/soft")).expect("a link");
    let full = folder.join("design").display().to_string();
    let all = [
        "design",
        "./inner/../design",
        &full,
        "hard",
        "soft",
        "inner/soft",
    ];
    for input in all {
        for out in all {
            refused(&mut traced(&folder, input, out), out);
        }
    }
    for name in ["design", "hard", "soft"] {
        assert_eq!(fs::read(folder.join(name)).expect("a file"), P10);
    }
    assert_eq!(names(&folder), ["design", "hard", "inner", "soft"]);
    assert!(folder.join("soft").is_symlink());
}

/// Standard input may be a file as well.
#[cfg(target_os = "linux")]
#[test]
fn over_its_standard_input() {
    let folder = empty_folder("trace/standard-input");
    let path = folder.join("design");
    fs::write(&path, P10).expect("a file");
    let opened = || File::open(&path).expect("a file");
    refused(traced(&folder, "-", "design").stdin(opened()), "design");
    assert_eq!(fs::read(&path).expect("a file"), P10);
    // Another file is none of its business, even one that holds the same.
    fs::write(folder.join("same"), P10).expect("a file");
    let output = traced(&folder, "-", "same").stdin(opened()).output();
    assert_eq!(output.expect("it runs").status.code(), Some(0));
    let dump = fs::read_to_string(folder.join("same")).expect("the dump");
    assert!(dump.starts_with("$version"), "{dump}");
    assert_eq!(names(&folder), ["design", "same"]);
}

/// A design may have a name that is no text.
#[cfg(target_os = "linux")]
#[test]
fn a_name_that_is_no_text() {
    use std::ffi::OsStr;
    use std::os::unix::ffi::OsStrExt;
    let folder = empty_folder("trace/no-text");
    let name = OsStr::from_bytes(b"design-\xFF");
    fs::write(folder.join(name), P10).expect("a file");
    let mut command = command();
    command.current_dir(&folder).arg("trace").arg(name);
    command.arg("--vcd").arg(name);
    let output = command.output().expect("it runs");
    assert_eq!(output.status.code(), Some(2));
    assert_eq!(fs::read(folder.join(name)).expect("a file"), P10);
}

/// An old dump is replaced by a whole one, also where it was longer.
#[test]
fn over_an_old_dump() {
    let folder = empty_folder("trace/old-dump");
    fs::write(folder.join("design"), P10).expect("a file");
    fs::write(folder.join("out"), "old".repeat(10_000)).expect("a file");
    let output = traced(&folder, "design", "out").output().expect("it runs");
    assert_eq!(output.status.code(), Some(0));
    let dump = fs::read_to_string(folder.join("out")).expect("the dump");
    assert!(dump.starts_with("$version") && !dump.contains("old"));
    assert_eq!(names(&folder), ["design", "out"]);
}

/// A design that is refused is not traced: the old dump stays.
#[test]
fn a_refused_design_leaves_the_old_dump() {
    let folder = empty_folder("trace/refused");
    fs::write(folder.join("design"), &P10[..20]).expect("a file");
    fs::write(folder.join("out"), "old").expect("a file");
    let output = traced(&folder, "design", "out").output().expect("it runs");
    assert_eq!(output.status.code(), Some(1));
    assert_eq!(fs::read(folder.join("out")).expect("a file"), b"old");
    assert_eq!(names(&folder), ["design", "out"]);
}

/// Devices are written to, and stay what they are.
#[cfg(target_os = "linux")]
#[test]
fn to_devices() {
    let folder = empty_folder("trace/devices");
    fs::write(folder.join("design"), P10).expect("a file");
    let status = |out| {
        let output = traced(&folder, "design", out).output().expect("it runs");
        output.status.code()
    };
    assert_eq!(status("/dev/null"), Some(0));
    assert_eq!(status("/dev/full"), Some(2));
    assert!(!fs::metadata("/dev/null").expect("a device").is_file());
    assert_eq!(names(&folder), ["design"]);
}

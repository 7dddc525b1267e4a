//! Interrupts of long runs. Whether a command watches for them is seen in
//! Linux's account of its signals.
#![cfg(target_os = "linux")]

mod common;
use common::*;
use std::fs;
use std::io::{BufRead, BufReader};
use std::os::unix::process::{CommandExt, ExitStatusExt};
use std::process::{Child, Command, Stdio};
use std::sync::mpsc::{channel, RecvTimeoutError};
use std::thread::{self, sleep};
use std::time::{Duration, Instant};

const SIGINT: i32 = 2;
const DEFAULT: usize = 0;
const IGNORED: usize = 1;

/// More clocks than a test waits for.
const MANY: &str = "4294967295";

/// What takes longer has failed.
const PATIENCE: Duration = Duration::from_secs(10);

extern "C" {
    fn signal(number: i32, handler: usize) -> usize;
}

/// A command on P10, which never goes quiet. What starts the tests may ignore
/// interrupts, which is handed down; so the command is told anew.
fn started(words: &[&str], handler: usize) -> Child {
    let mut command = command();
    command.arg(words[0]).arg(designs().join("p10.bin"));
    command.args(&words[1..]).args(["--clocks", MANY]);
    command.stdout(Stdio::piped()).stderr(Stdio::piped());
    let set = move || {
        // SAFETY: the handlers are the two that are no functions.
        unsafe { signal(SIGINT, handler) };
        Ok(())
    };
    // SAFETY: `signal` may be called between fork and exec.
    unsafe { command.pre_exec(set) };
    command.spawn().expect("it runs")
}

fn send(signal: &str, process: u32) {
    let words = format!("kill -{signal} {process}");
    let status = Command::new("sh").args(["-c", &words]).status();
    assert!(status.expect("a shell").success());
}

fn interrupt(child: &Child) {
    send("INT", child.id());
}

/// What it said; one that does not end is killed, and has no status.
fn ended(child: Child) -> Said {
    let process = child.id();
    let (ended, waiting) = channel::<()>();
    let guard = thread::spawn(move || {
        if waiting.recv_timeout(PATIENCE) == Err(RecvTimeoutError::Timeout) {
            send("KILL", process);
        }
    });
    let output = child.wait_with_output().expect("it ends");
    drop(ended);
    guard.join().expect("a guard");
    output.into()
}

/// What the account says of one thing.
fn account(child: &Child, of: &str) -> String {
    let path = format!("/proc/{}/status", child.id());
    let account = fs::read_to_string(path).expect("an account");
    let line = account.lines().find_map(|line| line.strip_prefix(of));
    line.expect(of).trim().to_string()
}

/// Whether interrupts are in one of the account's sets of signals.
fn has(child: &Child, set: &str) -> bool {
    let digits = account(child, set);
    let mask = u64::from_str_radix(&digits, 16).expect("a set");
    mask & (1 << (SIGINT - 1)) != 0
}

#[track_caller]
fn wait_until(child: &Child, what: &str, is_so: impl Fn() -> bool) {
    let begun = Instant::now();
    while !is_so() {
        if begun.elapsed() > PATIENCE {
            send("KILL", child.id());
            panic!("it is not {what}");
        }
        sleep(Duration::from_millis(2));
    }
}

#[track_caller]
fn wait_until_watching(child: &Child) {
    wait_until(child, "watching", || has(child, "SigCgt:"));
}

/// The ending so far: P10 adds 1 to a 5 in each clock.
fn interrupted_line(line: &str) -> u32 {
    let words: Vec<&str> = line.split(' ').collect();
    let ["INTERRUPTED", count, register, "-"] = words[..] else {
        panic!("{line}");
    };
    let count: u32 = count.parse().expect("a count");
    assert_eq!(register.parse(), Ok(5i32.wrapping_add(count as i32)));
    count
}

#[test]
fn a_run() {
    let child = started(&["run"], DEFAULT);
    wait_until_watching(&child);
    // Long enough for a line of progress, if there were any.
    sleep(Duration::from_millis(600));
    interrupt(&child);
    let said = ended(child);
    assert_eq!((said.status, &said.err[..]), (Some(130), ""));
    let line = said.out.strip_suffix('\n').expect("a line");
    assert!(interrupted_line(line) > 0);
}

/// The listing so far, without a gap, then the ending.
#[test]
fn a_listing() {
    let child = started(&["list"], DEFAULT);
    wait_until_watching(&child);
    interrupt(&child);
    let said = ended(child);
    assert_eq!((said.status, &said.err[..]), (Some(130), ""));
    let lines: Vec<&str> = said.out.lines().collect();
    let (last, clocks) = lines.split_last().expect("an ending");
    assert_eq!(interrupted_line(last) as usize, clocks.len());
    for (number, line) in clocks.iter().enumerate() {
        assert_eq!(*line, format!("{number} F"));
    }
}

/// The old dump stays, and nothing stands beside it.
#[test]
fn a_trace() {
    let folder = empty_folder("interrupted-trace");
    let out = folder.join("out.vcd");
    fs::write(&out, "old").expect("a file");
    let child = started(&["trace", "--vcd", out.to_str().expect("a text")], DEFAULT);
    wait_until_watching(&child);
    wait_until(&child, "begun", || names(&folder).len() == 2);
    interrupt(&child);
    let said = ended(child);
    assert_eq!((said.status, &said.out[..]), (Some(130), ""));
    assert_eq!(said.err, "");
    assert_eq!(fs::read(&out).expect("a file"), b"old");
    assert_eq!(names(&folder), ["out.vcd"]);
}

/// A pipe that nobody reads holds the command up, so that it does not see the
/// first interrupt; the second ends it all the same.
#[test]
fn a_second_interrupt() {
    let pipe = scratch("nobody-reads");
    let _ = fs::remove_file(&pipe);
    let made = Command::new("mkfifo").arg(&pipe).status();
    assert!(made.expect("mkfifo").success());
    let mut child = started(&["trace", "--vcd", pipe.to_str().expect("a text")], DEFAULT);
    wait_until_watching(&child);
    interrupt(&child);
    wait_until(&child, "told", || !has(&child, "SigCgt:"));
    assert_eq!(child.try_wait().expect("a child"), None);
    interrupt(&child);
    wait_until(&child, "over", || {
        account(&child, "State:").starts_with('Z')
    });
    let status = child.wait().expect("it ends");
    assert_eq!(status.signal(), Some(SIGINT));
    fs::remove_file(&pipe).expect("a pipe");
}

/// Started to go on through interrupts, it does.
#[test]
fn an_ignored_interrupt() {
    let mut child = started(&["list"], IGNORED);
    let mut reader = BufReader::new(child.stdout.take().expect("a pipe"));
    let mut first = String::new();
    reader.read_line(&mut first).expect("a line");
    assert_eq!(first, "0 F\n");
    assert!(has(&child, "SigIgn:") && !has(&child, "SigCgt:"));
    interrupt(&child);
    for _ in 0..100_000 {
        reader.read_line(&mut first).expect("a line");
    }
    assert!(!first.contains("INTERRUPTED"));
    drop(reader);
    assert_eq!(child.wait().expect("it ends").code(), Some(0));
}

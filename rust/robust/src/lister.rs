//! A lister with its input and output closed, cut or far too long. What it
//! prints is document 01's; its exit status is not laid down, but it may not
//! crash and has to come to an end.

use std::fs::File;
use std::io::{self, pipe, BufRead, BufReader, Read, Write};
use std::os::unix::process::ExitStatusExt;
use std::process::{Child, Command, ExitStatus, Stdio};
use std::thread;
use std::time::{Duration, Instant};

use generator::large;
use generator::samples::p10;

const PATIENCE: Duration = Duration::from_secs(30);
const BROKEN_PIPE: i32 = 13;
/// Far past the limit of a file, and past any pipe's room.
const HUGE: usize = 64 << 20;

/// A program, and the words it is started with.
struct Program<'a> {
    path: &'a str,
    words: &'a [&'a str],
}

type Tried = Result<(), String>;

/// A name, and what is tried.
type Try = (&'static str, fn(&Program) -> Tried);

pub fn all(path: &str, words: &[&str]) -> Result<String, String> {
    let program = Program { path, words };
    let tries: [Try; 8] = [
        ("little input", little_input),
        ("closed input", closed_input),
        ("input in pieces", input_in_pieces),
        ("a file at the limit", at_the_limit),
        ("huge input", huge_input),
        ("nobody reads", nobody_reads),
        ("a reader that leaves", reader_leaves),
        ("no room to write", no_room),
    ];
    for (name, attempt) in tries {
        attempt(&program).map_err(|text| format!("{path}: {name}: {text}"))?;
    }
    Ok(format!("{path}: {} passed, 0 failed", tries.len()))
}

/// The second program's lister, for want of another.
pub fn second_lister() -> Result<String, String> {
    let mut input = Vec::new();
    let mut out = io::BufWriter::new(io::stdout().lock());
    let listed = io::stdin().lock().read_to_end(&mut input);
    let listed = listed.and_then(|_| second::lister(&input, &mut out));
    // What is printed ends here: no line may follow the list.
    let done = listed.and_then(|()| out.flush());
    std::process::exit(i32::from(done.is_err()));
}

impl Program<'_> {
    fn command(&self) -> Command {
        let mut command = Command::new(self.path);
        command.args(self.words);
        command
    }

    /// Started by a shell that has done something to its own pipes first.
    fn behind(&self, redirection: &str) -> Command {
        let script = format!("{redirection} exec \"$0\" \"$@\"");
        let mut command = Command::new("sh");
        command.args(["-c", &script, self.path]).args(self.words);
        command
    }
}

/// A clock count and a file.
fn input(count: u32, file: &[u8]) -> Vec<u8> {
    [&count.to_le_bytes(), file].concat()
}

fn expected(input: &[u8]) -> Result<String, String> {
    let mut out = Vec::new();
    second::lister(input, &mut out).map_err(|error| error.to_string())?;
    String::from_utf8(out).map_err(|error| error.to_string())
}

/// Waits for the end, which must come in time and be no crash.
fn ended(child: &mut Child, patience: Duration) -> Result<ExitStatus, String> {
    let begin = Instant::now();
    while begin.elapsed() < patience {
        let status = child.try_wait().map_err(|error| error.to_string())?;
        match status.map(|status| (status, status.signal())) {
            Some((status, None | Some(BROKEN_PIPE))) => return Ok(status),
            Some((status, Some(_))) => return Err(format!("crashed: {status}")),
            None => thread::sleep(Duration::from_millis(5)),
        }
    }
    drop(child.kill().and_then(|()| child.wait()));
    Err("does not end".to_string())
}

/// Starts it, writes the pieces, and compares what it prints.
fn prints(mut command: Command, pieces: &[&[u8]], pause: Duration, wanted: &str) -> Tried {
    command.stdout(Stdio::piped()).stderr(Stdio::null());
    let mut child = command.spawn().map_err(|error| error.to_string())?;
    let stdin = child.stdin.take();
    let mut stdout = child.stdout.take().ok_or("no pipe")?;
    let (status, printed) = thread::scope(|scope| {
        scope.spawn(move || {
            // A program that has seen enough may close its side.
            let Some(mut stdin) = stdin else { return };
            for piece in pieces {
                if stdin.write_all(piece).is_err() {
                    return;
                }
                thread::sleep(pause);
            }
        });
        let reader = scope.spawn(move || {
            let mut out = Vec::new();
            drop(stdout.read_to_end(&mut out));
            String::from_utf8_lossy(&out).to_string()
        });
        (ended(&mut child, PATIENCE), reader.join())
    });
    status?;
    let printed = printed.map_err(|_| "the reading thread panicked")?;
    match printed == wanted {
        true => Ok(()),
        false => Err(format!("printed {printed:?} and not {wanted:?}")),
    }
}

fn prints_at_once(program: &Program, input: &[u8], wanted: &str) -> Tried {
    let mut command = program.command();
    command.stdin(Stdio::piped());
    prints(command, &[input], Duration::ZERO, wanted)
}

fn little_input(program: &Program) -> Tried {
    for length in 0..4 {
        prints_at_once(program, &vec![1; length], "REFUSED 2 0\n")?;
    }
    prints_at_once(program, &[1; 4], "REFUSED 9 0\n")
}

/// No input at all is too little input.
fn closed_input(program: &Program) -> Tried {
    let command = program.behind("exec <&-;");
    prints(command, &[], Duration::ZERO, "REFUSED 2 0\n")
}

/// A byte at a time, so that no read gets much.
fn input_in_pieces(program: &Program) -> Tried {
    let input = input(3, &p10().file());
    let pieces: Vec<&[u8]> = input.chunks(1).collect();
    let mut command = program.command();
    command.stdin(Stdio::piped());
    let wanted = "0 F\n1 F\n2 F\nLIMIT 3 8 -\n";
    prints(command, &pieces, Duration::from_millis(3), wanted)
}

fn at_the_limit(program: &Program) -> Tried {
    let mut input = input(1, &large::full(32_768).file());
    prints_at_once(program, &input, &expected(&input)?)?;
    input.push(0);
    prints_at_once(program, &input, "REFUSED 1 0\n")
}

fn huge_input(program: &Program) -> Tried {
    prints_at_once(program, &vec![0; HUGE], "REFUSED 1 0\n")
}

/// A list without end, to a place where it cannot go.
fn unread(mut command: Command, count: u32, out: Stdio) -> Tried {
    command
        .stdin(Stdio::piped())
        .stdout(out)
        .stderr(Stdio::null());
    let mut child = command.spawn().map_err(|error| error.to_string())?;
    // Its pipe must not stay open here.
    drop(command);
    let stdin = child.stdin.take().ok_or("no pipe")?;
    write_all(stdin, count)?;
    ended(&mut child, PATIENCE).map(|_| ())
}

fn write_all(mut stdin: impl Write, count: u32) -> Tried {
    let input = input(count, &p10().file());
    stdin.write_all(&input).map_err(|error| error.to_string())
}

/// The pipe's other end is closed, and the signal that says so is on or off.
fn nobody_reads(program: &Program) -> Tried {
    for command in [program.command(), program.behind("trap '' PIPE;")] {
        let (reader, writer) = pipe().map_err(|error| error.to_string())?;
        drop(reader);
        unread(command, u32::MAX, writer.into())?;
    }
    // Nothing to write to at all.
    unread(program.behind("exec >&-;"), 1000, Stdio::null())
}

fn reader_leaves(program: &Program) -> Tried {
    for mut command in [program.command(), program.behind("trap '' PIPE;")] {
        command.stdin(Stdio::piped()).stdout(Stdio::piped());
        let spawned = command.stderr(Stdio::null()).spawn();
        let mut child = spawned.map_err(|error| error.to_string())?;
        write_all(child.stdin.take().ok_or("no pipe")?, u32::MAX)?;
        let mut line = String::new();
        let mut reader = BufReader::new(child.stdout.take().ok_or("no pipe")?);
        drop(reader.read_line(&mut line));
        drop(reader);
        ended(&mut child, PATIENCE)?;
        if line != "0 F\n" {
            return Err(format!("printed {line:?}"));
        }
    }
    Ok(())
}

fn no_room(program: &Program) -> Tried {
    let full = File::create("/dev/full").map_err(|error| error.to_string())?;
    unread(program.command(), u32::MAX, full.into())
}

#[cfg(test)]
mod tests {
    use super::*;

    #[test]
    fn what_does_not_end_is_told_and_stopped() {
        let mut child = Command::new("sleep").arg("100").spawn().expect("it runs");
        let answer = ended(&mut child, Duration::from_millis(30));
        assert_eq!(answer, Err("does not end".to_string()));
        assert!(matches!(child.try_wait(), Ok(Some(_))));
    }

    #[test]
    fn a_broken_pipe_is_no_crash() {
        let spawn = |signal: &str| {
            let script = format!("kill -{signal} $$");
            Command::new("sh")
                .args(["-c", &script])
                .spawn()
                .expect("it runs")
        };
        assert!(ended(&mut spawn("PIPE"), PATIENCE).is_ok());
        assert!(ended(&mut spawn("ABRT"), PATIENCE).is_err());
    }
}

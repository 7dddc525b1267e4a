//! The library and the lister, handled roughly.
//!
//!     robust [--seed N] [--count N]
//!     robust lister PROGRAM [WORD]..
//!
//! The first puts damaged files through every function of the library. Each
//! lent buffer has a page without access at its end, and then at its start.
//! It fails if an answer is outside document 01's ranges, if a refusal changes
//! a buffer, or if one of document 01's numbers was never reached. The second
//! starts a lister with its input or output closed, cut, far too long.

mod damage;
mod guard;
mod judge;
mod lister;
mod marks;
mod reached;
mod trial;

use std::io::{self, Write};
use std::process::ExitCode;

use cantaribol_sys::Main;
use guard::{Edge, Pages};
use reached::Reached;
use trial::{both_edges, Desk};

const USAGE: &str = "robust [--seed N] [--count N] | robust lister PROGRAM [WORD]..";
const SEED: u64 = 1;
const COUNT: u64 = 100_000;

fn main() -> ExitCode {
    let words: Vec<String> = std::env::args().skip(1).collect();
    let words: Vec<&str> = words.iter().map(String::as_str).collect();
    let done = match words[..] {
        ["lister", program, ref others @ ..] => lister::all(program, others),
        ["second-lister"] => lister::second_lister(),
        ["touch", edge, access] => touch(edge, access),
        _ => numbers(&words).and_then(|(seed, count)| library_tried(seed, count)),
    };
    match done {
        Ok(text) => {
            // Nobody may be listening, which changes nothing.
            drop(writeln!(io::stdout(), "{text}"));
            ExitCode::SUCCESS
        }
        Err(text) => {
            eprintln!("robust: {text}");
            ExitCode::FAILURE
        }
    }
}

fn numbers(words: &[&str]) -> Result<(u64, u64), String> {
    let (mut seed, mut count) = (SEED, COUNT);
    for pair in words.chunks(2) {
        let place = match pair[0] {
            "--seed" => &mut seed,
            "--count" => &mut count,
            _ => return Err(USAGE.to_string()),
        };
        let number = pair.get(1).and_then(|text| text.parse().ok());
        *place = number.ok_or(USAGE)?;
    }
    Ok((seed, count))
}

fn library_tried(seed: u64, count: u64) -> Result<String, String> {
    let mut desk = Desk::new().map_err(|error| error.to_string())?;
    let mut reached = Reached::default();
    for index in 0..count {
        let damaged = damage::nth_damaged(seed, index);
        let whole = damage::nth_whole(seed, index);
        for file in [Some(damaged), whole].into_iter().flatten() {
            both_edges(&Main, &mut desk, &file, index, &mut reached)
                .map_err(|text| told(seed, index, &file, &text))?;
        }
    }
    let missing = reached.missing();
    match missing.is_empty() {
        true => Ok(format!("robust: seed {seed}, {count} damaged\n{reached}")),
        false => Err(format!("never reached: {}\n{reached}", missing.join(", "))),
    }
}

fn told(seed: u64, index: u64, file: &[u8], text: &str) -> String {
    let hex: Vec<String> = file.iter().map(|byte| format!("{byte:02X}")).collect();
    format!("seed {seed}, file {index}: {text}\nfile {}", hex.join(" "))
}

/// Touches the byte beside a lent buffer, or one in it. A test starts it, to
/// see that the guards and the seal do end a process.
fn touch(edge: &str, access: &str) -> Result<String, String> {
    let mut pages = Pages::new(100).map_err(|error| error.to_string())?;
    if edge == "sealed" {
        let work = |words: &[u8]| touch_at(words.as_ptr().cast_mut(), access);
        let byte = pages.sealed(&[7u8; 10], Edge::End, work);
        return byte.map_err(|error| error.to_string());
    }
    let (buffer, beside) = match edge {
        "start" => (pages.lend(&[7u8; 10], Edge::Start), -1),
        "inside" => (pages.lend(&[7u8; 10], Edge::End), 9),
        _ => (pages.lend(&[7u8; 10], Edge::End), 10),
    };
    let place = buffer.as_mut_ptr().wrapping_offset(beside);
    Ok(touch_at(place, access))
}

fn touch_at(place: *mut u8, access: &str) -> String {
    // SAFETY: none, but for places that may be touched so; elsewhere the
    // process is to end here.
    let byte = unsafe {
        if access == "write" {
            place.write_volatile(1);
        }
        place.read_volatile()
    };
    format!("touched {byte}")
}

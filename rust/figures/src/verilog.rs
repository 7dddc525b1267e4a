//! The library against Debian's Verilog simulator, on the same designs
//! written by hand in Verilog.

use std::fs;
use std::path::{Path, PathBuf};
use std::process::{Command, Output, Stdio};
use std::time::Duration;

use generator::running::known::{fifo, gcd};

use crate::page::{short, Table};
use crate::rounds::{Costs, Done, Pace, Work};

/// A design's name, its Verilog and its file.
struct Model {
    name: &'static str,
    verilog: &'static str,
    file: Vec<u8>,
}

fn models() -> [Model; 2] {
    [
        Model {
            name: "GCD",
            verilog: include_str!("../verilog/gcd.v"),
            file: gcd(24, 16, 0).file(),
        },
        Model {
            name: "PipelineFIFO",
            verilog: include_str!("../verilog/pipeline_fifo.v"),
            file: fifo(1, 0, &[1, 0]).file(),
        },
    ]
}

/// A process start is part of what the simulator takes, so it runs for long.
const LONGER: u32 = 8;
/// The ends of runs of so many clocks are compared.
const COMPARED: [u64; 5] = [0, 1, 2, 7, 1000];

fn installed(program: &str) -> bool {
    let asked = Command::new(program)
        .arg("-V")
        .stdout(Stdio::null())
        .stderr(Stdio::null())
        .status();
    asked.is_ok_and(|status| status.success())
}

/// What the program prints; anything but success is an error.
fn printed(command: &mut Command) -> Result<String, String> {
    let Output { status, stdout, .. } = command.output().map_err(|error| error.to_string())?;
    match status.success() {
        true => Ok(String::from_utf8_lossy(&stdout).to_string()),
        false => Err(format!("{:?}: {status}", command.get_program())),
    }
}

fn compiled(model: &Model, folder: &Path) -> Result<PathBuf, String> {
    let source = folder.join(format!("{}.v", model.name));
    let program = folder.join(model.name);
    fs::write(&source, model.verilog).map_err(|error| error.to_string())?;
    printed(
        Command::new("iverilog")
            .arg("-o")
            .arg(&program)
            .arg(&source),
    )?;
    Ok(program)
}

/// The registers that the simulator ends with.
fn simulated(program: &Path, clocks: u64) -> Result<String, String> {
    let mut command = Command::new("vvp");
    let text = printed(command.arg(program).arg(format!("+clocks={clocks}")))?;
    Ok(text.lines().next().unwrap_or_default().to_string())
}

/// The registers that the library ends with, user instances left out.
fn expected(file: &[u8], clocks: u64) -> Result<String, String> {
    let design = second::read(file).map_err(|refusal| format!("{refusal:?}"))?;
    let ended = bench::by_main(file, design.instances.len(), clocks as u32)?;
    let registers = design.instances.iter().zip(&ended.state);
    let values: Vec<String> = registers
        .filter(|(instance, _)| matches!(instance, second::Instance::Register { .. }))
        .map(|(_, value)| value.to_string())
        .collect();
    Ok(values.join(" "))
}

/// Both end with the same registers.
fn compared(model: &Model, program: &Path) -> Done {
    for clocks in COMPARED {
        let (own, other) = (expected(&model.file, clocks)?, simulated(program, clocks)?);
        if own != other {
            let name = model.name;
            return Err(format!(
                "{name}, {clocks} clocks: library {own}, Verilog {other}"
            ));
        }
    }
    Ok(())
}

fn row(model: &Model, folder: &Path, pace: Pace) -> Result<Vec<String>, String> {
    let program = compiled(model, folder)?;
    compared(model, &program)?;
    let count = bench::instances(&model.file);
    let library = |n: u64| bench::by_main(&model.file, count, n as u32).map(|_| ());
    let simulator = |n: u64| simulated(&program, n).map(|_| ());
    let costs = Costs::of(vec![Work::new(library), Work::new(simulator)], pace)?;
    Ok(vec![
        model.name.to_string(),
        short(1e-6 / costs.cost(0)),
        short(1e-6 / costs.cost(1)),
        short(costs.ratio(1, 0)),
    ])
}

/// Nothing where the simulator is not installed.
pub fn table(pace: Pace) -> Result<Option<String>, String> {
    if !installed("iverilog") || !installed("vvp") {
        return Ok(None);
    }
    let folder = std::env::temp_dir().join(format!("figures-{}", std::process::id()));
    fs::create_dir_all(&folder).map_err(|error| error.to_string())?;
    let pace = Pace {
        wanted: pace.wanted.max(Duration::from_millis(10)) * LONGER,
        ..pace
    };
    let mut table = Table::new(&[
        "design",
        "library, M clocks/s",
        "vvp, M clocks/s",
        "library / vvp",
    ]);
    let rows: Result<Vec<_>, _> = models()
        .iter()
        .map(|model| row(model, &folder, pace))
        .collect();
    drop(fs::remove_dir_all(&folder));
    rows?.iter().for_each(|row| table.row(row));
    Ok(Some(table.text()))
}

#[cfg(test)]
mod tests {
    use super::*;

    #[test]
    fn the_library_ends_as_the_transcripts_say() {
        let [gcd, fifo] = models();
        // Document 000: clock 5 leaves x 8 and y 0, clock 6 is finish.
        assert_eq!(expected(&gcd.file, 6).as_deref(), Ok("1 8 0 1"));
        assert_eq!(expected(&gcd.file, 7).as_deref(), Ok("0 8 0 0"));
        assert_eq!(expected(&fifo.file, 101).as_deref(), Ok("101 1 100"));
    }

    /// Where there is a simulator, the models are held to the library.
    #[test]
    fn the_models_end_as_the_library() {
        if !installed("iverilog") || !installed("vvp") {
            eprintln!("no iverilog: the models are not tried");
            return;
        }
        let folder = std::env::temp_dir().join(format!("models-{}", std::process::id()));
        fs::create_dir_all(&folder).expect("a folder");
        for model in models() {
            let program = compiled(&model, &folder).expect(model.name);
            assert_eq!(compared(&model, &program), Ok(()), "{}", model.name);
        }
        fs::remove_dir_all(&folder).expect("the folder goes");
    }
}

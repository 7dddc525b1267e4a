//! Comparing what the two programs read.

use cantaribol_sys::Library;
use generator::{nth_file, FAMILIES};

use crate::arguments::Arguments;
use crate::found::report;
use crate::judge::judge;
use crate::shown::hex;
use crate::sources::of_family;
use crate::stage::Stage;
use crate::tally::Tally;

pub fn compare(arguments: &Arguments, library: &dyn Library) -> Result<String, String> {
    let mut tally = Tally::default();
    let mut stage = Stage::default();
    for (name, family) in FAMILIES {
        for (index, file) in family().iter().enumerate() {
            let agreement = judge(library, stage.put(file, index), index).map_err(|found| {
                report(
                    "read",
                    &format!("family {name}, file {index}"),
                    file,
                    &found,
                )
            })?;
            tally.add(&agreement, false);
        }
    }
    for index in 0..arguments.count {
        let file = nth_file(arguments.seed, index);
        let place = index as usize;
        let agreement = judge(library, stage.put(&file, place), place).map_err(|found| {
            let origin = format!("seed {}, file {index}", arguments.seed);
            report("read", &origin, &file, &found)
        })?;
        tally.add(&agreement, true);
    }
    let line = tally.line(arguments.seed);
    match tally.covers() {
        true => Ok(line),
        false => Err(format!("{line}\nthe files were not varied enough")),
    }
}

/// One file in hex, and what the second program says of it.
pub fn dump(arguments: &Arguments, index: u64) -> Result<String, String> {
    let file = match &arguments.family {
        None => nth_file(arguments.seed, index),
        Some(name) => of_family(FAMILIES, name, index)?,
    };
    let answer = match second::read(&file) {
        Ok(_) => "reads".to_string(),
        Err(refusal) => format!("refused: {} at {}", refusal.number, refusal.place),
    };
    Ok(format!("{}\n{answer}", hex(&file)))
}

#[cfg(test)]
mod tests {
    use super::*;
    use crate::arguments::Command;

    #[test]
    fn one_file_is_dumped() {
        let arguments = Arguments {
            dump: Some(1),
            family: Some("samples".to_string()),
            ..Arguments::of(Command::Read)
        };
        let text = dump(&arguments, 1).expect("a file");
        assert!(text.starts_with("52 47 05") && text.ends_with("reads"));
        assert!(dump(&arguments, 1000).is_err());
    }
}

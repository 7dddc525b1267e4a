//! Comparing clocks, start values and runs.

use cantaribol_sys::Library;
use second::read;

use crate::arguments::Arguments;
use crate::found::report;
use crate::run_tally::RunTally;
use crate::sources::each;
use crate::stage::Stage;
use crate::trial::Trial;

pub fn compare(arguments: &Arguments, library: &dyn Library) -> Result<String, String> {
    let mut tally = RunTally::default();
    let mut stage = Stage::default();
    each(arguments, &mut |source| {
        tally.files += 1;
        let mut trial = Trial {
            library,
            file: stage.put(source.file, source.index),
            read: &read(source.file),
            random: source.random,
            tally: &mut tally,
        };
        trial
            .all()
            .map_err(|found| report("run", &(source.origin)(), source.file, &found))
    })?;
    let line = tally.line(arguments.seed);
    match tally.covers() {
        true => Ok(line),
        false => Err(format!("{line}\nthe clocks were not varied enough")),
    }
}

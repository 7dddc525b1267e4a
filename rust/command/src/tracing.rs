//! `trace`: registers, fates and displays as a value-change dump.

mod displays;

use std::ffi::OsStr;
use std::io::{self, Write};

use cantaribol::{Board, Design, Ending, Fate};

use crate::fault::{Done, Fault};
use crate::input::Input;
use crate::interrupt;
use crate::listing::{clocked, verdict, End};
use crate::output::write_beside;
use crate::vcd::{Signal, Vcd};
use displays::most_displayed;

/// The time that a clock takes.
const PERIOD: u64 = 10;

const ABOUT: &str = "\
A clock takes 10 ns and begins with the rising edge of clk. x is unknown: after the last clock \
all but clk and the registers.
registers: instance_I is register I as it stood when the clock began.
rules, in schedule order: entry_E_rule_R_letter is what became of entry E, which is rule R, as \
the letter that list prints: F fired, U unavailable, A conflict inside the rule, \
E conflict with an earlier fired rule, H hardware conflict, S stuck, - not reached. \
Set its data format to ASCII to read it.
rule_R_fate is the same as a number: 0 fired, 1 unavailable, 2 conflict inside the rule, \
3 conflict with an earlier fired rule, 4 hardware conflict, 5 stuck, 6 not reached. \
rule_R_fired is 1 where that is 0.
displays: displays is how many values the clock displayed, display_0, display_1 and so on are \
the values in order, x where it displayed fewer. Beyond the 64th they are only counted.";

pub fn trace(
    input: &Input,
    design: &Design,
    clocks: u32,
    path: &OsStr,
    out: &mut dyn Write,
) -> Done {
    interrupt::watch();
    let end = match path == "-" {
        true => dump(design, clocks, out)?,
        false => {
            let fill = |out: &mut dyn Write| whole(dump(design, clocks, out), path);
            End::Of(write_beside(input, path, fill)?)
        }
    };
    verdict(input, end)
}

/// A dump that is to be kept.
fn whole(end: io::Result<End>, path: &OsStr) -> Done<Ending> {
    match end.map_err(|error| Fault::of_writing(path.display(), error))? {
        End::Of(ending) => Ok(ending),
        End::Interrupted { .. } => Err(Fault::Interrupted),
    }
}

fn dump(design: &Design, clocks: u32, out: &mut dyn Write) -> io::Result<End> {
    let registers = design.registers();
    let most = most_displayed(design, clocks);
    let signals = signals(design, &registers, most);
    let count = signals.len();
    let mut vcd = Vcd::new(out, ABOUT, signals)?;
    let mut board = design.board();
    let mut before = board.state().to_vec();
    let mut passed = 0;
    let end = clocked(&mut board, clocks, |clock, board| {
        let time = PERIOD * u64::from(clock);
        passed = clock + 1;
        let mut values = values(&registers, Some(clock), &before);
        tell_clock(board, most, &mut values);
        vcd.tell(time, &values)?;
        before.copy_from_slice(board.state());
        values[0] = Some(0);
        vcd.tell(time + PERIOD / 2, &values)
    })?;
    let time = PERIOD * u64::from(passed);
    let mut values = values(&registers, None, board.state());
    // No clock, no fates, no displays: theirs are unknown.
    values.resize(count, None);
    vcd.tell(time, &values)?;
    // A viewer ends where the dump does, and shows nothing that begins there.
    vcd.tell(time + PERIOD, &values)?;
    Ok(end)
}

fn signals(design: &Design, registers: &[usize], most: usize) -> Vec<Signal> {
    let signal = |scope, name: String, bits| Signal { scope, name, bits };
    let mut all = vec![
        signal(None, "clk".to_string(), 1),
        signal(None, "clock".to_string(), 32),
    ];
    for instance in registers {
        let name = format!("instance_{instance}");
        all.push(signal(Some("registers"), name, 32));
    }
    for (entry, rule) in design.schedule().iter().enumerate() {
        let rules = Some("rules");
        all.push(signal(
            rules,
            format!("entry_{entry}_rule_{rule}_letter"),
            8,
        ));
        all.push(signal(rules, format!("rule_{rule}_fate"), 3));
        all.push(signal(rules, format!("rule_{rule}_fired"), 1));
    }
    let displays = Some("displays");
    all.push(signal(displays, "displays".to_string(), 32));
    for number in 0..most {
        all.push(signal(displays, format!("display_{number}"), 32));
    }
    all
}

/// In the order of the signals, as far as the registers; a clock begins with
/// the rising edge.
fn values(registers: &[usize], clock: Option<u32>, state: &[i32]) -> Vec<Option<u32>> {
    let mut all = vec![Some(clock.is_some().into()), clock];
    all.extend(registers.iter().map(|at| Some(state[*at] as u32)));
    all
}

/// The rest of the signals: what the latest clock told.
fn tell_clock(board: &Board, most: usize, values: &mut Vec<Option<u32>>) {
    for (_, fate) in board.fates() {
        values.push(Some(fate.letter().into()));
        values.push(Some(fate.number().into()));
        values.push(Some((fate == Fate::Fired).into()));
    }
    let displays = board.displays();
    values.push(Some(displays.len() as u32));
    values.extend((0..most).map(|at| displays.get(at).map(|value| *value as u32)));
}

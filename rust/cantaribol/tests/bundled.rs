//! The bundled designs, by the main library: clock for clock what their
//! sources say.

use std::fs;
use std::path::PathBuf;

use cantaribol::{Design, Ending, Outcome, Record};
use generator::bundle::bundle;

fn stored(name: &str, ending: &str) -> Vec<u8> {
    let folder = PathBuf::from(concat!(env!("CARGO_MANIFEST_DIR"), "/../../designs"));
    let path = folder.join(name).with_extension(ending);
    fs::read(&path).unwrap_or_else(|error| panic!("{}: {error}", path.display()))
}

/// A list as document 01 prints it.
fn listing(design: &Design, clocks: usize) -> String {
    let mut board = design.board();
    let mut text = String::new();
    let mut ending = "LIMIT";
    let mut count = 0;
    for clock in 0..clocks {
        let outcome = board.clock();
        let letters: String = board
            .fates()
            .iter()
            .map(|(_, fate)| fate.letter())
            .collect();
        let displays: String = board.displays().iter().map(|n| format!(" {n}")).collect();
        text += &format!("{clock} {letters}{displays}\n");
        match outcome {
            Outcome::Fired { .. } => count += 1,
            Outcome::Quiet => ending = "QUIET",
            Outcome::Stuck { .. } => panic!("stuck in clock {clock}"),
        }
    }
    text += &format!("{ending} {count}{}\n", values(design, board.state()));
    text
}

fn values(design: &Design, state: &[i32]) -> String {
    let value = |record: Record| match record {
        Record::Register { instance, .. } => format!(" {}", state[instance]),
        Record::User { .. } => " -".to_string(),
        _ => String::new(),
    };
    design.records().into_iter().map(value).collect()
}

#[test]
fn every_design_is_listed_as_expected() {
    for design in bundle() {
        let name = design.name;
        let file = stored(name, "bin");
        let expected = String::from_utf8(stored(name, "expected")).expect("a text");
        let clocks = expected.lines().count() - 1;
        let design = Design::read(&file).expect(name);
        assert_eq!(listing(&design, clocks), expected, "{name}");
    }
}

/// A run ends as the list does, with its count and its values.
#[test]
fn every_design_ends_as_expected() {
    for design in bundle() {
        let name = design.name;
        let file = stored(name, "bin");
        let expected = String::from_utf8(stored(name, "expected")).expect("a text");
        let clocks = expected.lines().count() as u32 - 1;
        let design = Design::read(&file).expect(name);
        let mut state = design.start();
        let last = match design.run(&mut state, clocks) {
            Ok(Ending::Limit { count }) => format!("LIMIT {count}"),
            Ok(Ending::Quiet { count }) => format!("QUIET {count}"),
            other => panic!("{name}: {other:?}"),
        };
        let last = format!("{last}{}", values(&design, &state));
        assert_eq!(Some(&last[..]), expected.lines().last(), "{name}");
    }
}

#[test]
fn every_design_passes_the_check() {
    for design in bundle() {
        let file = stored(design.name, "bin");
        let design = Design::read(&file).expect("a design");
        assert_eq!(design.check(), Ok(()));
    }
}

//! The designs under `designs/`: their files are what the builder writes, and
//! the second program lists them as expected.

use std::collections::BTreeSet;
use std::fs;
use std::path::PathBuf;

use generator::bundle::{bundle, Bundled};

fn folder() -> PathBuf {
    PathBuf::from(concat!(env!("CARGO_MANIFEST_DIR"), "/../../designs"))
}

fn stored(name: &str, ending: &str) -> Vec<u8> {
    let path = folder().join(name).with_extension(ending);
    fs::read(&path).unwrap_or_else(|error| panic!("{}: {error}", path.display()))
}

fn stored_text(name: &str, ending: &str) -> String {
    String::from_utf8(stored(name, ending)).expect("a text")
}

fn listing(file: &[u8], clocks: u32) -> String {
    let mut out = Vec::new();
    let input = [&clocks.to_le_bytes(), file].concat();
    second::lister(&input, &mut out).expect("a list takes all");
    String::from_utf8(out).expect("plain letters")
}

/// A list has a line for each clock, and one for the ending.
fn clock_lines(expected: &str) -> u32 {
    expected.lines().count() as u32 - 1
}

#[test]
fn files_are_the_builders() {
    for Bundled { name, text } in bundle() {
        assert_eq!(stored_text(name, "hex"), text.hex(), "{name}");
        assert_eq!(stored(name, "bin"), text.bytes(), "{name}");
    }
}

#[test]
fn every_design_is_listed_as_expected() {
    for Bundled { name, text } in bundle() {
        let expected = stored_text(name, "expected");
        let clocks = clock_lines(&expected);
        assert_eq!(listing(&text.bytes(), clocks), expected, "{name}");
        // What ends by itself ends the same with more clocks; what does not
        // goes on.
        let longer = listing(&text.bytes(), clocks + 1);
        let by_itself = !expected.contains("LIMIT");
        assert_eq!(longer == expected, by_itself, "{name}");
    }
}

#[test]
fn every_design_passes_the_check() {
    for Bundled { name, text } in bundle() {
        let design = second::read(&text.bytes()).expect(name);
        assert_eq!(second::check(&design), Ok(()), "{name}");
    }
}

/// What queue.md says of a clock: with only the rules that fired in the
/// schedule, in their order, all of them fire, display the same and leave the
/// same state.
#[test]
fn only_what_fired_matters() {
    let mut left_out = 0;
    for Bundled { name, text } in bundle() {
        let design = second::read(&text.bytes()).expect(name);
        let mut state = vec![0; design.instances.len()];
        second::start(&design, &mut state).expect("the right length");
        for clock in 0..160 {
            let before = state.clone();
            let mut runner = second::Runner::new(&design);
            runner.clock(&mut state);
            let fired = with_only_fired(&design, &runner.fates);
            left_out += design.schedule.len() - fired.schedule.len();
            let mut again = before;
            let mut alone = second::Runner::new(&fired);
            alone.clock(&mut again);
            assert_eq!(again, state, "{name}, clock {clock}");
            assert_eq!(alone.displays, runner.displays, "{name}, clock {clock}");
            let all_fire = |fate: &second::Fate| *fate == second::Fate::Fired;
            assert!(alone.fates.iter().all(all_fire), "{name}, clock {clock}");
        }
    }
    assert!(left_out > 1000);
}

fn with_only_fired(design: &second::Design, fates: &[second::Fate]) -> second::Design {
    let entries = design.schedule.iter().zip(fates);
    let fired = entries.filter(|(_, fate)| **fate == second::Fate::Fired);
    second::Design {
        schedule: fired.map(|(rule, _)| *rule).collect(),
        ..design.clone()
    }
}

/// No design without its text, its expected list and its row in the README,
/// and no file without a design.
#[test]
fn every_design_has_its_files() {
    let named: BTreeSet<&str> = bundle().iter().map(|design| design.name).collect();
    let readme = stored_text("README", "md");
    for name in &named {
        let row = format!("| `{name}` |");
        let row = readme.lines().find(|line| line.starts_with(&row));
        let row = row.unwrap_or_else(|| panic!("{name} is not in the README"));
        let link = row.rsplit(['(', ')']).nth(1).expect("a link");
        let text = stored_text(link.trim_end_matches(".md"), "md");
        assert!(text.contains(name), "{name} in {link}");
    }
    for entry in fs::read_dir(folder()).expect("the designs") {
        let path = entry.expect("an entry").path();
        let stem = path.file_stem().and_then(|stem| stem.to_str());
        let ending = path.extension().and_then(|ending| ending.to_str());
        if matches!(ending, Some("hex" | "bin" | "expected")) {
            let stem = stem.expect("a plain name");
            assert!(named.contains(stem), "{stem} is no bundled design");
        }
    }
}

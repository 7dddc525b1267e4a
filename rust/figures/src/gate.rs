//! The time of each crate's proof and of its must-fail edits, from what a gate that tells them left behind.

use std::fs;
use std::path::Path;

use crate::page::{grouped, short, Table};

/// The seconds in a log's line `rt: NAME proved (N s)`.
fn seconds(log: &str, name: &str) -> Option<u64> {
    let begin = format!("rt: {name} proved (");
    let line = log.lines().find_map(|line| line.strip_prefix(&begin))?;
    line.strip_suffix(" s)")?.parse().ok()
}

/// The crates by name and seconds, in the order of the list; nothing where
/// a crate has no such log, as then not all of them were proved.
fn times(list: &str, log: impl Fn(&str) -> Option<String>) -> Option<Vec<(String, u64)>> {
    let mut times = Vec::new();
    for line in list.lines().filter(|line| !line.starts_with('#')) {
        let name = line.split(':').next()?.trim();
        times.push((name.to_string(), seconds(&log(name)?, name)?));
    }
    (!times.is_empty()).then_some(times)
}

/// The seconds of an edit's line `rt: must-fail NAME/LABEL: refused, .. N s)`.
fn edit_seconds(log: &str) -> Option<u64> {
    let line = log
        .lines()
        .find(|line| line.contains(": refused, as it must be ("))?;
    line.strip_suffix(" s)")?
        .rsplit([' ', '('])
        .next()?
        .parse()
        .ok()
}

/// What all edits of a crate took; 0 for a crate without any.
fn edits(folder: &Path) -> u64 {
    let entries = fs::read_dir(folder).into_iter().flatten().flatten();
    let logs = entries.filter(|entry| entry.path().extension().is_some_and(|end| end == "out"));
    logs.filter_map(|entry| edit_seconds(&fs::read_to_string(entry.path()).ok()?))
        .sum()
}

pub fn table(top: &Path) -> Option<String> {
    let list = fs::read_to_string(top.join("crates.txt")).ok()?;
    let log = |name: &str| fs::read_to_string(top.join(format!("target/log/{name}.out"))).ok();
    let times = times(&list, log)?;
    let folder = |name: &str| top.join("target/must-fail").join(name);
    let rows: Vec<_> = times
        .iter()
        .map(|(name, proof)| (name, *proof, edits(&folder(name))))
        .collect();
    let all: u64 = rows.iter().map(|(_, proof, edits)| proof + edits).sum();
    let mut table = Table::new(&["crate", "proof, s", "edits, s", "of all"]);
    let mut row = |name: &str, proof: u64, edits: u64| {
        let share = (proof + edits) as f64 / all.max(1) as f64;
        table.row(&[
            name.to_string(),
            grouped(proof as i64),
            grouped(edits as i64),
            short(share),
        ]);
    };
    for (name, proof, edits) in &rows {
        row(name, *proof, *edits);
    }
    row(
        "all",
        rows.iter().map(|(_, proof, _)| proof).sum(),
        rows.iter().map(|(_, _, edits)| edits).sum(),
    );
    Some(table.text())
}

#[cfg(test)]
mod tests {
    use super::*;

    #[test]
    fn the_seconds_of_a_log() {
        let log = "note\nrt: clock proved (213 s)\n";
        assert_eq!(seconds(log, "clock"), Some(213));
        assert_eq!(seconds(log, "rule"), None);
        assert_eq!(seconds("rt: clock failed (2 s)", "clock"), None);
    }

    #[test]
    fn the_seconds_of_an_edit() {
        let log = "rt: must-fail words/first: refused, as it must be (first at proofs/less/Proof.antt:28:40; 4 s)\n";
        assert_eq!(edit_seconds(log), Some(4));
        assert_eq!(
            edit_seconds("rt: must-fail words/first: refused, as it must be (12 s)"),
            Some(12)
        );
        assert_eq!(edit_seconds("rt: must-fail words/first: NOT REFUSED"), None);
    }

    #[test]
    fn a_crate_without_its_log_leaves_the_table_out() {
        let list = "# names\nwords:\nrule: words\n";
        let log = |name: &str| Some(format!("rt: {name} proved (4 s)"));
        let all = times(list, log).expect("all");
        assert_eq!(all, [("words".to_string(), 4), ("rule".to_string(), 4)]);
        let one = |name: &str| (name == "words").then(|| log(name)).flatten();
        assert_eq!(times(list, one), None);
    }
}

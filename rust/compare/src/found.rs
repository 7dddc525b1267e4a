//! Differences that were found, and reports of them.

use crate::shown::shown;

/// A question that the two programs answer differently.
#[derive(Debug)]
pub struct Found {
    pub question: String,
    pub second: String,
    pub main: String,
}

pub type Judged<T = ()> = Result<T, Found>;

/// The same packed answer, or a difference; words are made only then.
pub fn same(
    question: impl FnOnce() -> String,
    second: u64,
    main: u64,
    words: fn(u64) -> String,
) -> Judged {
    if second == main {
        return Ok(());
    }
    Err(Found {
        question: question(),
        second: words(second),
        main: words(main),
    })
}

pub fn report(command: &str, origin: &str, file: &[u8], found: &Found) -> String {
    let Found {
        question,
        second,
        main,
    } = found;
    format!(
        "compare {command}: the programs differ on {origin}\n\
         {question}: second {second}, main {main}\n{}",
        shown(file)
    )
}

#[cfg(test)]
mod tests {
    use super::*;
    use crate::packed::plain_words;

    #[test]
    fn a_report_shows_both_answers() {
        let question = || "read".to_string();
        assert!(same(question, 0, 0, plain_words).is_ok());
        let found = same(question, 2 + 256 * 6, 0, plain_words).expect_err("a difference");
        let text = report("read", "here", &[0x52, 0x47], &found);
        assert!(text.starts_with("compare read: the programs differ on here\n"));
        assert!(text.contains("read: second 1538 (2 at 6), main 0 (done)\n"));
        assert!(text.ends_with("2 bytes: 52 47"));
    }
}

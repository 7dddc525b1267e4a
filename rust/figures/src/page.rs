//! Tables of the page, in Markdown.

pub struct Table {
    text: String,
}

impl Table {
    /// The first column is words, the others numbers.
    pub fn new(heads: &[&str]) -> Self {
        let rule: Vec<&str> = heads.iter().map(|_| "---:").collect();
        Table {
            text: format!("| {} |\n|---|{}|\n", heads.join(" | "), rule[1..].join("|")),
        }
    }

    pub fn row(&mut self, cells: &[String]) {
        self.text += &format!("| {} |\n", cells.join(" | "));
    }

    pub fn text(self) -> String {
        self.text
    }
}

/// Three digits that count.
pub fn short(number: f64) -> String {
    match number.abs() {
        size if size >= 100.0 => grouped(number.round() as i64),
        size if size >= 10.0 => format!("{number:.1}"),
        size if size >= 1.0 => format!("{number:.2}"),
        _ => format!("{number:.3}"),
    }
}

/// Commas between thousands.
pub fn grouped(number: i64) -> String {
    let digits = number.unsigned_abs().to_string();
    let mut text = String::new();
    for (at, digit) in digits.chars().enumerate() {
        if at > 0 && (digits.len() - at).is_multiple_of(3) {
            text.push(',');
        }
        text.push(digit);
    }
    match number < 0 {
        true => format!("-{text}"),
        false => text,
    }
}

#[cfg(test)]
mod tests {
    use super::*;

    #[test]
    fn numbers_in_words() {
        assert_eq!(short(1234567.2), "1,234,567");
        assert_eq!(short(45.678), "45.7");
        assert_eq!(short(4.5678), "4.57");
        assert_eq!(short(0.12345), "0.123");
        assert_eq!(grouped(-1000), "-1,000");
        assert_eq!(grouped(999), "999");
    }

    #[test]
    fn a_table() {
        let mut table = Table::new(&["design", "clocks"]);
        table.row(&["P10".to_string(), "3".to_string()]);
        assert_eq!(
            table.text(),
            "| design | clocks |\n|---|---:|\n| P10 | 3 |\n"
        );
    }
}

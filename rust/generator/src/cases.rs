//! Stored cases of the lister: inputs, and the prints that the documents
//! give for them. No program made the prints.

/// A case as it is stored: lines that begin with # say where it is from,
/// `input` is in hex, and what follows `prints` is printed.
pub struct Stored {
    pub name: &'static str,
    text: &'static str,
}

#[derive(Debug)]
pub struct Case {
    pub input: Vec<u8>,
    pub prints: String,
}

macro_rules! stored {
    ($($name:literal),* $(,)?) => {
        &[$(Stored {
            name: $name,
            text: include_str!(concat!("../cases/", $name, ".txt")),
        }),*]
    };
}

pub const CASES: &[Stored] = stored![
    "p5",
    "p5-held-back",
    "p6",
    "p7",
    "p8",
    "p9",
    "p10",
    "under-four-bytes",
    "empty-schedule",
    "liar",
    "gcd",
    "pipeline-fifo-1",
    "pipeline-fifo-2",
    "bypass-fifo-1",
    "bypass-fifo-2",
];

impl Stored {
    pub fn parse(&self) -> Result<Case, String> {
        let fault = |what: &str| format!("stored case {}: {what}", self.name);
        let mut text = self.text;
        while text.starts_with('#') {
            text = text.split_once('\n').ok_or_else(|| fault("no end"))?.1;
        }
        let after = text.strip_prefix("input\n");
        let (input, prints) = after
            .and_then(|rest| rest.split_once("prints\n"))
            .ok_or_else(|| fault("input and prints are missing"))?;
        Ok(Case {
            input: hex(input).ok_or_else(|| fault("not hex"))?,
            prints: prints.to_string(),
        })
    }
}

fn hex(text: &str) -> Option<Vec<u8>> {
    text.split_whitespace()
        .map(|pair| match pair.len() {
            2 => u8::from_str_radix(pair, 16).ok(),
            _ => None,
        })
        .collect()
}

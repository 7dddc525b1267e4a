//! The command line.

pub const USAGE: &str = "compare read|run|check --seed S --count N\n\
     compare lister --seed S --count N --program PATH\n\
     compare read|run|check --seed S --dump INDEX [--family NAME]";

#[derive(Clone, Copy, Debug, PartialEq, Eq)]
pub enum Command {
    Read,
    Run,
    Lister,
    Check,
}

#[derive(Debug, PartialEq, Eq)]
pub struct Arguments {
    pub command: Command,
    pub seed: u64,
    pub count: u64,
    /// Print this file instead of comparing.
    pub dump: Option<u64>,
    pub family: Option<String>,
    /// The lister to be compared.
    pub program: Option<String>,
}

impl Arguments {
    /// The command with nothing said beside it.
    pub fn of(command: Command) -> Self {
        Arguments {
            command,
            seed: 1,
            count: match command {
                Command::Read => 200_000,
                Command::Run | Command::Check => 50_000,
                // Each is a process.
                Command::Lister => 2_000,
            },
            dump: None,
            family: None,
            program: None,
        }
    }

    pub fn parse(mut words: impl Iterator<Item = String>) -> Result<Self, String> {
        let command = match words.next().as_deref() {
            Some("read") => Command::Read,
            Some("run") => Command::Run,
            Some("lister") => Command::Lister,
            Some("check") => Command::Check,
            _ => return Err(USAGE.to_string()),
        };
        let mut arguments = Arguments::of(command);
        while let Some(name) = words.next() {
            let value = words.next().ok_or(USAGE)?;
            let number = || value.parse::<u64>().map_err(|_| USAGE.to_string());
            match name.as_str() {
                "--seed" => arguments.seed = number()?,
                "--count" => arguments.count = number()?,
                "--dump" => arguments.dump = Some(number()?),
                "--family" => arguments.family = Some(value),
                "--program" => arguments.program = Some(value),
                _ => return Err(USAGE.to_string()),
            }
        }
        Ok(arguments)
    }
}

#[cfg(test)]
mod tests {
    use super::*;

    fn parse(text: &str) -> Result<Arguments, String> {
        Arguments::parse(text.split_whitespace().map(str::to_string))
    }

    #[test]
    fn words() {
        let arguments = parse("read --seed 7 --count 9 --dump 3").expect("good words");
        assert_eq!((arguments.seed, arguments.count), (7, 9));
        assert_eq!(arguments.dump, Some(3));
        let arguments = parse("lister --program here").expect("good words");
        assert_eq!(arguments.program.as_deref(), Some("here"));
        for bad in ["", "ran", "read --seed", "read --seed x", "read --what 1"] {
            assert!(parse(bad).is_err(), "{bad}");
        }
    }
}

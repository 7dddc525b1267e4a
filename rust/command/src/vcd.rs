//! Value-change dumps.

use std::io::{self, Write};

/// A signal: its scope, its name and how many bits it has.
#[derive(Clone, Debug)]
pub struct Signal {
    pub scope: Option<&'static str>,
    pub name: String,
    pub bits: usize,
}

impl Signal {
    /// Viewers show an integer as a signed number, which registers are.
    fn words(&self, code: &str) -> String {
        let Signal { name, bits, .. } = self;
        match bits {
            1 => format!("reg 1 {code} {name}"),
            32 => format!("integer 32 {code} {name}"),
            _ => format!("reg {bits} {code} {name} [{}:0]", bits - 1),
        }
    }
}

/// A dump being written. Values are told at each time; only changes are
/// written.
pub struct Vcd<'a> {
    out: &'a mut dyn Write,
    signals: Vec<Signal>,
    /// The latest value of each signal; None is unknown, x.
    values: Vec<Option<u32>>,
    begun: bool,
}

impl<'a> Vcd<'a> {
    /// A comment for each line of `about`.
    pub fn new(out: &'a mut dyn Write, about: &str, signals: Vec<Signal>) -> io::Result<Self> {
        writeln!(
            out,
            "$version cantaribol {} $end",
            env!("CARGO_PKG_VERSION")
        )?;
        for line in about.lines() {
            writeln!(out, "$comment {line} $end")?;
        }
        writeln!(out, "$timescale 1 ns $end")?;
        writeln!(out, "$scope module design $end")?;
        let mut scope = None;
        for (signal, index) in signals.iter().zip(0..) {
            enter(out, &mut scope, signal.scope)?;
            writeln!(out, "$var {} $end", signal.words(&code(index)))?;
        }
        enter(out, &mut scope, None)?;
        writeln!(out, "$upscope $end")?;
        writeln!(out, "$enddefinitions $end")?;
        Ok(Vcd {
            out,
            values: vec![None; signals.len()],
            signals,
            begun: false,
        })
    }

    /// All values from this time on, in the order of the signals.
    pub fn tell(&mut self, time: u64, values: &[Option<u32>]) -> io::Result<()> {
        writeln!(self.out, "#{time}")?;
        let first = !self.begun;
        self.begun = true;
        if first {
            writeln!(self.out, "$dumpvars")?;
        }
        for (index, value) in values.iter().enumerate() {
            if first || self.values[index] != *value {
                self.values[index] = *value;
                self.change(index, *value)?;
            }
        }
        match first {
            true => writeln!(self.out, "$end"),
            false => Ok(()),
        }
    }

    fn change(&mut self, index: usize, value: Option<u32>) -> io::Result<()> {
        let code = code(index);
        match (self.signals[index].bits, value) {
            (1, Some(bit)) => writeln!(self.out, "{bit}{code}"),
            (1, None) => writeln!(self.out, "x{code}"),
            (_, Some(value)) => writeln!(self.out, "b{value:b} {code}"),
            (_, None) => writeln!(self.out, "bx {code}"),
        }
    }
}

/// Leave the scope that was open, and open the next one.
fn enter(
    out: &mut dyn Write,
    open: &mut Option<&'static str>,
    next: Option<&'static str>,
) -> io::Result<()> {
    if *open == next {
        return Ok(());
    }
    if open.is_some() {
        writeln!(out, "$upscope $end")?;
    }
    if let Some(name) = next {
        writeln!(out, "$scope module {name} $end")?;
    }
    *open = next;
    Ok(())
}

/// A signal's short name: printable letters, as a number of base 94.
fn code(index: usize) -> String {
    let letter = |digit: usize| char::from(b'!' + digit as u8);
    match index / 94 {
        0 => letter(index).to_string(),
        high => [letter(high - 1), letter(index % 94)].iter().collect(),
    }
}

#[cfg(test)]
mod tests {
    use super::*;
    use std::collections::HashSet;

    #[test]
    fn codes_differ_and_are_printable() {
        let codes: HashSet<String> = (0..2000).map(code).collect();
        assert_eq!(codes.len(), 2000);
        for code in codes {
            assert!(code.bytes().all(|byte| byte.is_ascii_graphic()), "{code}");
        }
    }
}

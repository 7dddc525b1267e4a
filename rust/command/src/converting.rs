//! `convert`: the same design as assembly, hex or binary.

use std::ffi::OsStr;
use std::io::{self, Write};
use std::path::Path;

use cantaribol::Design;

use crate::fault::{Done, Fault, Verdict};
use crate::input::Input;
use crate::output::write_beside;
use crate::{hex, showing};

#[derive(Clone, Copy, Debug, PartialEq, Eq)]
pub enum Form {
    Assembly,
    Hex,
    Binary,
}

impl Form {
    pub fn named(word: &OsStr) -> Option<Self> {
        match word.to_str()? {
            "asm" => Some(Form::Assembly),
            "hex" => Some(Form::Hex),
            "bin" => Some(Form::Binary),
            _ => None,
        }
    }

    /// The form that a file's name asks for.
    pub fn of_ending(path: &OsStr) -> Option<Self> {
        match Path::new(path).extension()?.to_str()? {
            "txt" => Some(Form::Assembly),
            ending => Form::named(ending.as_ref()),
        }
    }
}

pub fn convert(
    input: &Input,
    design: &Design,
    form: Form,
    path: &OsStr,
    out: &mut dyn Write,
) -> Done {
    match path == "-" {
        true => print(design, form, out)?,
        false => write_beside(input, path, |out| {
            let printed = print(design, form, out);
            printed.map_err(|error| Fault::of_writing(path.display(), error))
        })?,
    }
    Ok(Verdict::Fine)
}

fn print(design: &Design, form: Form, out: &mut dyn Write) -> io::Result<()> {
    match form {
        Form::Assembly => showing::print(design, out),
        Form::Hex => hex::print(design, out),
        Form::Binary => out.write_all(design.file()),
    }
}

//! Files that are written: whole or not at all, and never over the input.

use std::ffi::OsStr;
use std::fs::{self, File, Metadata, OpenOptions};
use std::io::{self, BufWriter, ErrorKind, Write};
use std::os::unix::fs::MetadataExt;
use std::path::{Path, PathBuf};
use std::process;

use crate::fault::{Done, Fault};
use crate::input::Input;

/// Fills a new file beside `path`, which gets that name when it is whole.
/// Where that fails, what stood at `path` still does. A pipe or a device has
/// nothing to keep and is written to directly.
pub fn write_beside<T>(
    input: &Input,
    path: &OsStr,
    fill: impl FnOnce(&mut dyn Write) -> Done<T>,
) -> Done<T> {
    let fault = |error| Fault::of_writing(path.display(), error);
    let place = followed(path);
    match there(path).map_err(fault)? {
        Some(old) if input.is_from(&old) => Err(Fault::Io(format!(
            "{}: this is the input, which is not written over",
            path.display()
        ))),
        // An open file that has lost its name is like a pipe.
        Some(old) if !old.is_file() || !is_at(&old, &place) => {
            let file = File::create(path).map_err(fault)?;
            filled(file, path, fill).map(|(_, told)| told)
        }
        old => {
            let (beside, file) = begun(&place, old).map_err(fault)?;
            let (file, told) = filled(file, path, fill)?;
            // A name may reach the disk before what the file holds does.
            file.sync_all().map_err(fault)?;
            fs::rename(&beside.path, &place).map_err(fault)?;
            Ok(told)
        }
    }
}

/// What stands at the end of the path's links, if anything does.
fn there(path: &OsStr) -> io::Result<Option<Metadata>> {
    match fs::metadata(path) {
        Ok(old) => Ok(Some(old)),
        Err(error) if error.kind() == ErrorKind::NotFound => Ok(None),
        Err(error) => Err(error),
    }
}

fn is_at(file: &Metadata, path: &Path) -> bool {
    let is_same = |found: Metadata| (found.dev(), found.ino()) == (file.dev(), file.ino());
    fs::metadata(path).is_ok_and(is_same)
}

/// The path without its links, of which a renaming would replace the first.
/// They may end where nothing stands yet.
fn followed(path: &OsStr) -> PathBuf {
    /// More than a system follows; links may change while they are read.
    const LINKS: usize = 64;
    let mut place = PathBuf::from(path);
    for _ in 0..LINKS {
        let Ok(next) = fs::read_link(&place) else {
            break;
        };
        place.pop();
        place.push(next);
    }
    place
}

/// The file that is to take the place of the old one, if there is one.
fn begun(place: &Path, old: Option<Metadata>) -> io::Result<(Beside, File)> {
    if old.is_some() {
        // A renaming does not ask whether the old file may be written.
        OpenOptions::new().write(true).open(place)?;
    }
    let (beside, file) = Beside::create(place)?;
    if let Some(old) = old {
        // Before there is anything in it that not everybody may read.
        file.set_permissions(old.permissions())?;
    }
    Ok((beside, file))
}

fn filled<T>(
    file: File,
    path: &OsStr,
    fill: impl FnOnce(&mut dyn Write) -> Done<T>,
) -> Done<(File, T)> {
    let mut out = BufWriter::new(file);
    let told = fill(&mut out)?;
    match out.into_inner() {
        Ok(file) => Ok((file, told)),
        Err(error) => Err(Fault::of_writing(path.display(), error.into())),
    }
}

/// A file that is gone in the end, unless it has another name by then.
struct Beside {
    path: PathBuf,
}

impl Beside {
    /// Names that an earlier process of the same number may have left.
    const TRIES: u32 = 100;

    /// A new file in the same folder: only there it can be renamed.
    fn create(place: &Path) -> io::Result<(Self, File)> {
        if place.file_name().is_none() {
            return Err(ErrorKind::NotFound.into());
        }
        for number in 0..Self::TRIES {
            let name = format!(".cantaribol-{}-{number}", process::id());
            let path = place.with_file_name(name);
            match File::create_new(&path) {
                Ok(file) => return Ok((Beside { path }, file)),
                Err(error) if error.kind() == ErrorKind::AlreadyExists => {}
                Err(error) => return Err(error),
            }
        }
        Err(io::Error::other("no name is free for a new file beside it"))
    }
}

impl Drop for Beside {
    fn drop(&mut self) {
        let _ = fs::remove_file(&self.path);
    }
}

#[cfg(test)]
mod tests;

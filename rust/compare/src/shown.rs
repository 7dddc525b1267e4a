//! Files in reports.

use std::fmt::Write;

/// Files longer than this are not printed but written beside the others.
const PRINTED: usize = 4096;

/// A file in hex, or where it was written when it is long.
pub fn shown(file: &[u8]) -> String {
    if file.len() <= PRINTED {
        return format!("{} bytes: {}", file.len(), hex(file));
    }
    let path = std::env::temp_dir().join(format!("compare-{}.bin", std::process::id()));
    match std::fs::write(&path, file) {
        Ok(()) => format!("{} bytes, written to {}", file.len(), path.display()),
        Err(error) => format!("{} bytes, not written: {error}", file.len()),
    }
}

pub fn hex(file: &[u8]) -> String {
    let mut text = String::new();
    for byte in file {
        // Writing to a string cannot fail.
        let _ = write!(text, "{byte:02X} ");
    }
    text.trim_end().to_string()
}

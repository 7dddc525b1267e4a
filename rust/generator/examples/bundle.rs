//! Writes the `.hex` and `.bin` files of the bundled designs into a folder.
//!
//!     cargo run -p generator --example bundle -- ../designs

use std::path::Path;
use std::process::ExitCode;
use std::{env, fs, io};

use generator::bundle::bundle;

fn write(folder: &Path) -> io::Result<()> {
    for design in bundle() {
        let path = folder.join(design.name);
        fs::write(path.with_extension("hex"), design.text.hex())?;
        fs::write(path.with_extension("bin"), design.text.bytes())?;
    }
    Ok(())
}

fn main() -> ExitCode {
    let Some(folder) = env::args_os().nth(1) else {
        eprintln!("usage: bundle FOLDER");
        return ExitCode::from(2);
    };
    match write(Path::new(&folder)) {
        Ok(()) => ExitCode::SUCCESS,
        Err(error) => {
            eprintln!("bundle: {error}");
            ExitCode::FAILURE
        }
    }
}

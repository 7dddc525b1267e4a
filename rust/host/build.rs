//! Where the archive of the main program stands: CANTARIBOL_LIB, or the
//! folder that the main program's build leaves it in.

use std::env;
use std::path::{self, Path, PathBuf};
use std::process;

fn main() {
    let named = env::var_os("CANTARIBOL_LIB").filter(|folder| !folder.is_empty());
    let folder = canonical(&named.map_or_else(beside, PathBuf::from));
    let archive = folder.join("libhost.a");
    // First, as cargo shows what was printed before a failure, and looks again
    // at the next build in any case.
    if !archive.is_file() {
        missing(&folder);
    }
    println!("cargo:rerun-if-env-changed=CANTARIBOL_LIB");
    println!("cargo:rerun-if-changed={}", archive.display());
    println!("cargo:rustc-link-search=native={}", folder.display());
    println!("cargo:rustc-link-lib=static=host");
}

fn beside() -> PathBuf {
    let manifest = env::var_os("CARGO_MANIFEST_DIR").expect("cargo sets it");
    let manifest = Path::new(&manifest);
    let top = manifest.ancestors().nth(2).unwrap_or(manifest);
    top.join("crates/host/out")
}

/// As it is where it exists, and at least from the root where it does not.
fn canonical(folder: &Path) -> PathBuf {
    let canonical = folder.canonicalize();
    let canonical = canonical.or_else(|_| path::absolute(folder));
    canonical.unwrap_or_else(|_| folder.into())
}

/// The linker's words would come much later, and say less.
fn missing(folder: &Path) -> ! {
    eprintln!(
        "no libhost.a in {}: run `rt lib` in crates/host, \
         or set CANTARIBOL_LIB to the folder that it is in",
        folder.display()
    );
    process::exit(1)
}

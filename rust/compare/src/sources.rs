//! The files that running and checking are compared on.

use generator::families::Family;
use generator::random::Random;
use generator::running::{nth_design, RUN_FAMILIES};
use generator::{nth_file, FAMILIES};

use crate::arguments::Arguments;
use crate::shown::hex;

/// One file in so many is from those made for reading; most are refused.
const REFUSED_TOO: u64 = 12;

/// Where a file is from, and the file.
pub struct Source<'a> {
    pub origin: &'a dyn Fn() -> String,
    pub file: &'a [u8],
    pub index: usize,
    /// For states and the like; the same each time.
    pub random: Random,
}

/// Visit all families, then `count` random files; the first error ends it.
pub fn each<E>(
    arguments: &Arguments,
    visit: &mut dyn FnMut(Source) -> Result<(), E>,
) -> Result<(), E> {
    // Files that are refused, each number in many ways.
    let spoilt = FAMILIES.iter().filter(|(name, _)| *name == "spoilt");
    for (name, family) in RUN_FAMILIES.iter().chain(spoilt) {
        for (index, file) in family().iter().enumerate() {
            let origin = || format!("family {name}, file {index}");
            visit(source(&origin, file, index, arguments.seed))?;
        }
    }
    for index in 0..arguments.count {
        let file = nth(arguments.seed, index);
        let origin = || format!("seed {}, file {index}", arguments.seed);
        visit(source(&origin, &file, index as usize, arguments.seed))?;
    }
    Ok(())
}

fn source<'a>(
    origin: &'a dyn Fn() -> String,
    file: &'a [u8],
    index: usize,
    seed: u64,
) -> Source<'a> {
    Source {
        origin,
        file,
        index,
        random: Random::of_file(!seed, index as u64),
    }
}

/// The random file with this number: mostly a design that reads.
fn nth(seed: u64, index: u64) -> Vec<u8> {
    match index % REFUSED_TOO {
        0 => nth_file(seed, index),
        _ => nth_design(seed, index),
    }
}

/// One file in hex, with what the second program's check says of it and
/// what its lister prints for five clocks.
pub fn dump(arguments: &Arguments, index: u64) -> Result<String, String> {
    let file = again(arguments, index)?;
    let checked = match second::read(&file).and_then(|design| second::check(&design)) {
        Ok(()) => "passes".to_string(),
        Err(refusal) => format!("{} at {}", refusal.number, refusal.place),
    };
    let mut listing = Vec::new();
    let input = [&5u32.to_le_bytes(), &file[..]].concat();
    second::lister(&input, &mut listing).map_err(|error| error.to_string())?;
    let listing = String::from_utf8_lossy(&listing).to_string();
    Ok(format!(
        "{}\ncheck: {checked}\n{}",
        hex(&file),
        listing.trim_end()
    ))
}

/// One file again, from a seed or a family.
fn again(arguments: &Arguments, index: u64) -> Result<Vec<u8>, String> {
    let Some(name) = &arguments.family else {
        return Ok(nth(arguments.seed, index));
    };
    of_family(RUN_FAMILIES.iter().chain(FAMILIES), name, index)
}

/// One file of the family with this name.
pub fn of_family(
    families: impl IntoIterator<Item = &'static Family>,
    name: &str,
    index: u64,
) -> Result<Vec<u8>, String> {
    let known = families.into_iter().find(|(known, _)| *known == name);
    let (_, family) = known.ok_or_else(|| format!("no family {name}"))?;
    let file = family().get(index as usize).cloned();
    file.ok_or_else(|| format!("no file {index} in {name}"))
}

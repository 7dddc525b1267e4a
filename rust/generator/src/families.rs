//! The systematic families: the same files whatever the seed.

mod damage;
mod limits;
mod order;
mod small;

pub type Files = Vec<Vec<u8>>;

/// A name, and what makes the files.
pub type Family = (&'static str, fn() -> Files);

/// Each family with its name. They are made one at a time, as all together
/// would be large.
pub const FAMILIES: &[Family] = &[
    ("samples", damage::samples),
    ("truncations", damage::truncations),
    ("damages", damage::damages),
    ("all bytes", damage::all_bytes),
    ("sizes", limits::sizes),
    ("numbers", limits::numbers),
    ("fields", limits::fields),
    ("body bytes", limits::body_bytes),
    ("lengths", limits::lengths),
    ("depths", limits::depths),
    ("heads", order::heads),
    ("schedules", order::schedules),
    ("spoilt", order::spoilt),
    ("pairs", order::pairs),
    ("marks", small::marks),
    ("tiny files", small::tiny_files),
    ("tiny bodies", small::tiny_bodies),
];

//! The systematic families of designs to be run and checked.

mod calls;
mod clashes;
mod depths;
mod endings;
mod grid;
pub(super) mod layers;
mod locals;
mod named;
mod orders;

use crate::families::Family;

/// Small designs stand first, so that what differs is told on a small one.
pub const RUN_FAMILIES: &[Family] = &[
    ("samples that read", named::samples),
    ("ports within", clashes::within),
    ("ports across", clashes::across),
    ("forgotten calls", clashes::forgotten),
    ("endings", endings::endings),
    ("stuck rules", endings::stuck),
    ("arithmetic", named::arithmetic),
    ("thresholds", named::thresholds),
    ("two parts", grid::two_parts),
    ("three parts", grid::three_parts),
    ("calls and arguments", grid::calls),
    ("purity", grid::purity),
    ("user methods", clashes::user_methods),
    ("live locals", locals::live),
    ("freed locals", locals::freed),
    ("call counts", calls::counts),
    ("at the call limit", calls::at_the_limit),
    ("file order", orders::file_order),
    ("file order of 27", orders::call_limit_last),
    ("known designs", named::known),
    ("layers", layers::layers),
    ("either arm", layers::either_arm),
    ("deepest", depths::deepest),
    ("largest", named::largest),
];

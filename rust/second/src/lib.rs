//! The second program: document 01, as the requests of document 02 change it,
//! read once more, as a plain tree interpreter, so that the main program has
//! something to be compared with. It shares nothing with the main program but
//! the documents.

pub mod check;
pub mod clock;
pub mod conflict;
pub mod design;
pub mod evaluate;
pub mod lister;
pub mod part;
pub mod reader;
pub mod run;
pub mod value;

pub use check::check;
pub use clock::{clock, start, Clocked, Fate, Runner, DISPLAY_ROOM, FATE_ROOM};
pub use design::{
    Design, Expr, Instance, Kind, Method, MethodKind, Operator, Part, Refusal, Rule, Statement,
};
pub use lister::lister;
pub use part::{method_part, rule_part};
pub use reader::read;
pub use run::{run, Ending, Run};
pub use value::{Halt, Reason, Value};

//! The second program: document 01 ("Integer rule sets for the pit board") and
//! the requests of document 02 that have landed, written down once more, from
//! the documents alone, so that every answer of the engine can be held against
//! a program that shares no line with it.
//!
//! Headings cited in comments are headings of document 01, "request k" is
//! number k of document 02; "reading k" is number k of readings.md, and a void
//! equality is so called by readings-02.md.

pub mod algebra;
pub mod ask;
pub mod bytes;
pub mod calls;
pub mod count;
pub mod draft;
pub mod exact;
pub mod extreme;
pub mod fleet;
pub mod listing;
pub mod model;
pub mod range;
pub mod refusal;
pub mod script;
pub mod states;
pub mod tableau;
pub mod test;

pub use bytes::{encode, parse};
pub use calls::run_call;
pub use model::{BasicSet, Division, Kind, Point, Rule, Set};
pub use script::run_script;
pub use test::{Answer, Outcome};

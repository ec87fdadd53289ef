//! Seeded scripts and calls that reach every refusal, test answer and search outcome, all that tightening does, every
//! answer of tests that are carried into 128 bits, long runs of failing prefixes, counts, ranges and lists of points of
//! every kind, every answer of greatest and least in either half, walks of named states that say every word, and
//! numbers of rules wherever a rule goes.

mod additions;
pub mod boxes;
pub mod calls;
pub mod corners;
pub mod counting;
pub mod damage;
pub mod events;
pub mod extremes;
pub mod fleets;
pub mod hard;
pub mod histogram;
pub mod model;
pub mod numbers;
pub mod plans;
pub mod queries;
pub mod ranges;
pub mod rng;
pub mod runs;
pub mod scripts;
pub mod sets;
pub mod slots;
pub mod states;
mod turns;
pub mod walks;
pub mod wider;

//! Scripts for the pit board as text, a command a line, and back. The form is described in examples/README.md.
//!
//! Text that is read gives exactly the bytes it tells; every string of bytes can be written as text, and reading that
//! gives the bytes back.

pub mod counts;
pub mod read;
pub mod write;

pub use read::{read, Fault};
pub use write::write;

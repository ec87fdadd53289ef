//! Stored scripts and calls as readable text: text to bytes, bytes to text, and a runner.

pub mod describe;
pub mod files;
pub mod layout;
pub mod runner;
pub mod tokens;

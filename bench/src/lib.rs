//! A plain Rust stepper of the rules in docs/RULES.md, to measure the proved one against.

pub mod frames;
pub mod plain;
pub mod schedules;

//! The rule writer's desk: what the command `desk` is made of, for tests to hold it.

pub mod chances;
pub mod marks;
pub mod reason;
pub mod report;
pub mod walk;
pub mod words;

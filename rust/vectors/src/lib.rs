//! Stored calls and answers (`vectors/`), and the ways to what answers them:
//! the wrapper, the baseline, and programs that have a build of the library in
//! them and are asked through pipes.

pub mod sides;
pub mod stored;

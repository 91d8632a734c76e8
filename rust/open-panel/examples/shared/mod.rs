//! What the examples have in common.

use std::fs;
use std::process::ExitCode;

/// A file's bytes, or how to end without them.
pub fn read(file: &str) -> Result<Vec<u8>, ExitCode> {
    fs::read(file).map_err(|error| {
        eprintln!("{file}: {error}");
        ExitCode::from(2)
    })
}

/// Seats as digits, such as `001`. What is no digit becomes a state that no card has.
pub fn seats(digits: &str) -> Vec<u8> {
    let state = |byte: u8| match byte {
        b'0'..=b'9' => byte - b'0',
        _ => u8::MAX,
    };
    digits.bytes().map(state).collect()
}

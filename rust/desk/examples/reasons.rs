//! Prints a line for each refusal of the stored vectors: its name, number and place, the bytes that it is about, the name of the reason, the
//! sentence and the hint. `tests/desk-reasons.mjs` holds the page's reasons to it.

#[path = "../tests/stored/mod.rs"]
mod stored;

use std::io::{self, Write};

fn main() -> io::Result<()> {
    let mut out = io::stdout().lock();
    for stored in stored::refusals() {
        let (number, place) = stored.refused;
        let reason = stored.reason;
        let (from, to, hint) = (
            reason.span.start,
            reason.span.end,
            reason.hint.unwrap_or_default(),
        );
        writeln!(
            out,
            "{}\t{number} {place}\t{from} {to}\t{}\t{}\t{hint}",
            stored.name, reason.name, reason.sentence
        )?;
    }
    Ok(())
}

//! The panel program over the baseline: `panel < input`.

use std::io::{self, Read, Write};

fn main() -> io::Result<()> {
    let mut input = Vec::new();
    let most = baseline::limits::INPUT_BYTES as u64;
    io::stdin().lock().take(most).read_to_end(&mut input)?;
    io::stdout().lock().write_all(&baseline::program(&input))
}

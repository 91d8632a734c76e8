#!/usr/bin/env bash
# Measures the library beside the baseline, as compiled for the processor at hand, and prints Markdown for docs/BENCHMARKS.md.
set -eu
cd "$(dirname "${BASH_SOURCE[0]}")/../.."
bin/library "$(uname -m)-linux" >&2
. rust/library.sh
cd rust
cargo run --release --offline --quiet --package bench

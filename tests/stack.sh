#!/usr/bin/env bash
# Every entry, on the inputs that need most stack, takes no more of it than the header and the wrapper say; the independent implementation
# beside it. What a processor that cannot be linked with here takes is measured there, by the same words.
set -eu
cd "$(dirname "${BASH_SOURCE[0]}")/.."
bin/library "$(uname -m)-linux" >/dev/null
. rust/library.sh
cargo run --manifest-path rust/Cargo.toml --release --offline --quiet --package bench -- stack

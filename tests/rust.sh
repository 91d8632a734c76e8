#!/usr/bin/env bash
# The Rust side: the wrapper's and the independent implementation's own tests, and the library against that implementation on generated
# cards and seatings. No network is needed.
set -eu
cd "$(dirname "${BASH_SOURCE[0]}")/.."
bin/library "$(uname -m)-linux" >/dev/null
. rust/library.sh
cd rust
cargo test --release --offline --quiet
cargo run --release --offline --quiet --package compare

#!/usr/bin/env bash
# The comparison of tests/rust.sh, 20,000 inputs of it, with each build of the library that cannot be linked with Rust here: the comparison is
# linked with a library that asks such a build through two pipes (tests/c/remote.c).
set -eu
cd "$(dirname "${BASH_SOURCE[0]}")/.."
root=$PWD
. bin/kit.sh
. tests/c/build.sh
bin/library >/dev/null
. rust/library.sh

remote=$root/target/remote
mkdir -p "$remote"
bin/entries | bash tests/c/remote.sh >"$remote/remote_entries.h"
cc -Wall -Wextra -Werror -std=c99 -O2 -Iinclude -I"$remote" -c tests/c/remote.c -o "$remote/remote.o"
cc -std=c99 -O2 -Iinclude -c c/open_panel_words.c -o "$remote/words.o"
rm -f "$remote/libopen_panel.a"
ar rcs "$remote/libopen_panel.a" "$remote"/{remote,words}.o
export OPEN_PANEL_LIB_DIR=$remote CARGO_TARGET_DIR=$root/target/rust-remote
cargo build --manifest-path rust/Cargo.toml --release --offline --quiet --package compare

# compared TARGET WORDS..: the inputs are not those of the run on the processor at hand
compared() {
    local target=$1
    shift
    export OPEN_PANEL_BRIDGE="exec $*"
    "$CARGO_TARGET_DIR/release/compare" --seed 2 --inputs 20000 >"$remote/$target.log" || { cat "$remote/$target.log" && return 1; }
    echo "compare: $target: 20000 inputs, $(grep -o 'seed.*' "$remote/$target.log")"
}

for target in x86_64-linux aarch64-linux; do
    [ $target != "$machine-linux" ] || continue
    runnable $target || continue
    linked $target bridge
    compared $target "${run[@]}"
done
if command -v node >/dev/null; then
    compared wasm32 node tests/bridge.mjs target/library/wasm32/open_panel.wasm
else
    echo "wasm32: left out, as there is no node here"
fi

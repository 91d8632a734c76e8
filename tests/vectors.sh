#!/usr/bin/env bash
# The stored vectors: through the library by its Rust wrapper, through its builds that cannot be linked with that here (for the other
# processor, and as WebAssembly), through the panel program, and through the independent implementation.
set -eu
cd "$(dirname "${BASH_SOURCE[0]}")/.."
root=$PWD
. bin/kit.sh
. tests/c/build.sh
bin/library >/dev/null
program=$(bin/program)
. rust/library.sh
cargo build --manifest-path rust/Cargo.toml --release --offline --quiet --package vectors

# held CASES ANSWERS ENTRY [SIDE..]
held() { target/rust/release/vectors "vectors/$1.cases" "vectors/$2.expected" "${@:3}"; }

# through WHAT [SIDE..]: every entry. An entry that is added, or a file, is named here.
through() {
    echo "vectors: $1"
    held base written read "${@:2}"
    held base written write "${@:2}"
    held base reduced reduce "${@:2}"
    held base panel panel "${@:2}"
    held fractions fractions-written read "${@:2}"
    held fractions fractions-written write "${@:2}"
    held fractions fractions-reduced reduce "${@:2}"
    held fractions fractions-panel panel "${@:2}"
    held edges edges read "${@:2}"
    held edges edges write "${@:2}"
    held requests/2026-01 requests/2026-01 ask "${@:2}"
    held requests/2026-02 requests/2026-02 box_find "${@:2}"
    held requests/2026-02 requests/2026-02 box_write "${@:2}"
    for entry in read write reduce panel; do held requests/2026-03 requests/2026-03 $entry "${@:2}"; done
    held requests/2026-04 requests/2026-04 write "${@:2}"
    held requests/2026-05 requests/2026-05 spectator "${@:2}"
    for entry in read write reduce panel ask; do held requests/2026-06 requests/2026-06 $entry "${@:2}"; done
    held requests/2026-07 requests/2026-07 first_move "${@:2}"
    # the JavaScript module lends rows itself, and does not hand them out
    [[ $1 = *mjs ]] || held requests/2026-08 requests/2026-08 odds "${@:2}"
    held requests/2026-09 requests/2026-09 mend "${@:2}"
    for entry in read write reduce panel ask spectator first_move; do held requests/2026-10 requests/2026-10 $entry "${@:2}"; done
    [[ $1 = *mjs ]] || held requests/2026-10 requests/2026-10 odds "${@:2}"
    for entry in read write reduce panel ask spectator first_move mend convert; do held requests/2026-11 requests/2026-11 $entry "${@:2}"; done
    [[ $1 = *mjs ]] || held requests/2026-11 requests/2026-11 odds "${@:2}"
    for entry in tidy add; do held requests/2026-12 requests/2026-12 $entry "${@:2}"; done
}

through "$machine-linux, by the Rust wrapper"
through 'independent implementation' --baseline
held base panel program --baseline
held fractions fractions-panel program --baseline

for target in x86_64-linux aarch64-linux; do
    [ $target != "$machine-linux" ] || continue
    runnable $target || continue
    linked $target bridge
    through $target "${run[@]}"
done
if command -v node >/dev/null; then
    through wasm32 node tests/bridge.mjs target/library/wasm32/open_panel.wasm
    through 'wasm32, by open_panel.mjs' node tests/js/bridge.mjs target/library/wasm32/open_panel.mjs
else
    echo "wasm32: left out, as there is no node here"
fi

echo "vectors: panel program"
held base panel program "$program"
held fractions fractions-panel program "$program"

#!/usr/bin/env bash
# The three programs of the README, linked as it says with what bin/dist makes, show card A's panel, and say why a card is refused.
set -euo pipefail
cd "$(dirname "${BASH_SOURCE[0]}")/.."
root=$PWD
machine=$(uname -m)
bin/dist target/dist
made=$(mktemp -d)
trap 'rm -rf "$made"' EXIT
ln -s "$root/target/dist" "$made/dist"
ran=()

# block LANGUAGE: the README's only block of it
block() {
    awk -v head="\`\`\`$1" '$0 == head { on = 1; seen++; next } /^```/ { on = 0 } on { print } END { exit seen != 1 }' README.md
}
block c >"$made/panel.c"
block rust >"$made/panel.rs"
block js >"$made/panel.mjs"
for file in "$made"/panel.*; do
    # about ten lines, as it is said to be
    [ "$(wc -l <"$file")" -le 12 ] || { echo "readme: ${file##*/} is long" && exit 1; }
done

# shows NAME WORDS..: on card A, and on a card with a state too many
shows() {
    tail -n +2 examples/card-a >"$made/card"
    (cd "$made" && "${@:2}") | cmp - examples/card-a.panel
    sed 's/0\.\.2/0..9/' "$made/card" >"$made/wrong" && mv "$made/wrong" "$made/card"
    (cd "$made" && "${@:2}" || true) | grep -q '39.*one more than a card may have\|one more than a card may have.*39' || { echo "readme: $1 does not say why" && exit 1; }
    ran+=("$1")
}

# as the README compiles it, for the machine at hand
words=$(sed -n 's/^C, with `cc panel.c \(.*\) -o panel`, or.*/\1/p' README.md | sed "s/x86_64-linux/$machine-linux/")
[ "$words" ]
(cd "$made" && cc -Wall -Wextra -Werror panel.c $words -o panel)
shows C ./panel

mkdir -p "$made/src"
mv "$made/panel.rs" "$made/src/main.rs"
dependency=$(sed -n 's/^Rust, with `\(.*\)` among the dependencies.*/\1/p' README.md)
[ "$dependency" ]
printf '[package]\nname = "panel"\nedition = "2021"\n[dependencies]\n%s\n[workspace]\n' "${dependency/rust\//$root/rust/}" >"$made/Cargo.toml"
. rust/library.sh
(cd "$made" && OPEN_PANEL_LIB_DIR=$root/target/dist cargo build --quiet --offline --target-dir "$root/target/rust-readme")
shows Rust "$root/target/rust-readme/debug/panel"

if command -v node >/dev/null; then
    shows JavaScript node panel.mjs
else
    echo "wasm32: left out, as there is no node here"
fi
echo "readme: ran as it says in ${ran[*]}"

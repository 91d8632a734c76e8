#!/usr/bin/env bash
# docs/CARDS.md says what is so: each card on it shows the panel that stands behind it, each question gets its answer at the last card before it
# that is `asked`, and in the tables of refusals each line, in its place on the last card before it that is a `base`, is refused as it says, and
# taken once mended.
set -eu
cd "$(dirname "${BASH_SOURCE[0]}")/.."
page=docs/CARDS.md
made=$(mktemp -d)
trap 'rm -rf "$made"' EXIT
shown=0
asked=0
refused=0
wrong=0

# panel SEATS CARD: what the program prints
panel() {
    { echo "$1" && cat "$2"; } | bin/open_panel
}

# hold WHAT FOUND DUE
hold() {
    if [ "$2" != "$3" ]; then
        printf 'cards: %s: "%s" and not "%s"\n' "$1" "$2" "$3"
        wrong=$((wrong + 1))
    fi
}

# The blocks of the page: block N goes to N.text, its first line's words to N.head.
awk -v made="$made" '
    /^```/ { if (open) { open = 0; close(file) } else { open = 1; n++; file = made "/" n ".text"; print substr($0, 4) > (made "/" n ".head"); printf "" > file }; next }
    open { print > file }
' "$page"

n=1
while [ -e "$made/$n.head" ]; do
    read -r kind seats _ <"$made/$n.head" || true
    case $kind in
        card)
            read -r next _ <"$made/$((n + 1)).head"
            hold "block $((n + 1))" "$next" shows
            hold "block $n" "$(panel "$seats" "$made/$n.text")" "$(cat "$made/$((n + 1)).text")"
            shown=$((shown + 1))
            ;;
        base | shows) ;;
        *) hold "block $n" "$kind" 'card, shows or base' ;;
    esac
    n=$((n + 1))
done

# rows WORD: the lines outside of blocks, behind the number of the last block before them whose first line has that word
rows() {
    awk -v word="$1" '
        /^```/ { open = !open; if (open) { n++; if ((substr($0, 4) " ") ~ ("(^| )" word " ")) block = n }; next }
        !open && block { print block "\t" $0 }' "$page"
}

# The questions: | question | seats | answer | why |
bin/library "$(uname -m)-linux" >/dev/null
. rust/library.sh
cargo build --manifest-path rust/Cargo.toml --release --offline --quiet --package open-panel --example ask
while IFS=$'\t' read -r card question seats due; do
    answer=$("$CARGO_TARGET_DIR/release/examples/ask" "$made/$card.text" "$question" "$seats" 2>&1 |
        sed 's/.*: byte \([0-9]*\) of the question: .*(refusal \([0-9]*\))$/\2 \1/') || true
    hold "$question at $seats" "$answer" "$due"
    asked=$((asked + 1))
done < <(rows asked | sed -n 's/^\([0-9]*\)\t| `\(.*\)` | \([0-9]\{1,\}\) | `\{0,1\}\([a-z0-9 ]*\)`\{0,1\} | .* |$/\1\t\2\t\3\t\4/p' | sed 's/\\|/|/g')

# The table: | line | stands | refused | because | write |, with \| for a bar.
while IFS=$'\t' read -r base line stands due mended; do
    read -r _ base_seats <"$made/$base.head"
    for text in "$stands" "$mended"; do
        awk -v at="$line" -v text="${text//\\/\\\\}" 'NR == at { print text; next } { print }' "$made/$base.text" >"$made/card"
        answer=$(panel "$base_seats" "$made/card")
        if [ "$text" = "$stands" ]; then
            hold "$text" "$answer" "refused $due"
        else
            hold "$text" "${answer%%[[:space:]]*}" probabilistic
        fi
    done
    refused=$((refused + 1))
done < <(rows base | sed -n 's/^\([0-9]*\)\t| \([0-9]\{1,\}\) | `\(.*\)` | `\([0-9]\{1,\} [0-9]\{1,\}\)` | .* | `\(.*\)` |$/\1\t\2\t\3\t\4\t\5/p' | sed 's/\\|/|/g')

echo "cards: $shown cards shown, $asked questions answered, $refused lines refused and mended, $wrong wrong"
[ "$wrong" -eq 0 ] && [ "$shown" -ge 4 ] && [ "$asked" -ge 14 ] && [ "$refused" -ge 21 ]

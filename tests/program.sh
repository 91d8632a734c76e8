#!/usr/bin/env bash
# The panel program as it is built, on inputs at and around 65,536 bytes, with CR, without LF ("Texts, byte for byte").
set -eu
cd "$(dirname "${BASH_SOURCE[0]}")/.."
runs=0
wrong=0

# expect INPUT ANSWER
expect() {
    local answer
    answer=$(bin/open_panel <"$1")
    runs=$((runs + 1))
    if [ "$answer" != "$2" ]; then
        echo "program: run $runs answered '$answer', not '$2'"
        wrong=$((wrong + 1))
    fi
}

made=$(mktemp -d)
trap 'rm -rf "$made"' EXIT
tail -n +2 examples/card-a >"$made/card"

# card BYTES: card A of so many bytes, of which the last is needed: blanks stand before its last word.
card() {
    local size=$(($(wc -c <"$made/card") - 10))
    head -c "$size" "$made/card"
    printf '%*sendmodule' $(($1 - size - 9)) ''
}

# sized INPUT SEATS CARD BEHIND ANSWER: an input of so many bytes: so many seats of state 0, LF, a card of so many bytes, and what stands behind it
sized() {
    {
        printf '%*s\n' "$2" '' | tr ' ' 0
        card "$3"
        printf %s "$4"
    } >"$made/in"
    [ "$(wc -c <"$made/in")" = "$1" ]
    expect "$made/in" "$5"
}
sized 16388 3 16384 '' "$(printf 'probabilistic\nseats 3 enabled 3\ncounts 3 0 0\nmove 0 1 415800\nmove 0 2 415800')"
sized 65535 49150 16384 '' 'refused 8 0'
sized 65536 49151 16384 '' 'refused 8 0'
# the last byte of the card is not read, and without it the last word is another word
sized 65537 49152 16384 '' 'refused 3 16375'
# one byte more would be too long for a card
sized 65537 49151 16384 '?' 'refused 8 0'
# a byte outside the rules, as the last that is read and as the first that is not
sized 65536 49151 16383 '?' 'refused 2 16383'
sized 65537 49152 16383 '?' 'refused 8 0'
# LF, as the last byte that is read and as the first that is not
sized 81920 65535 16384 '' 'refused 3 0'
sized 81921 65536 16384 '' 'refused 3 0'

# CR is a seat, and no digit
{ printf '001\r\n' && cat "$made/card"; } >"$made/in" && expect "$made/in" 'refused 8 0'
{ printf '00\r\n' && cat "$made/card"; } >"$made/in" && expect "$made/in" 'refused 9 2'
# without LF the card is empty
printf '001' >"$made/in" && expect "$made/in" 'refused 3 0'
: >"$made/in" && expect "$made/in" 'refused 3 0'
printf '001\n' >"$made/in" && expect "$made/in" 'refused 3 0'
# a place counts from the card's first byte
printf '001\n?' >"$made/in" && expect "$made/in" 'refused 2 0'

# a number that the seats share has a digit behind theirs
tail -n +2 examples/day-and-night >"$made/night"
{ echo 000111 && cat "$made/night"; } >"$made/in" && expect "$made/in" "$(cat examples/day-and-night.panel)"
{ echo 101001 && cat "$made/night"; } >"$made/in" && expect "$made/in" "$(cat examples/day-and-night.panel)"
{ echo 00011 && cat "$made/night"; } >"$made/in" && expect "$made/in" 'refused 8 0'
{ echo 0001111 && cat "$made/night"; } >"$made/in" && expect "$made/in" 'refused 8 0'
{ echo 000112 && cat "$made/night"; } >"$made/in" && expect "$made/in" 'refused 9 5'
{ echo 00011n && cat "$made/night"; } >"$made/in" && expect "$made/in" 'refused 9 5'
{ echo 000311 && cat "$made/night"; } >"$made/in" && expect "$made/in" 'refused 9 3'
{ echo 0011 && cat "$made/card"; } >"$made/in" && expect "$made/in" 'refused 8 0'

echo "program: $runs runs, $wrong wrong"
[ "$wrong" -eq 0 ]

#!/usr/bin/env bash
# Writes edges.cases and edges.expected into a folder: cards on both sides of each limit, in the form of base.cases, and by each what the writer
# answers, stated here by hand. A card is named by what is special about it.
set -eu
export LC_ALL=C
cd "$1"
: >edges.cases
: >edges.expected

number=0
edge() { # CARD ANSWER
    local input=$'0\n'$1
    local size=${#input}
    printf "\\x$(printf %02x $((size % 256)))\\x$(printf %02x $((size / 256)))\\x00\\x00%s" "$input" >>edges.cases
    printf 'case %d\n%s' "$number" "$2" >>edges.expected
    number=$((number + 1))
}

accepted() { edge "$card" "${1-$card}"; } # as it stands, or written as this text
refused() { edge "$card" "refused $1 $2"$'\n'; }

# So many copies of a text.
times() { # COUNT TEXT
    copies=
    local i
    for ((i = 0; i < $1; i++)); do copies+=$2; done
}

card() { # MODULES TOP STATEMENTS
    card="probabilistic"$'\n'"module process1"$'\n'"s1 : [0..$2] init 0;"$'\n'"$3endmodule"$'\n'
    local i
    for ((i = 2; i <= $1; i++)); do card+="module process$i = process1 [s1=s$i, s$i=s1] endmodule"$'\n'; done
}

# Where a text stands first on the card.
place() {
    local before=${card%%"$1"*}
    place=${#before}
}

plain="[] s1=0 -> 1:(s1'=0);"$'\n'
guarded() { guarded="[] s1=0 & $1 -> 1:(s1'=0);"$'\n'; }

# no card, and no statement
card=
refused 3 0
card 1 0 ""
place endmodule
refused 3 "$place"

# modules
card 16 0 "$plain"
accepted
card 17 0 "$plain"
place "module process17"
refused 4 "$place"

# the top state
card 1 7 "$plain"
accepted
card 1 8 "$plain"
place "8]"
refused 4 "$place"

# statements
times 32 "$plain"
card 1 0 "$copies"
accepted
times 33 "$plain"
card 1 0 "$copies"
place "[]"
refused 4 $((place + 32 * ${#plain}))

# branches
times 7 " + 0:(s1'=0)"
card 1 0 "[] s1=0 -> 1:(s1'=0)$copies;"$'\n'
accepted
card 1 0 "[] s1=0 -> 1:(s1'=0)$copies + 0/7:(s1'=0);"$'\n'
place "0/7"
refused 4 "$place"

# guard nodes: a `!`, 16 groups and 15 signs; then a sign too many
times 15 " & (s1=0)"
guarded "!(s1=0)$copies"
card 1 0 "$guarded"
accepted
guarded "!(s1=0)$copies & (s1=0)"
card 1 0 "$guarded"
place "& (s1=0) ->"
refused 4 "$place"

# open `!`, and open brackets, which are not written where there is nothing to join
times 8 "!"
guarded "$copies(s1=0)"
card 1 0 "$guarded"
accepted
guarded "$copies!(s1=0)"
card 1 0 "$guarded"
place "!(s1"
refused 4 "$place"
times 8 "("
open=$copies
times 8 ")"
guarded "(s1=0)"
card 1 0 "$guarded"
written=$card
guarded "$open(s1=0)$copies"
card 1 0 "$guarded"
accepted "$written"
guarded "$open((s1=0))$copies"
card 1 0 "$guarded"
place "((s1"
refused 4 "$place"

# the card's length, by a comment
card 1 0 "$plain"
written=$card
times $((16384 - ${#card} - 2)) x
card=$written//$copies
accepted "$written"
card+=x
refused 1 0

# a written form that is longer than a card may be: without blanks round `&` the card is short enough
long() { # SIGN
    local i group="(s1=0"
    for ((i = 2; i <= 16; i++)); do group+="$1s$i=0"; done
    times 5 "$1$group)"
    times 32 "[] s1=0$copies -> 1:(s1'=0);"$'\n'
    card 16 0 "$copies"
}
long " & "
written=$card
long "&"
accepted "$written"

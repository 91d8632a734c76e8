#!/usr/bin/env bash
# The rule writer's desk: the command as it is called; its reasons (cargo test), and the page's, which are the same; and the page in a browser,
# where there is one. target/desk keeps pictures of it to look at.
set -eu
cd "$(dirname "${BASH_SOURCE[0]}")/.."
bin/library "$(uname -m)-linux" wasm32 >/dev/null
. rust/library.sh
made=$(mktemp -d)
trap 'rm -rf "$made"' EXIT
runs=0
wrong=0

# like TEXT DUE: in what is due, * stands for anything
like() {
    local due=${2//\\/\\\\}
    due=${due//\[/\\[}
    due=${due//\?/\\?}
    # unquoted: a pattern
    [[ $1 == $due ]]
}

# expect STATUS OUT ERR WORDS..: what `bin/desk` does with the words, standard input in $made/in
expect() {
    local status=0 out err
    out=$(bin/desk "${@:4}" 2>"$made/err" <"$made/in") || status=$?
    err=$(cat "$made/err")
    runs=$((runs + 1))
    if [ "$status" != "$1" ] || ! like "$out" "$2" || ! like "$err" "$3"; then
        printf 'desk: %s: status %s and\n%s\n%s\n' "${*:4}" "$status" "$out" "$err"
        wrong=$((wrong + 1))
    fi
}
: >"$made/in"

# given STATUS OUT ERR INPUT WORDS..: the same with that on standard input
given() {
    printf %b "$4" >"$made/in"
    expect "$1" "$2" "$3" "${@:5}"
    : >"$made/in"
}

cargo test --manifest-path rust/Cargo.toml --release --offline --quiet --package desk

card_a=$(tail -n +2 examples/card-a)
printf '%s\n' "$card_a" >"$made/card-a"

# every example: taken, its panel, the same with the seats as a word
for panel in examples/*.panel; do
    example=${panel%.panel}
    seats=$(head -n 1 "$example")
    said="seats $seats"
    # the number that seats share has the last digit
    ! grep -q '^global g' "$example" || said="seats ${seats%?}, g ${seats: -1}"
    expect 0 "$example: taken: *; $said" '' check "$example"
    expect 0 "$(cat "$panel")" '' panel "$example"
    expect 0 "$(cat "$panel")" '' panel "$example" "$seats"
done
expect 0 "$made/card-a: taken: probabilistic, 3 seats, roles 0 to 2, 2 statements" '' check "$made/card-a"
expect 0 '*card-a: taken: *coin-toss: taken: *' '' check examples/card-a examples/coin-toss

# the one layout
expect 0 '' '' write --check "$made/card-a"
expect 0 '' '' write --check examples/card-a
expect 0 "$card_a" '' write examples/card-a
expect 1 '' "examples/coin-toss:10:35: laid out otherwise; due is$(printf '\n  10 | ')*[s1=s2, s2=s1] endmodule" write --check examples/coin-toss
bin/desk write examples/leader-election | bin/desk write --check -
expect 0 'probabilistic*module generic_process*no_0*' '' reduce examples/card-a

# panels, and chances
expect 0 "001:$(printf '\n%s' "$(cat examples/card-a.panel)")$(printf '\n\n012:\n%s' "$(cat examples/card-a-stuck.panel)")" '' panel "$made/card-a" 001 012
chances='probabilistic
seats 3 enabled 3
counts 2 1 0
stay 207900       1/4      25%
move 0 1 277200   1/3   33.33%
move 0 2 277200   1/3   33.33%
move 1 2 69300   1/12    8.33%'
expect 0 "$chances" '' panel --chances examples/card-a
chances='nondeterministic
seats 3 enabled 2
counts 1 2 0
choice 3
stay 277200        1     100%
choice 4
stay 138600      1/2      50%
move 1 0 138600  1/2      50%'
expect 0 "$chances" '' panel examples/leader-election --chances

# questions, who may move, spectators
expect 0 yes '' ask examples/card-a 001 '(s1=0 | s2=0 | s3=0)'
expect 0 no '' ask examples/card-a '(s1=0 & s2=0 & s3=0)'
expect 1 '' 'question:1:1: refused 26 0: the group leaves out seat 1*' ask examples/card-a 001 '(s2=0 | s3=0)'
expect 0 "statement 3, line 9: [] s1=0 & *" '' first examples/leader-election
expect 0 'nobody can move' '' first examples/card-a 012
expect 0 'classes 2 1 0 0 0 0 0 0' '' watch examples/card-a 001 012
expect 1 '' 'classes:1:3: refused 13 2: role 2 has the class 8, and 0 to 7 was due*' watch examples/card-a 018

# a number that the seats share: its digit stands behind theirs
night=examples/day-and-night
expect 0 "$night: taken: probabilistic, 5 seats, roles 0 to 2, g up to 1, 3 statements; seats 00011, g 1" '' check "$night"
chances='probabilistic
seats 5 enabled 5
counts 3 2 0
shared 0
stay 1034880 1     56/75   74.67%
move 0 2 166320 1   3/25      12%
move 1 2 184800 1   2/15   13.33%'
expect 0 "$chances" '' panel --chances "$night" 000110
expect 0 "statement 2, line 10: *" '' first "$night" 222110
expect 0 'nobody can move' '' first "$night" 222111
expect 0 no '' ask "$night" '(g=0) | (s1=2 | s2=2 | s3=2 | s4=2 | s5=2)'
expect 0 'classes 3 2 0 0 0 0 0 0' '' watch "$night" 000110 011
expect 0 'classes 3 2 0 0 0 0 0 0' '' watch "$night" 000111 011
expect 0 'night  0  0.000000 *night  1  1.000000 *' '' odds "$night" '(g=0)' 1
refusal='seats:1:1: refused 8 0: 5 seats given, and one more digit was due behind them: the value of `g`
   1 | 00010
     | ^^^^^
     = hint: with `g` as it begins that is `000101`'
expect 1 '' "$refusal" panel "$night" 00010
expect 1 '' 'seats:1:6: refused 9 5: `g` is 2, and its highest value is 1*' panel "$night" 000112
expect 1 '' 'question:1:4: refused 25 3: the test is of the value 2 of `g`, and its highest is 1*' ask "$night" '(g=2)'
expect 1 '' 'question:1:2: refused 23 1: *hint: the card declares no `g`, *' ask examples/card-a '(g=1)'
sed '/^global/d' "$night" >"$made/undeclared"
expect 1 '' "$made/undeclared:7:12: refused 3 *: \`g\` stands here, and a seat, *" check "$made/undeclared"

# odds, night by night
odds='night  0  0.000000       0%  |                                        |
night  1  0.500000      50%  |####################                    |
night  2  0.750000      75%  |##############################          |'
printf "probabilistic\nmodule process1\ns1 : [0..1] init 0;\n[] s1=0 -> 1/2:(s1'=1) + 1/2:(s1'=0);\nendmodule\n" >"$made/tossed"
expect 0 "$odds" '' odds "$made/tossed" 0 '(s1=1)' 2
expect 0 'night  0 *night  1  0.500000 *' '' odds examples/coin-toss 00 '(s1=1 | s2=1)' 1
refusal='nights:1:1: refused 15 0: 33 nights given, and odds are reckoned for at most 32
   1 | 33
     | ^^'
expect 1 '' "$refusal" odds examples/coin-toss '(s1=1 | s2=1)' 33
expect 1 '' 'nights:1:1: refused 15 0: 99999999999999999999 nights given, *' odds examples/coin-toss '(s1=1 | s2=1)' 99999999999999999999
# a table that is too large, underlined in the card behind a line of seats
{ printf '000000\nprobabilistic\nmodule process1\ns1 : [0..7] init 0;\n' && echo "[] s1=0 -> 1:(s1'=7);" && echo endmodule && printf 'module process%s = process1 [s1=s%s, s%s=s1] endmodule\n' {2,2,2,3,3,3,4,4,4,5,5,5,6,6,6}; } >"$made/many"
refusal="$made/many:4:10: refused 14 0: 6 seats can be spread over the roles 0 to 7 in 1,716 ways, and odds are reckoned for at most 512
   4 | s1 : [0..7] init 0;
     |          ^
     = hint: with 6 seats the highest role may be 5, and with the roles 0 to 7 there may be 4 seats"
expect 1 '' "$refusal" odds "$made/many" '(s1=7 | s2=7 | s3=7 | s4=7 | s5=7 | s6=7)' 3
# a bar is empty for 0 alone, and full for 1 alone
odds='night  0  0.000000       0%  |                                        |
night  1  0.010000       1%  |#                                       |
night  2  1.000000     100%  |########################################|'
printf "probabilistic\nmodule process1\ns1 : [0..2] init 0;\n[] s1=0 -> 1/100:(s1'=2) + 99/100:(s1'=1);\n[] s1=1 -> 1:(s1'=2);\nendmodule\n" >"$made/seldom"
expect 0 "$odds" '' odds "$made/seldom" 0 '(s1=2)' 2
expect 0 '*night 20  0.999999  >99.99%  |####################################### |' '' odds "$made/tossed" 0 '(s1=1)' 20
expect 1 '' 'question:1:1: refused 26 0: *' odds examples/coin-toss '(s2=1)' 3
one="((s1=1 & s2!=1 & s3!=1) | (s1!=1 & s2=1 & s3!=1) | (s1!=1 & s2!=1 & s3=1))"
expect 0 'night  0  0.000000 *night  3  0.875000    87.5%  |###################################     |' '' odds examples/leader-election "$one" 3
expect 0 'night  0  0.000000 *night  3  0.000000       0%  |                                        |' '' odds --smallest examples/leader-election "$one" 3
# options may stand behind the words; on a probabilistic card there is nothing to choose, and both are the same
expect 0 "$(bin/desk odds examples/card-a '(s1=2 | s2=2 | s3=2)' 12)" '' odds examples/card-a '(s1=2 | s2=2 | s3=2)' 12 --smallest
# as docs/CARDS.md has them
expect 0 'night  0  0.000000 *night  1  0.416666 *night  2  0.604166 *night 32  0.999932 *' '' odds examples/card-a 001 '(s1=2 | s2=2 | s3=2)' 32
given 0 'night  0  1.000000 *' '' "$(cat examples/card-a)" odds - '(s1=0 | s2=0 | s3=0)' 0
for nights in x +3 -3 1.5 ''; do expect 2 '' "desk: \`$nights\` is no number of nights from 0 to 32*" odds examples/coin-toss '(s1=1 | s2=1)' "$nights"; done
expect 2 '' 'desk: the words do not fit; due is*desk odds *NIGHTS*' odds examples/coin-toss '(s1=1 | s2=1)'

# a refusal, whole
sed 's/(s2=0 | s3=0)/(s2=0)/' "$made/card-a" >"$made/wrong"
refusal="$made/wrong:4:11: refused 6 60: the group leaves out seat 3, and it has to name the seats 1 to 3, or the seats 2 and 3, once each
   4 | [] s1=0 & (s2=0) -> 1/2:(s1'=1) + 1/2:(s1'=2);
     |           ^^^^^^
     = hint: write \`(s2=0 & s3=0)\`"
expect 1 '' "$refusal" check "$made/wrong"
expect 1 '' "$refusal" panel "$made/wrong" 001
given 1 '' 'standard input:5:11: refused 6 60: *' "001\n$(cat "$made/wrong")" check -
given 1 '' 'standard input:1:1: refused 3 0: the card ends here, *' '' check -
# under a tab, in a long line
given 1 '' "*$(printf '\n   1 | \tx\n     | \t^')*" '\tx' check -
given 1 '' "*$(printf '\n   1 | ')..*x$(printf '\n     | ') *^" "$(printf '%0200d' 0 | tr 0 ' ')x" check -

# the seats' line: CR, a blank, a byte order mark, a letter
given 1 '' "standard input:1:4: refused 8 0: the seats' line ends in CR and LF*" "001\r\n$card_a" panel -
given 1 '' 'standard input:1:2: refused 8 0: a blank stands among the seats*`001`' "0 0 1\n$card_a" panel -
given 1 '' 'standard input:1:1: refused 8 0: a byte order mark stands before the seats*' "\xef\xbb\xbf001\n$card_a" panel -
given 1 '' 'standard input:1:3: refused 9 2: `x` stands for seat 3*' "00x\n$card_a" panel -
given 1 '' 'seats:1:3: refused 9 2: seat 3 is in role 7*' "$card_a" panel - 007
given 0 "$(cat examples/card-a.panel)" '' "$(cat examples/card-a)" panel -

# boxes
expect 0 '' '' box write "$made/night.box" 2=examples/coin-toss 1=examples/card-a --withdrawn 9=examples/card-a
expect 0 '*1  live *282  probabilistic, 3 seats*2  live *9  withdrawn *' '' box list "$made/night.box"
expect 0 "$card_a" '' box find "$made/night.box" 1
expect 1 '' '*: refused 12 0: card 9 is withdrawn*' box find "$made/night.box" 9
expect 0 '' '' box write "$made/over.box" 1=examples/leader-election
expect 0 "$(tail -n +2 examples/leader-election)" '' box find "$made/night.box" "$made/over.box" 1
expect 0 "*1  replaced *over.box:*1  live *" '' box list "$made/night.box" "$made/over.box"
expect 1 '' "$refusal" box write "$made/none.box" 1="$made/wrong"
[ ! -e "$made/none.box" ] || { echo "desk: a box of a refused card was written" && wrong=$((wrong + 1)); }
expect 0 '' '' box write --unread "$made/unread.box" 1="$made/wrong"
expect 0 '*1  live *refused 6 60: the group leaves out seat 3*' '' box list "$made/unread.box"
{ head -c 7 "$made/night.box" && printf '\002' && tail -c +9 "$made/night.box"; } >"$made/bad.box"
expect 1 '' '*: refused 11 7: the flag of entry 1 is 2, and *byte 1 | 01 00 19 00 1a 01 02 00*^^' box list "$made/bad.box"
expect 1 '' '*: refused 11 65543: the flag of entry 1 is 2, and *' box find "$made/night.box" "$made/bad.box" 1
expect 1 '' '*: refused 11 8: entry 2 has the number 1, and one above 1 was due' box write "$made/none.box" 1=examples/card-a 1=examples/card-a

# damaged boxes mended: one that is whole stays, byte for byte; an entry is dropped for its flag, another for its card
became='entry  number  became
    1       1  kept
    2       2  kept
    3       9  kept'
expect 0 "$became" '' box mend "$made/night.box" "$made/same.box"
cmp "$made/night.box" "$made/same.box" || { echo "desk: a box that is whole does not stay" && wrong=$((wrong + 1)); }
became='entry  number  became
    1       1  dropped 1: the flag of entry 1 is 2, and 1 for live or 0 for withdrawn was due
    2       2  kept
    3       9  kept'
expect 0 "$became" '' box mend "$made/bad.box" "$made/mended.box"
expect 0 "number *2  live *9  withdrawn *" '' box list "$made/mended.box"
expect 0 "$(bin/desk box find "$made/night.box" 2)" '' box find "$made/mended.box" 2
expect 1 '' '*: refused 12 0: card 1 is not in the box*' box find "$made/mended.box" 1
given 0 "$became" '' "$(od -An -v -to1 "$made/bad.box" | sed 's/ \([0-7]\)/\\0\1/g' | tr -d ' \n')" box mend - "$made/again.box"
cmp "$made/mended.box" "$made/again.box" || { echo "desk: a box from standard input is mended otherwise" && wrong=$((wrong + 1)); }
# to standard output, which a pipe carries on
[ "$(bin/desk box mend "$made/bad.box" - 2>&1 >/dev/null)" = "$became" ] || { echo "desk: what became of a box in a pipe" && wrong=$((wrong + 1)); }
[ "$(bin/desk box mend "$made/bad.box" - 2>/dev/null | bin/desk box list -)" = "$(bin/desk box list "$made/mended.box")" ] || { echo "desk: a mended box in a pipe" && wrong=$((wrong + 1)); }
refusal="$made/unread.box: refused 11 0: the box says that it holds 1 card, and none of it can be kept
entry  number  became
    1       1  dropped 4: refused 6 60: the group leaves out seat 3, *"
expect 1 '' "$refusal" box mend "$made/unread.box" "$made/none.box"
printf '\101' >"$made/count.box"
expect 1 '' '*: refused 11 0: the box says that it holds 65 cards, and 1 to 64 were due*byte 0 | 41*^^' box mend "$made/count.box" "$made/none.box"
[ ! -e "$made/none.box" ] || { echo "desk: a box past mending was written" && wrong=$((wrong + 1)); }
expect 2 '' 'desk: `desk box mend` takes the damaged box, and the box to write*' box mend "$made/bad.box"

# a weight is no decimal; a box from when it could be one is converted: a card with decimals is laid out anew, all others stay
sed 's|1/2:|0.5:|g; s|1/4:|0.25:|' "$made/card-a" >"$made/old"
refusal="$made/old:4:28: refused 17 77: \`0.5\` is a decimal, and a weight is 0, 1 or a fraction
   4 | [] s1=0 & (s2=0 | s3=0) -> 0.5:(s1'=1) + 0.5:(s1'=2);
     |                            ^^^
     = hint: write \`1/2\`"
expect 1 '' "$refusal" check "$made/old"
expect 1 '' "$refusal" panel "$made/old" 001
expect 0 '' '' box write --unread "$made/old.box" 1="$made/old" 2=examples/leader-election --withdrawn 9="$made/old"
expect 0 '*1  live *283  refused 17 77: `0.5` is a decimal*2  live *9  withdrawn *' '' box list "$made/old.box"
became='entry  number  became
    1       1  converted: 282 bytes in place of 283
    2       2  as it was
    3       9  as it was, unread'
expect 0 "$became" '' box convert "$made/old.box" "$made/new.box"
expect 0 "$card_a" '' box find "$made/new.box" 1
expect 0 "$(tail -n +2 examples/leader-election)" '' box find "$made/new.box" 2
expect 0 '*9  withdrawn *283  refused 17 77: *' '' box list "$made/new.box"
expect 0 '*as it was*as it was*as it was, unread' '' box convert "$made/new.box" "$made/again.box"
cmp "$made/new.box" "$made/again.box" || { echo "desk: a converted box does not stay" && wrong=$((wrong + 1)); }
# mending drops what is not converted
expect 0 '*1  dropped 4: refused 17 77: `0.5` is a decimal*2  kept*9  kept' '' box mend "$made/old.box" "$made/mended.box"
# a single card, in a pipe
[ "$(bin/desk box write --unread - 1="$made/old" | bin/desk box convert - - 2>"$made/err" | bin/desk box find - 1)" = "$card_a" ] || { echo "desk: a card converted in a pipe" && wrong=$((wrong + 1)); }
like "$(cat "$made/err")" '*1  converted: 282 bytes in place of 283' || { echo "desk: what became of a card in a pipe" && wrong=$((wrong + 1)); }
# a card that never was one is named, and nothing is written
sed 's|1/2:|0.5:|g' "$made/wrong" >"$made/old-and-wrong"
expect 0 '' '' box write --unread "$made/old-and-wrong.box" 1="$made/old" 700="$made/old-and-wrong"
expect 1 '' "$made/old-and-wrong.box: refused 18 700: card 700 is wrong apart from decimals: at its byte 60, the group leaves out seat 3, *" box convert "$made/old-and-wrong.box" "$made/none.box"
expect 1 '' '*: refused 11 7: the flag of entry 1 is 2, and *byte 1 | 01 00 19 00 1a 01 02 00*^^' box convert "$made/bad.box" "$made/none.box"
[ ! -e "$made/none.box" ] || { echo "desk: a box that cannot be converted was written" && wrong=$((wrong + 1)); }
expect 2 '' 'desk: `desk box convert` takes the box from before, and the box to write*' box convert "$made/old.box"

# withdrawn cards taken out of a box, and one more put into it; what is live keeps its number and its bytes
became='entry  number  became
    1       1  as it was
    2       2  as it was
    3       9  withdrawn: taken out
the box has 514 bytes in place of 804, and may grow by 65,021'
expect 0 "$became" '' box tidy "$made/night.box" "$made/tidied.box"
expect 0 '*1  live *2  live *' '' box list "$made/tidied.box"
expect 1 '' '*: refused 12 0: card 9 is not in the box*' box find "$made/tidied.box" 9
for number in 1 2; do expect 0 "$(bin/desk box find "$made/night.box" $number)" '' box find "$made/tidied.box" $number; done
expect 0 '*as it was*as it was*514 bytes in place of 514,*' '' box tidy "$made/tidied.box" "$made/again.box"
cmp "$made/tidied.box" "$made/again.box" || { echo "desk: a tidied box does not stay" && wrong=$((wrong + 1)); }
became='entry  number  became
    1       1  as it was
    2       2  as it was
    3       9  withdrawn: taken out
  new       9  added: 498 bytes
the box has 1,020 bytes in place of 804, and may grow by 64,515'
expect 0 "$became" '' box add "$made/night.box" 9 examples/leader-election "$made/added.box"
expect 0 "$(tail -n +2 examples/leader-election)" '' box find "$made/added.box" 9
expect 0 '*1  as it was*new       5  added: 498 bytes*9  withdrawn: taken out*' '' box add "$made/night.box" 5 examples/leader-election "$made/added.box"
expect 0 '*1  live *2  live *5  live *nondeterministic, 3 seats*' '' box list "$made/added.box"
given 0 '*new   65535  added: 281 bytes*' '' "$card_a" box add "$made/night.box" 65535 - "$made/added.box"
# into the box that is read, and in a pipe
cp "$made/night.box" "$made/own.box"
expect 0 '*new       5  added: *' '' box add "$made/own.box" 5 examples/card-a "$made/own.box"
expect 0 "$card_a" '' box find "$made/own.box" 5
[ "$(bin/desk box add "$made/night.box" 5 examples/card-a - 2>"$made/err" | bin/desk box tidy - - 2>/dev/null | bin/desk box find - 5)" = "$card_a" ] || { echo "desk: a card added in a pipe" && wrong=$((wrong + 1)); }
like "$(cat "$made/err")" '*new       5  added: 282 bytes*' || { echo "desk: what became of a box in a pipe" && wrong=$((wrong + 1)); }
# what is refused leaves no box
refusal="$made/night.box: refused 19 9: card 2 is in the box already, live, as entry 2: probabilistic, 2 seats, roles 0 to 3, 4 statements
 byte 9 | 02 00 33 01 d7 00 01 00
        | ^^ ^^"
expect 1 '' "$refusal" box add "$made/night.box" 2 examples/card-a "$made/none.box"
refusal="$made/wrong:4:11: refused 6 60: *(s2=0 & s3=0)*"
expect 1 '' "$refusal" box add "$made/night.box" 2 "$made/wrong" "$made/none.box"
expect 0 '' '' box write "$made/full.box" $(printf '%s=examples/card-a ' {1..64})
expect 1 '' "$made/full.box: refused 19 0: 64 cards are live in the box, and no more than that can be" box add "$made/full.box" 99 examples/card-a "$made/none.box"
{ printf '// %016000d\n' 0 && cat "$made/card-a"; } >"$made/long"
expect 0 '' '' box write "$made/heavy.box" {1,2,3,4}="$made/long" --withdrawn 9=examples/card-a
expect 1 '' "$made/heavy.box: refused 10 81471: with card 5, *the box would take 81,471 bytes, and a box has at most 65,535: it lacks 15,936 bytes" box add "$made/heavy.box" 5 "$made/long" "$made/none.box"
expect 0 '' '' box write "$made/gone.box" --withdrawn 9=examples/card-a
expect 1 '' "$made/gone.box: refused 12 0: the box holds 1 card, none of it live, and a live card was due" box tidy "$made/gone.box" "$made/none.box"
expect 1 '' "$made/gone.box: refused 12 0: *" box add "$made/gone.box" 9 "$made/wrong" "$made/none.box"
for words in tidy 'add 5 examples/card-a'; do
    read -r word more <<<"$words"
    expect 1 '' '*: refused 11 7: the flag of entry 1 is 2, and *byte 1 | 01 00 19 00 1a 01 02 00*^^' box "$word" "$made/bad.box" $more "$made/none.box"
done
[ ! -e "$made/none.box" ] || { echo "desk: a box was written where it is refused" && wrong=$((wrong + 1)); }
expect 2 '' 'desk: `desk box tidy` takes a box, and the box to write*' box tidy "$made/night.box"
expect 2 '' "desk: \`desk box add\` takes a box, a card's number, the card, and the box to write*" box add "$made/night.box" 5 examples/card-a
expect 2 '' 'desk: `x` is no card number*' box add "$made/night.box" x examples/card-a "$made/none.box"

# wrong words
expect 2 '' 'desk: a command is due*'
expect 2 '' 'desk: there is no command `show`*' show examples/card-a
expect 2 '' 'desk: `desk check` has no option `--chances`*' check --chances examples/card-a
expect 2 '' 'desk: the words do not fit; due is*desk ask CARD *' ask examples/card-a
expect 2 '' 'desk: */none: No such file*' check "$made/none"
expect 2 '' 'desk: * has no line of seats*' panel "$made/card-a"
expect 2 '' 'desk: `x` is no card number*' box find "$made/night.box" x
expect 0 'desk: *Examples*' '' --help
expect 0 'desk: *Examples*' '' panel --help

# the examples of its help, as they stand there
while IFS= read -r example; do
    runs=$((runs + 1))
    (cd "$made" && ln -sfn "$OLDPWD/bin" bin && ln -sfn "$OLDPWD/examples" examples && cp card-a my-card && bash -o pipefail -c "$example" >/dev/null) ||
        { echo "desk: $example" && wrong=$((wrong + 1)); }
done < <(bin/desk --help | sed -n 's/^  \(bin\/desk .*\)/\1/p')

# the examples of docs/DESK.md: behind each call what it prints
(cd "$made" && cp wrong my-card)
while IFS= read -r line; do
    if [[ $line == '    $ '* ]]; then
        call=${line#'    $ '}
        due=
    elif [[ $line == '    '* ]]; then
        due+=${line#'    '}$'\n'
    elif [ "${call:-}" ]; then
        runs=$((runs + 1))
        printed=$(cd "$made" && bash -c "$call" 2>&1) || true
        [ "$printed"$'\n' = "$due" ] || { printf 'desk: docs/DESK.md: %s\n%s\n' "$call" "$printed" && wrong=$((wrong + 1)); }
        call=
        told=$((${told:-0} + 1))
    fi
done <docs/DESK.md
[ "${told:-0}" -ge 3 ] || { echo "desk: docs/DESK.md has ${told:-no} examples" && wrong=$((wrong + 1)); }

# from another folder, through a link
ln -s "$PWD/bin/desk" "$made/link"
(cd / && "$made/link" check "$made/card-a" >/dev/null) || { echo "desk: not through a link" && wrong=$((wrong + 1)); }

echo "desk: $runs runs of the command, $wrong wrong"
if [ "$wrong" -ne 0 ] || [ "$runs" -lt 90 ]; then exit 1; fi

# the page
if ! command -v node >/dev/null; then
    echo "desk: the page was not tried, as there is no node here"
    exit 0
fi
cargo run --manifest-path rust/Cargo.toml --release --offline --quiet --package desk --example reasons >"$made/reasons"
node tests/desk-reasons.mjs target/library/wasm32/open_panel.mjs "$made/reasons"

page=target/desk/desk.html
bin/desk-page "$page" >/dev/null
for browser in chromium chromium-browser google-chrome google-chrome-stable; do
    if command -v "$browser" >/dev/null && "$browser" --version >/dev/null 2>&1; then
        node tests/desk-page.mjs "$browser" "$page" "$CARGO_TARGET_DIR/release/desk" target/desk
        exit 0
    fi
done
echo "desk: the page was not tried in a browser, as there is none here"

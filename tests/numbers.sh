#!/usr/bin/env bash
# The numbers of the header and of the Rust wrapper are those that the proofs speak of: limits, rooms that are always enough, refusals.
# The stack that each entry takes at most is measured (tests/stack.sh): there the two have the same number, below 12 KB.
set -eu
cd "$(dirname "${BASH_SOURCE[0]}")/.."
seen=0
wrong=0

# proved NAME: the number that the promises give the name, which may stand there as seat_count or seatCount, by computation
proved() {
    local given
    given=$(sed -nE "s/^  pub [A-Za-z0-9_-]+ : ($1|$(sed -E 's/_([a-z])/\U\1/g' <<<"$1")) ≡ ([0-9]*)$/\2/p" crates/card_promises/specs/Figures.antt)
    [[ $given =~ ^[0-9]+$ ]] || { echo "numbers: the promises give $1 no number, or two" >&2 && return 1; }
    echo "$given"
}

# same NAME DEFINITION HEADER WRAPPER
same() {
    local due
    due=$(proved "$2")
    seen=$((seen + 1))
    if [ "$3" != "$due" ] || [ "$4" != "$due" ]; then
        echo "numbers: $1 is ${3:-nothing} in the header and ${4:-nothing} in the wrapper, and $2 is $due"
        wrong=$((wrong + 1))
    fi
}

# number NAME DEFINITION: a macro and a constant
number() {
    same "$1" "$2" "$(sed -n "s/^#define OPEN_PANEL_$1 //p" include/open_panel.h)" \
        "$(sed -n "s/^pub const $1: [a-z0-9]* = \(.*\);/\1/p" rust/open-panel/src/*.rs | tr -d _)"
}

# refusal NAME VARIANT DEFINITION: an enum's constant, and what the variant's number is
refusal() {
    same "$1" "$3" "$(sed -n "s/^ *OPEN_PANEL_$1 = \([0-9]*\)\b.*/\1/p" include/open_panel.h)" \
        "$(sed -n "s/^ *Refusal::$2\( { \.\. }\)* => \([0-9]*\),/\2/p" rust/open-panel/src/refusal.rs)"
}

# stack ENTRY CONSTANT: a macro and a constant of the same number
stack() {
    local header wrapper
    header=$(sed -n "s/^#define OPEN_PANEL_STACK_$1 //p" include/open_panel.h)
    wrapper=$(sed -n "s/^pub const $2: usize = \(.*\);/\1/p" rust/open-panel/src/stack.rs | tr -d _)
    seen=$((seen + 1))
    if [ -z "$header" ] || [ "$header" != "$wrapper" ] || [ "$header" -ge 12288 ]; then
        echo "numbers: the stack of $1 is ${header:-nothing} in the header and ${wrapper:-nothing} in the wrapper, and has to be below 12288"
        wrong=$((wrong + 1))
    fi
}

number CARD_BYTES card_bytes
number QUESTION_BYTES card_bytes
number DECK_BYTES deck_bytes
number DECK_CARDS most_cards
number SEATS most_seats
number TOP_STATE top_state
number TOP_CLASS top_class
number UNIT unit
number ODDS_ROW most_vectors
number ODDS_STEPS most_nights
number CERTAIN million
number WRITE_ROOM written_room
number REDUCE_ROOM reduced_room
number SHOW_ROOM panel_room
number WATCH_ROOM classes_room
number LIST_ROOM list_room

refusal LONG Long too_long
refusal MARK Mark outside_rules
refusal SHAPE Shape out_of_shape
refusal LIMIT Limit past_limit
refusal STATE State above_top
refusal WORD Word not_due
refusal WEIGHT Weight wrong_weight
refusal SEAT_COUNT SeatCount wrong_seats
refusal SEAT_STATE SeatState seat_above_top
refusal ROOM Room room_too_small
refusal DECK Deck malformed_deck
refusal NO_CARD NoLiveCard no_live_card
refusal CLASSES Classes wrong_classes
refusal VECTORS Vectors too_many_vectors
refusal STEPS Steps too_many_nights
refusal ROWS Row wrong_row
refusal DECIMAL Decimal decimal_weight
refusal NOT_CONVERTED NotConverted not_converted
refusal NOT_ADDED NotAdded not_added

# a question's numbers
refusal QUESTION_LONG QuestionLong 'in_question too_long'
refusal QUESTION_MARK QuestionMark 'in_question outside_rules'
refusal QUESTION_SHAPE QuestionShape 'in_question out_of_shape'
refusal QUESTION_LIMIT QuestionLimit 'in_question past_limit'
refusal QUESTION_STATE QuestionState 'in_question above_top'
refusal QUESTION_GROUP QuestionGroup 'in_question not_due'

# the stack, for every entry of the header
stack JUDGE JUDGE
stack WRITE WRITE
stack REDUCE REDUCE
stack SHOW SHOW
stack ASK ASK
stack WATCH WATCH
stack FIRST_MOVE FIRST_MOVE
stack ODDS ODDS
stack BOX_JUDGE JUDGE_DECK
stack BOX_FIND FIND
stack BOX_FIND_WITH FIND_WITH
stack BOX_WRITE WRITE_DECK
stack MEND MEND
stack CONVERT CONVERT
stack TIDY TIDY
stack ADD ADD
for entry in $(sed -n 's/^open_panel_answer open_panel_\([a-z_]*\)(.*/\1/p' include/open_panel.h); do
    grep -q "^#define OPEN_PANEL_STACK_${entry^^} " include/open_panel.h || { echo "numbers: no stack of $entry" && wrong=$((wrong + 1)); }
done

# the version: the crate's is the header's, and the changelog has a heading of it
version=$(sed -n 's/^#define OPEN_PANEL_VERSION "\(.*\)"$/\1/p' include/open_panel.h)
seen=$((seen + 1))
if [ "$(sed -n 's/^version = "\(.*\)"$/\1/p' rust/Cargo.toml)" != "$version" ] || ! grep -q "^## $version\b" CHANGELOG.md; then
    echo "numbers: the version is ${version:-nothing} in the header, and another in rust/Cargo.toml, or CHANGELOG.md has no heading of it"
    wrong=$((wrong + 1))
fi

# every number of the header is among them, but for the 0 of no refusal
all=$(grep -cE '^#define OPEN_PANEL_[A-Z_]* |^ *OPEN_PANEL_[A-Z_]* = [1-9]' include/open_panel.h)
echo "numbers: $seen of $all, $wrong wrong"
[ "$wrong" -eq 0 ] && [ "$seen" -eq "$all" ]

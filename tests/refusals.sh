#!/usr/bin/env bash
# Each wrong version is refused where its edit says. `rt` asks only that an edit is refused; an edit may hold several wrong versions, and each has to
# break a fact of its own. What the prover says of each edit comes from bin/refused, over the libraries that `rt ci` leaves, so this runs when rt has ended.
#   # NAME: what is wrong                        begins a version
#   # refused at: FUNCTION GOAL                  a goal of a function, named by its folder below proofs/ (a method is TYPE/NAME), that is refused, and not only for want of another one,
#                                                whether an answer of it falls or the kit's search finds none; proofs/FUNCTION/Answers.antt GOAL says the same
#   # refused at: proofs/FILE.antt FACT          the same of a declaration there; or FACT.FIELD, a field of it
set -eu
cd "$(dirname "${BASH_SOURCE[0]}")/.."
root=$PWD
. bin/kit.sh

versions=0
wrong=0
elsewhere=0
complain() { echo "$1" && wrong=$((wrong + 1)); }
said=$(mktemp -d)
trap 'rm -rf "$said"' EXIT

# the crates' libraries, where `rt ci` did not just build them
libraries $(ls -d crates/*/must-fail | cut -d / -f 2) </dev/null >"$said/log" 2>&1 || { tail -n 40 "$said/log" && echo "refusals: a crate does not prove as it stands" && exit 1; }
# as many at once as there are processors, and 2.5 GB for each
jobs=$(awk -v most="$(nproc)" '/^MemAvailable:/ { n = int($2 / 2500000); print n < 1 ? 1 : n < most ? n : most }' /proc/meminfo)
printf '%s\n' crates/*/must-fail/*.edit | xargs -P "$jobs" -I {} bash -c 'edit=$1 && crate=${edit#crates/} && crate=${crate%%/*} && to=$2/$crate/${edit##*/} && mkdir -p "${to%/*}" &&
    if bin/refused "$crate" "$edit" >"$to.part" 2>"$to.log"; then mv "$to.part" "$to"; fi' refused {} "$said"

# refused_alone PLACE: the version is refused there where it is tried without the others of its edit, one of which may rename the step at which this one is refused
refused_alone() {
    local alone=$said/$crate/$name.edit
    awk -v name="$name:" '/^# [a-z0-9_]+: / { on = $2 == name } on' "$edit" >"$alone"
    bin/refused "$crate" "$alone" 2>/dev/null </dev/null | grep -qxF -e "$1"
}

declare -A named
# ends: a version is over; it has a fact, and an edit that changes something
ends() {
    [ -z "$without" ] || complain "$edit: $without names no fact"
    [ -z "$name" ] || [ "$changes" -gt 0 ] || complain "$edit: $name changes nothing"
}

for folder in crates/*/must-fail; do [ -n "$(ls "$folder")" ] || complain "$folder: no edit"; done
for edit in crates/*/must-fail/*.edit; do
    crate=${edit#crates/}
    crate=${crate%%/*}
    facts=$said/$crate/${edit##*/}
    [ -f "$facts" ] || { complain "$edit: it was not tried: $(tail -n 3 "$facts.log")" && continue; }
    name='' without='' places='' old='' changes=0 missed=0
    while IFS= read -r line || [ -n "$line" ]; do
        case $line in
            '# refused at: '*)
                # a file that answers goals of a function stands for the function
                place=$(sed -E 's/^# refused at: //; s/^src //; s/^proofs\/(.*)\/(Proof|Answers|Invariants)\.antt /\1 /' <<<"$line")
                fact=${place##* }
                where=${place% *}
                [ -n "$name" ] || complain "$edit: a fact before its version"
                [[ $fact != *requires* && $fact != overflow_* && $fact != slice_bounds* && $fact != *-result && $fact != *-result-* ]] ||
                    complain "$edit: $place is neither contract nor law nor edge"
                # a record and a field of it are one place
                [[ $places != *"|$where ${fact%%.*}|"* && $places != *"|$place|"* ]] && { [ "$fact" != "${fact%%.*}" ] || [[ $places != *"|$where $fact."* ]]; } ||
                    complain "$edit: two versions are to be refused at $place"
                places="$places|$place|"
                without=''
                grep -qxF -e "$place" "$facts" || refused_alone "$place" ||
                    { echo "$edit: $name is not refused at $place" && elsewhere=$((elsewhere + 1)) missed=1; }
                ;;
            '#'*)
                [[ $line =~ ^#\ ([a-z][a-z0-9_]*):\  ]] || { complain "$edit: neither a version nor a fact: $line" && continue; }
                ends
                name=${BASH_REMATCH[1]} without=${BASH_REMATCH[1]} changes=0
                [ -z "${named[$crate/$name]-}" ] || complain "$edit: a second version $name of $crate"
                named[$crate/$name]=1
                versions=$((versions + 1))
                ;;
            'old:'*)
                [ -n "$name" ] || complain "$edit: it names no version"
                old=${line#old:}
                ;;
            'new:'*) [ "${line#new:}" = "$old" ] || changes=$((changes + 1)) ;;
        esac
    done <"$edit"
    ends
    [ $missed -eq 0 ] || sed 's/^/    it is refused at: /' "$facts"
done
echo "refusals: $versions wrong versions, $elsewhere not refused where it is said, $wrong not written as they should be"

# In which words a prover refuses, and how far it goes on behind that, is its own affair: the facts are those that the kit of dist/ names. Under another one only rt's verdict on
# the edits counts, and what differs is printed.
made_by=$(sed -n 's/^kit //p' dist/MADE-OF)
if [ "$elsewhere" -gt 0 ] && [ "$made_by" != "$(rt version)" ]; then
    echo "refusals: the facts were named with kit $made_by, and this is $(rt version)"
    elsewhere=0
fi
[ "$wrong" -eq 0 ] && [ "$elsewhere" -eq 0 ] && [ "$versions" -ge 382 ]

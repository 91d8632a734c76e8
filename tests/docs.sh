#!/usr/bin/env bash
# What the pages name in backticks is there. By its form a word is one of these, or none that is looked for:
#   a path, or a file's name with its ending    somewhere below the project's folder
#   CRATE/must-fail/EDIT                        an edit with a version of that name; CRATE/must-fail/EDIT:VERSION one with another version
#   a bare word behind that, or "Kept as"       a version in an edit of the crate named before
#   CRATE::NAME, MODULE::NAME, TYPE::NAME       something that the code names so
#   statement : Type                            in `promises`, `card_promises`, `entry_promises`, `edges`, `entry_edges`, `question_edges`, `odds_edges`, `night_edges`, `mending_edges`, `converting_edges`, `tidying_edges`, `evening_edges`, `chances`, `odds_said`, `tidying` or `keeps`
#   Record.field                                of a record there
#   a bare word in a column "Function"          a function or a crate
# A link leads to a file or a folder.
# The README's table of crates is crates.txt. What stands in a block of code, and docs/landings (history), is not looked at.
set -eu
cd "$(dirname "${BASH_SOURCE[0]}")/.."
pages=(README.md CHANGELOG.md vectors/README.md docs/*.md)

# KIND PAGE LINE WORD, with tabs between
named=$(awk '
    function say(kind, word) { printf "%s\t%s\t%d\t%s\n", kind, FILENAME, FNR, word }
    FNR == 1 { fenced = 0; crate = ""; head = "" }
    /^```/ { fenced = !fenced }
    fenced { next }
    !/^\|/ { columns = 0; head = "" }
    /^\|/ && !columns { columns = split($0, head_cells, "|"); head = $0; crate = "" }
    {
        for (rest = $0; match(rest, /\]\([^)]*\)/); rest = substr(rest, RSTART + RLENGTH)) {
            link = substr(rest, RSTART + 2, RLENGTH - 3)
            if (link !~ /^https?:/) say("link", link)
        }
        n = split($0, parts, "`")
        cell = 1
        was_edit = 0
        for (i = 1; i <= n; i++) {
            if (i % 2) {
                cell += gsub(/\|/, "|", parts[i])
                if (parts[i] !~ /^(, | and )$/) was_edit = 0
                continue
            }
            word = parts[i]
            if (word ~ /^[a-z_]+\/must-fail\/[a-z0-9_]+(:[a-z0-9_]+)?$/) {
                crate = word
                sub(/\/.*/, "", crate)
                say("edit", word)
                was_edit = 1
            } else if (word ~ /^[a-z0-9_]+$/ && (was_edit || (columns && cell == columns - 1 && head_cells[cell] == " Kept as "))) {
                say("version", crate "/" word)
                was_edit = 1
            } else {
                was_edit = 0
                if (word ~ /^[A-Za-z0-9_]+(::[A-Za-z0-9_]+)+$/) say("code", word)
                else if (word ~ /^[a-z][A-Za-z0-9_-]+ : [A-Z][A-Za-z0-9_-]+$/) say("statement", word)
                else if (word ~ /^[A-Z][A-Za-z0-9-]*\.[a-z][a-z0-9_-]*$/ && word !~ /\.(antt|md|rt)$/) say("field", word)
                else if (word ~ /^target\//) continue
                else if (word ~ /^[A-Za-z0-9_.-]+(\/[A-Za-z0-9_.-]+)*\/?$/ && word ~ /[A-Za-z_.-][A-Za-z_-]/ &&
                    (word ~ /\// || word ~ /[a-z]\.(antt|rt|edit|rs|toml|sh|mjs|c|h|md|txt|cases|expected|index)$/)) say("path", word)
                else if (columns && cell == 2 && head_cells[cell] == " Function " && word ~ /^[a-z][a-z0-9_]*$/) say("function", word)
            }
        }
    }' "${pages[@]}")

files=$(find . \( -path ./target -o -path ./.git -o -path ./rust/target -o -path './crates/*/out' \) -prune -o -print)
looked=0
missing=0

# coded NAME FILES..: do the files of code name something so?
coded() { grep -qEs "\b(fn|mod|const|struct|enum|type) $1\b" "${@:2}"; }

found() { # KIND WORD PAGE
    local first=${2%%::*} last=${2##*::}
    case $1 in
        link) [ -e "$(dirname "$3")/${2%%#*}" ] ;;
        edit) grep -qs "^# $(sed 's/.*[/:]//' <<<"$2"): " "crates/${2%%:*}.edit" ;;
        version) grep -qs "^# ${2#*/}: " "crates/${2%%/*}/must-fail"/*.edit ;;
        path) grep -qxF -e "./${2%/}" <<<"$files" || grep -qE -e "/$(sed 's/[.]/\\./g' <<<"${2%/}")\$" <<<"$files" ;;
        code)
            if [ -d "crates/$first" ]; then
                coded "$last" "crates/$first"/src/*.rt
            elif [[ $first == [A-Z]* ]]; then
                coded "$first" crates/*/src/*.rt && coded "$last" crates/*/src/*.rt
            else
                coded "$last" crates/*/src/"$first.rt"
            fi
            ;;
        statement) grep -qEs "\b${2% : *} : ${2#* : }" crates/{promises,card_promises,entry_promises,edges,entry_edges,question_edges,odds_edges,night_edges,mending_edges,converting_edges,tidying_edges,evening_edges,chances,odds_said,tidying,keeps}/proofs/*.antt && grep -qEs "\b${2#* : }\b" crates/{promises,card_promises,entry_promises,edges,entry_edges,question_edges,odds_edges,night_edges,mending_edges,converting_edges,tidying_edges,evening_edges,chances,odds_said,tidying,keeps}/specs/*.antt ;;
        field) awk -v r="${2%%.*}" -v f="${2#*.}" '/^pub record / { on = $3 == r } on && $1 == "pub" && $2 == f { ok = 1 } END { exit !ok }' crates/{promises,card_promises,entry_promises,edges,entry_edges,question_edges,odds_edges,night_edges,mending_edges,converting_edges,tidying_edges,evening_edges,chances,odds_said,tidying,keeps}/specs/*.antt ;;
        function) [ -d "crates/$2" ] || coded "$2" crates/*/src/*.rt ;;
    esac
}

# what has been found once is not looked for again; a link is found from its page
declare -A known
while IFS=$'\t' read -r kind page line word; do
    looked=$((looked + 1))
    [ -z "${known["$kind $word"]-}" ] || continue
    if found "$kind" "$word" "$page"; then
        [ "$kind" = link ] || known["$kind $word"]=1
    else
        echo "$page:$line: there is no $kind $word"
        missing=$((missing + 1))
    fi
done <<<"$named"

if ! diff <(sed -nE 's/^([a-z_]*)( staticlib)?:.*/\1/p' crates.txt | sort) \
    <(awk -F'`' '/^\| Crate \|/ { rows = 1 } rows && !/^\|/ { rows = 0 } rows && NF > 1 { print $2 }' README.md | sort); then
    echo "README.md: the table of crates (>) is not crates.txt (<)"
    missing=$((missing + 1))
fi
echo "docs: $looked names, $missing missing"
[ "$missing" -eq 0 ] && [ "$looked" -ge 200 ]

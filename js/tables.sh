#!/usr/bin/env bash
# The JavaScript module and its types, with the tables that they need put in from the header and from c/open_panel_words.c:
#   js/tables.sh PREPROCESSED FOLDER
# PREPROCESSED is c/open_panel_words.c with its macros put in (clang -E), FOLDER where open_panel.mjs and open_panel.d.mts go.
# What an entry answers is told by what it takes, and here, once, for those of which that says too little.
set -eu
root=$(cd "$(dirname "$(readlink -f "${BASH_SOURCE[0]}")")/.." && pwd)
header=$root/include/open_panel.h
made=$2

# NAME ANSWER TAKES..
entries=$("$root/bin/entries" | awk '
    {
        answer = "number"
        if (/ length:/) answer = "mended"
        else if (/ changed:/) answer = "bytes"
        else if (/ room:/) answer = / bytes:card / ? "text" : "bytes"
        else if (/ part:/) answer = "part"
        else if ($1 == "ask") answer = "yes"
        else if ($1 ~ /judge$/) answer = "nothing"
        $1 = $1 " " answer
        print
    }')

{
    printf 'const VERSION = %s;\n' "$(sed -n 's/^#define OPEN_PANEL_VERSION //p' "$header")"
    printf 'const NUMBERS = {\n'
    sed -n 's/^#define OPEN_PANEL_\([A-Z_]*\) \([0-9][0-9]*\)$/    \1: \2,/p' "$header" | grep -v ' STACK_'
    printf '};\nconst WORDS = {\n'
    awk '
        NR == FNR { if (match($0, /^ *OPEN_PANEL_[A-Z_]* = [0-9]+/)) number[$1] = $3 + 0; next }
        / *case OPEN_PANEL_/ { on = 1; said = "" }
        on { said = said $0 }
        on && /;/ {
            on = 0
            name = said
            sub(/^ *case /, "", name)
            sub(/:.*/, "", name)
            sub(/^[^"]*"/, "\"", said)
            sub(/;.*/, "", said)
            gsub(/" *"/, "", said)
            if (number[name] > 0) print "    " number[name] ": " said ","
        }' "$header" "$1"
    printf '};\nconst ENTRIES = {\n'
    awk '{
        printf "    %s: { answer: \"%s\", takes: [", $1, $2
        for (i = 3; i <= NF; i++) { split($i, take, ":"); printf "%s[\"%s\", \"%s\"]", (i > 3 ? ", " : ""), take[1], take[2] }
        print "] },"
    }' <<<"$entries"
    printf '};\n'
} >"$made/tables"

# show(card: Text, seats: Bytes): string;
awk '
    BEGIN {
        type["text"] = "string"; type["bytes"] = "Uint8Array"; type["part"] = "Part"; type["yes"] = "boolean"
        type["nothing"] = "void"; type["number"] = "number"; type["mended"] = "Mended"
    }
    {
        name = $1
        while (match(name, /_[a-z]/)) name = substr(name, 1, RSTART - 1) toupper(substr(name, RSTART + 1, 1)) substr(name, RSTART + 2)
        out = ""
        for (i = 3; i <= NF; i++) {
            split($i, take, ":")
            if (take[1] ~ /^(room|row|part|length)$/) continue
            out = out (out ? ", " : "") take[2] ": " (take[1] ~ /^(bytes|changed)$/ ? "Bytes" : "number")
        }
        print "    /** `open_panel_" $1 "` of open_panel.h. */"
        print "    " name "(" out "): " type[$2] ";"
    }' <<<"$entries" >"$made/methods"

sed -e "/^\/\/ TABLES$/r $made/tables" -e '/^\/\/ TABLES$/d' "$root/js/open_panel.mjs" >"$made/open_panel.mjs"
sed -e "/^ *\/\/ ENTRIES$/r $made/methods" -e '/^ *\/\/ ENTRIES$/d' "$root/js/open_panel.d.mts" >"$made/open_panel.d.mts"
rm "$made/tables" "$made/methods"

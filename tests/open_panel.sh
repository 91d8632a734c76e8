#!/usr/bin/env bash
# Which program bin/open_panel runs, in a copy of the project: the one of dist/ where the sources are unchanged, through a symbolic link and
# without the kit too; where they are changed it is built, which is announced and logged, or said to need the kit. The kit that builds is a
# stand-in here, since proving takes minutes.
set -euo pipefail
cd "$(dirname "${BASH_SOURCE[0]}")/.."
root=$PWD
. bin/kit.sh
bin/dist target/dist
made=$(mktemp -d)
trap 'rm -rf "$made"' EXIT
copy=$made/copy
mkdir -p "$copy" "$made/plain" "$made/kit/bin"
cp -r bin crates.txt "$copy/"
# without what the kit keeps there
tar --exclude='crates/*/out' -cf - crates | tar -xf - -C "$copy"
cp -r target/dist "$copy/dist"
ln -s "$copy/bin/open_panel" "$made/link"
runs=0

# hold WHAT FOUND DUE
hold() {
    runs=$((runs + 1))
    [ "$2" = "$3" ] || { printf 'open_panel: %s: "%s" and not "%s"\n' "$1" "$2" "$3" && exit 1; }
}

# shown WHAT: card A's panel, by the link, with nothing said beside
shown() { hold "$1" "$("$made/link" <examples/card-a 2>&1)" "$(cat examples/card-a.panel)"; }

# a system with what the script uses and no kit
for command in bash env sed awk grep find xargs sort cat dirname readlink uname sha256sum tail tee mkdir touch cp wc; do ln -s "$(command -v $command)" "$made/plain/"; done
# a kit whose check of a crate is quick, and whose compiler and linker make what dist/ has
cat >"$made/kit/bin/rt" <<SH
#!/bin/sh
case \$1 in
    doc) echo "$made/kit/START-HERE.md" ;;
    check) echo "fn card::f: proved"; echo "crate card: modules loaded=0 checked=1"; [ ! -e "$made/fails" ] || exit 1 ;;
    *) exec "$(command -v rt)" "\$@" ;;
esac
SH
cat >"$made/kit/bin/rattle" <<'SH'
#!/bin/sh
while [ "$1" != -o ]; do shift; done
echo object >"$2"
SH
cat >"$made/kit/bin/rattle-link" <<SH
#!/bin/sh
while [ "\$1" != -o ]; do shift; done
cp "$copy/dist/x86_64-linux/open_panel" "\$2"
SH
chmod +x "$made/kit/bin"/*
cp "$kit/KIT-ID" "$made/kit/"

shown 'the kept program'
path=$PATH
PATH=$made/plain
shown 'without the kit'
PATH=$path

echo '// changed' >>"$copy/crates/card/src/lib.rt"
PATH=$made/plain
if said=$("$made/link" <examples/card-a 2>&1); then echo "open_panel: changed sources, and no kit, and it runs" && exit 1; fi
PATH=$path
hold 'changed, without the kit' "$said" "open_panel: the sources are not those of the program in dist/, and to build it Rattle's kit (rt) is needed"

PATH=$made/kit/bin:$path
touch "$made/fails"
if said=$("$made/link" <examples/card-a 2>&1); then echo "open_panel: it could not be built, and it runs" && exit 1; fi
hold 'a build that fails' "$(grep -c 'it could not be built' <<<"$said")" 1
rm "$made/fails"
hold 'built' "$("$made/link" <examples/card-a 2>"$made/said")" "$(cat examples/card-a.panel)"
hold 'what is said first' "$(grep -c '^open_panel: .*\(proved and built now\|minutes\)' "$made/said")" 2
hold 'a line for each crate' "$(grep -v '^open_panel: ' "$made/said")" 'card checked'
hold 'the rest' "$(head -n 1 "$copy/target/open_panel.log")" 'fn card::f: proved'
shown 'the built program, again'
PATH=$path

# a kept program that is not whole is not run
rm -r "$copy/target"
cp "$root/crates/card/src/lib.rt" "$copy/crates/card/src/lib.rt"
shown 'the sources as they were'
echo >>"$copy/dist/x86_64-linux/open_panel"
PATH=$made/plain
if "$made/link" <examples/card-a >/dev/null 2>&1; then echo "open_panel: a spoilt program is run" && exit 1; fi
PATH=$path
echo "open_panel: $runs runs as they should be"

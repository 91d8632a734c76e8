#!/usr/bin/env bash
# The library as it is made for each target: it has the header's functions and no others, and needs what the header says. The header in each
# language that it is for, and not where size_t is short; the archive and the shared library from C on each processor that can be had.
set -eu
cd "$(dirname "${BASH_SOURCE[0]}")/.."
root=$PWD
. bin/kit.sh
. tests/c/build.sh
bin/library >/dev/null

# same WHAT FOUND DUE
same() {
    [ "$2" = "$3" ] || { echo "library: $1: $2, and not $3" && exit 1; }
}

# the entries are the module's, and the others those of the C file beside it
functions=$(grep -oE '\bopen_panel_[a-z_0-9]+\(' include/open_panel.h | tr -d '(' | sort | xargs)
entries=$(bin/entries | sed 's/ .*//; s/^/open_panel_/' | sort | xargs)
same 'functions of crate tablet_c' "$(sed -n 's/^pub extern "C" fn \([a-z_0-9]*\).*/\1/p' crates/tablet_c/src/*.rt | sort | xargs)" "$entries"
# each of them promises what the function of \`tablet\` does that it calls, word for word
heads() { awk '/^pub (extern "C" )?fn open_panel_/ { on = 1; head = "" } on && /^\{/ { on = 0; print head } on { head = head " " $0 }' crates/"$1"/src/*.rt | sed 's/ extern "C"//; s/  */ /g; s/( /(/; s/, )/)/'; }
[ "$(heads tablet | wc -l)" -eq "$(wc -w <<<"$entries")" ]
diff <(heads tablet) <(heads tablet_c) || { echo "library: the exports of tablet_c (>) do not promise what the functions of tablet (<) do" && exit 1; }
same 'functions of the C file' "$(sed -n 's/^[a-z].*\b\(open_panel_[a-z_]*\)(.*{$/\1/p' c/open_panel_words.c | sort | xargs)" \
    "$(comm -23 <(tr ' ' '\n' <<<"$functions") <(tr ' ' '\n' <<<"$entries") | xargs)"

native=target/library/$machine-linux/libopen_panel
same 'functions of the archive' "$(nm -g --defined-only "$native.a" | awk 'NF == 3 { print $3 }' | sort | xargs)" "$functions"
same 'what the archive needs' "$(nm -u "$native.a" | awk 'NF == 2 { print $2 }' | sort -u | xargs)" 'memcpy memset'
same 'functions of the shared library' "$(nm -D --defined-only "$native.so" | awk '{ print $3 }' | sort | xargs)" "$functions"
same 'what the shared library needs' "$(nm -D -u "$native.so" | awk '{ print $2 }' | sort | xargs)" 'memcpy memset'
# bin/library refuses a module for WebAssembly that lays out pointers among other values, as the module does till it is optimised
"$tools/bin/clang" -O0 -S -emit-llvm -x ir target/library/x86_64-linux/module.bc -o target/unoptimised.ll
laid_by_width target/unoptimised.ll >/dev/null || { echo "library: no pointer is found among values where there are some" && exit 1; }
if laid_by_width target/library/wasm32/optimised.ll; then
    echo "library: the module for WebAssembly was made of one with pointers among values in memory" && exit 1
fi
if command -v node >/dev/null; then
    module='const module = new WebAssembly.Module(require("fs").readFileSync("target/library/wasm32/open_panel.wasm"));'
    names='.map(x => x.name).sort().join(" ")'
    same 'exports of the module' "$(node -p "$module WebAssembly.Module.exports(module)$names")" "__heap_base memory $entries"
    same 'imports of the module' "$(node -p "$module WebAssembly.Module.imports(module)$names")" ''
    node tests/js/module.mjs
else
    echo "wasm32: left out, as there is no node here"
fi

# one library serves Linux and Android
bin/library aarch64-android >/dev/null
cmp target/library/aarch64-{linux,android}/libopen_panel.so

# the header asserts of each struct that the module hands back that it is small enough to be
for type in $(sed -n 's/^\([a-z_]*\) open_panel_[a-z_]*(.*/\1/p' include/open_panel.h | sort -u); do
    ! grep -q "^} $type;" include/open_panel.h || [ "$type" = open_panel_position ] ||
        grep -q "^_Static_assert(sizeof($type) <= 16," include/open_panel.h ||
        { echo "library: the header does not say that $type has 16 bytes at most" && exit 1; }
done

strict=(-Wall -Wextra -pedantic -Werror -fsyntax-only)
languages=(c99 c11)
! cc -x c++ -fsyntax-only /dev/null 2>/dev/null || languages+=(c++98)
for language in "${languages[@]}"; do
    cc "${strict[@]}" -x "${language%[0-9][0-9]}" -std="$language" include/open_panel.h
done
cc "${strict[@]}" -std=c99 -Iinclude c/open_panel_words.c
short=$("$tools/bin/clang" --target=wasm32 -ffreestanding -isystem target/library/wasm32/headers -fsyntax-only -x c include/open_panel.h 2>&1) &&
    { echo "library: the header compiles where size_t has 4 bytes" && exit 1; }
grep -q needs_a_size_t_of_8_bytes <<<"$short"

for target in x86_64-linux aarch64-linux; do
    runnable $target || continue
    for kind in a so; do
        linked $target open_panel_test $kind
        printf '%s, libopen_panel.%s: ' $target $kind
        "${run[@]}"
    done
done

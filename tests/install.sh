#!/usr/bin/env bash
# The library installed below a folder of its own: its files, pkg-config, a C program linked with either kind of library; and where Rust's build
# script finds it: by pkg-config, in OPEN_PANEL_LIB_DIR, in dist/, in this order and for the target's processor, or ends with one line.
set -euo pipefail
cd "$(dirname "${BASH_SOURCE[0]}")/.."
root=$PWD
. bin/kit.sh
. tests/c/build.sh
bin/dist target/dist
made=$(mktemp -d)
trap 'rm -rf "$made"' EXIT

# hold WHAT FOUND DUE
hold() { [ "$2" = "$3" ] || { printf 'install: %s: "%s" and not "%s"\n' "$1" "$2" "$3" && exit 1; }; }

make --no-print-directory install PREFIX="$made/p" FROM=target/dist
hold files "$(cd "$made/p" && find . -type f | LC_ALL=C sort | xargs)" \
    './include/open_panel.h ./lib/libopen_panel.a ./lib/libopen_panel.so ./lib/pkgconfig/open_panel.pc ./share/open_panel/open_panel.d.mts ./share/open_panel/open_panel.mjs ./share/open_panel/open_panel.wasm'
make --no-print-directory install PREFIX=/usr DESTDIR="$made/d" MACHINE=aarch64 FROM=target/dist >/dev/null
cmp "$made/d/usr/lib/libopen_panel.a" target/dist/aarch64-linux/libopen_panel.a
hold 'its prefix' "$(sed -n 's/^prefix=//p' "$made/d/usr/lib/pkgconfig/open_panel.pc")" /usr
# a folder that is not as it was made is not installed
cp -r target/dist "$made/spoilt" && echo >>"$made/spoilt/include/open_panel.h"
if said=$(PREFIX=$made/n FROM=$made/spoilt bin/install 2>&1); then echo "install: a spoilt folder was installed" && exit 1; fi
hold 'lines for a spoilt folder' "$(wc -l <<<"$said")" 1

export PKG_CONFIG_LIBDIR=$made/p/lib/pkgconfig PKG_CONFIG_PATH=
pkg_config=$(command -v pkg-config || true)
if [ "$pkg_config" ]; then
    hold version "$(pkg-config --modversion open_panel)" "$(sed -n 's/^#define OPEN_PANEL_VERSION "\(.*\)"$/\1/p' include/open_panel.h)"
    cc tests/c/open_panel_test.c "${words[-1]}" $(pkg-config --cflags --libs open_panel) -o "$made/shared"
    LD_LIBRARY_PATH=$made/p/lib "$made/shared"
else
    echo "install: pkg-config left out, as it is not here"
fi

# found WHAT DUE-FOLDER ARCH ENV..: where the build script looks, for a Linux of that processor; compiled alone, and run as cargo does
rustc --edition 2021 -O rust/open-panel/build.rs -o "$made/build" 2>"$made/log" || { cat "$made/log" && exit 1; }
script() {
    env -u OPEN_PANEL_LIB_DIR CARGO_MANIFEST_DIR="$made/tree/rust/open-panel" CARGO_CFG_TARGET_ARCH="$1" CARGO_CFG_TARGET_OS=linux CARGO_CFG_TARGET_POINTER_WIDTH=64 \
        HOST="$machine-unknown-linux-gnu" TARGET="$1-unknown-linux-gnu" "${@:2}" "$made/build"
}
found() {
    local given
    given=$(script "$3" "${@:4}")
    hold "$1" "$(sed -n 's/^cargo:rustc-link-search=native=//p' <<<"$given" | xargs realpath)" "$(realpath "$2")"
    hold "$1" "$(sed -n 's/^cargo:rustc-link-lib=//p' <<<"$given")" static=open_panel
}
mkdir -p "$made/tree/rust/open-panel" && cp -r target/dist "$made/tree/dist"
libraries=$root/target/dist
none=PKG_CONFIG_LIBDIR=$made/none
other=$([ "$machine" = aarch64 ] && echo x86_64 || echo aarch64)
[ -z "$pkg_config" ] || found 'by pkg-config' "$made/p/lib" "$machine" OPEN_PANEL_LIB_DIR="$libraries"
found 'pkg-config is not asked for another processor' "$libraries/$other-linux" "$other" OPEN_PANEL_LIB_DIR="$libraries"
found 'in a folder of targets' "$libraries/$machine-linux" "$machine" "$none" OPEN_PANEL_LIB_DIR="$libraries"
found 'in a folder of one library' "$made/p/lib" "$machine" "$none" OPEN_PANEL_LIB_DIR="$made/p/lib"
found 'in dist/' "$made/tree/dist/$machine-linux" "$machine" "$none"
found 'in dist/, another processor' "$made/tree/dist/$other-linux" "$other" "$none"
found 'in dist/, Android' "$made/tree/dist/aarch64-linux" aarch64 "$none" CARGO_CFG_TARGET_OS=android
# refused WORDS..: in a line that cargo shows, and with nothing to link
refused() {
    local said
    said=$(script "$machine" "$none" "$@" 2>&1 | grep -v '^cargo:rerun')
    hold "lines with $*" "$(wc -l <<<"$said") ${said%%=*}" '1 cargo::error'
}
refused CARGO_CFG_TARGET_ARCH=riscv64
refused CARGO_CFG_TARGET_ARCH=riscv64 OPEN_PANEL_LIB_DIR="$made/none"
refused CARGO_CFG_TARGET_POINTER_WIDTH=32
# as cargo shows it
cp -r rust "$made/alone" && rm -rf "$made/alone/target"
if said=$(cd "$made/alone" && env -u OPEN_PANEL_LIB_DIR "$none" cargo build --offline --quiet --package open-panel --target-dir "$made/alone/target" 2>&1); then
    echo "install: cargo builds without a library" && exit 1
fi
hold 'what cargo shows' "$(sed 's/: no libopen_panel.a .*//' <<<"$said" | tr '\n' ';')" \
    "error: open-panel@$(sed -n 's/^version = "\(.*\)"$/\1/p' rust/Cargo.toml);error: build script logged errors;"
echo "install: header, libraries, pkg-config and the build script as they should be"

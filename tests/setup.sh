#!/usr/bin/env bash
# Installs what the tests of other targets need and is not here, where packages can be had (as root, with apt-get). It always passes: a test
# whose tool is missing says in a line which target it leaves out. The gate runs it before the tests.
set -u
machine=$(uname -m)
packages=()

# needs COMMAND PACKAGES..
needs() { command -v "$1" >/dev/null || packages+=("${@:2}"); }
needs cc gcc libc6-dev
needs node nodejs
# a browser for the desk's page, by whichever name it has
[ "$(command -v chromium chromium-browser google-chrome google-chrome-stable)" ] || packages+=(chromium fonts-dejavu-core)
needs pkg-config pkgconf
if [ "$machine" != aarch64 ]; then
    needs aarch64-linux-gnu-gcc gcc-aarch64-linux-gnu libc6-dev-arm64-cross
    needs qemu-aarch64 qemu-user
fi
# x86-64 is run by the kit's own emulator where it is not the machine's

if [ ${#packages[@]} -eq 0 ]; then
    echo "setup: nothing is missing"
elif [ "$(id -u)" -ne 0 ] || ! command -v apt-get >/dev/null; then
    echo "setup: missing, and not to be had here: ${packages[*]}"
else
    log=$(mktemp)
    if { timeout 60 apt-get update && DEBIAN_FRONTEND=noninteractive timeout 300 apt-get install -y --no-install-recommends "${packages[@]}"; } >"$log" 2>&1; then
        echo "setup: installed ${packages[*]}"
    else
        echo "setup: could not install ${packages[*]}: $(tail -n 1 "$log")"
    fi
    rm -f "$log"
fi
exit 0

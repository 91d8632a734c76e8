#!/usr/bin/env bash
# dist/ is what these sources make: made again by bin/dist, every file of it is the same byte for byte, and there are no others; where another kit made it, but for that
# kit's name. What a second build in another folder and at another time makes is the same too.
set -euo pipefail
cd "$(dirname "${BASH_SOURCE[0]}")/.."
root=$PWD
. bin/kit.sh
bin/dist target/dist

# the steps behind what the kit's compiler makes, done again elsewhere, give the same bytes
again=$(mktemp -d)
trap 'rm -rf "$again"' EXIT
mkdir -p "$again/target/library"
cp -r bin include c js crates.txt "$again/"
# without what the kit keeps there
tar --exclude='crates/*/out' -cf - crates | tar -xf - -C "$again"
for folder in x86_64-linux aarch64-linux; do mkdir "$again/target/library/$folder" && cp target/library/$folder/libtablet_c.a{,.made-of} "$again/target/library/$folder/"; done
cp target/library/x86_64-linux/module.bc "$again/target/library/x86_64-linux/"
"$again/bin/library" >/dev/null
for folder in x86_64-linux aarch64-linux wasm32; do
    for made in target/dist/$folder/*; do
        [ "$made" = target/dist/x86_64-linux/open_panel ] || cmp "$made" "$again/target/library/$folder/${made##*/}"
    done
done
# no folder of this machine is in any of them
for folder in "$root" "$kit" "$HOME" /tmp/; do
    if [ "$folder" != / ] && grep -rlF -e "$folder" target/dist; then echo "dist: $folder is in what was made" && exit 1; fi
done

[ -d dist ] || { echo "dist: there is no dist/; bin/dist makes it" && exit 1; }
(cd dist && sha256sum --check --quiet SHA256SUMS)
# by whom it was made, and of what
by() { grep '^kit \|^machine ' "$1/MADE-OF"; }
of() { grep -v '^kit \|^machine ' "$1/MADE-OF"; }
fail() { echo "dist: dist/ is not what these sources make: was a crate, the header, c/, js/ or desk/ changed without bin/dist?" && exit 1; }
cmp <(of dist) <(of target/dist) || fail
if [ "$(by dist)" = "$(by target/dist)" ]; then
    diff -r dist target/dist || fail
else
    # another kit, or the same on another processor, has so far made the same but for its name; one that makes other code is not held to it
    files() { (cd "$1" && find . -type f ! -name MADE-OF ! -name SHA256SUMS | sort); }
    cmp <(files dist) <(files target/dist) || fail
    for file in $(files dist); do
        same_code "dist/$file" "target/dist/$file" ||
            { echo "dist: made of these sources by another kit or on another processor ($(by dist | xargs)), which makes another $file: its bytes are not held to what is made here" && exit 0; }
    done
fi
[ -x dist/x86_64-linux/open_panel ]
echo "dist: $(wc -l <dist/SHA256SUMS) files, every byte as made again, but for the kit's name where that is another (made by $(by dist | xargs), here by $(by target/dist | xargs))"

# What the scripts share, for bash to read in with `root` set to the project's folder: where the kit is, whether something has to be made anew, and how the kit's compiler
# builds a crate.
kit=$(dirname "$(rt doc)")
tools=$kit/toolchain
machine=$(uname -m)

# made_of [CRATE]: by which kit, and a checksum of the crate and of all crates below it, or of all crates
made_of() { echo "$(cat "$kit/KIT-ID"), sources $("$root/bin/sources" "$@")"; }

# note FILE CRATE: the file was made of the crate as it stands
note() { made_of "$2" >"$1.made-of"; }

# changed FILE CRATE: has the crate, a crate below it or the kit changed since the file was made?
changed() { [ ! -e "$1" ] || [ "$(cat "$1.made-of" 2>/dev/null)" != "$(made_of "$2")" ]; }

# below CRATE: the names of the crates below it
below() { "$root/bin/crates" "$1" | sed 's/[ :].*//' | { grep -vx "$1" || true; }; }

# left_by_ci: did `rt ci` prove these very sources here? `.ci/run` notes that in target/proved.
left_by_ci() {
    [ -n "${left-}" ] || { [ "$(cat "$root/target/proved" 2>/dev/null)" = "$(made_of)" ] && left=1 || left=0; }
    [ "$left" -eq 1 ]
}

# libraries CRATE..: those below the crates are in crates/*/out, proved. What `rt ci` left serves, where none of it is of another run, which rt marks by a stamp; or else rt
# proves what is not proved yet.
libraries() {
    local name whole=1
    left_by_ci || whole=0
    for name in $(for name; do below "$name"; done | sort -u); do
        [ -d "$root/crates/$name/out/rlib/$name.rlib" ] && [ ! -e "$root/crates/$name/out/rlib/stamp" ] || whole=0
    done
    if [ $whole -eq 1 ]; then
        return 0
    elif [ $# -eq 1 ]; then
        (cd "$root/crates/$1" && rt check)
    else
        (cd "$root" && rt all check)
    fi
}

# words_for CRATE: leaves in `words` those by which the kit's prover and compiler find what the crate stands on, when they are run in the crate's folder
words_for() {
    local name
    words=(--crate-name "$1" --antt-project "$kit/rattle/logic/antt-project.json" --logic-built "$kit/logic_built" --extern "std=$kit/rlibs/std.rlib" -L "dependency=$kit/rlibs")
    for name in $(sed -nE "s/^$1( staticlib)?: *//p" "$root/crates.txt"); do words+=(--extern "$name=../$name/out/rlib/$name.rlib"); done
    for name in $(below "$1"); do words+=(-L "dependency=../$name/out/rlib"); done
}

# built CRATE TOOLCHAIN OUT WORDS..: proves the crate over the libraries below it, and has the kit's compiler make OUT of it
built() {
    local words
    words_for "$1"
    mkdir -p "$root/crates/$1/out/incremental"
    (cd "$root/crates/$1" && "$kit/bin/rattle" build "${words[@]}" --incremental out/incremental --jobs 2 --toolchain "$2" -o "$3" "${@:4}")
}

# without_kit FILE: its bytes, without what names the kit that made it: the sum of the kit's logic, which its compiler writes into all that it makes, and the id that its
# linker gives to a program by these bytes
without_kit() { perl -0777 -pe 's/rattle logic=[0-9a-f]{64}/rattle logic=/g; s/(\x04\0\0\0\x14\0\0\0\x03\0\0\0GNU\0).{20}/$1/sg' "$1"; }

# same_code FILE FILE: byte for byte, whichever kit made each
same_code() { cmp -s <(without_kit "$1") <(without_kit "$2"); }

# laid_by_width FILE: the lines of an LLVM module in letters where values lie in memory with a pointer among them, which code
# for 32 bits lays out otherwise than the module means; none is no success
laid_by_width() {
    grep -nE '(= load|^ *store|= alloca|= getelementptr)[^@]*([{][^}]*\bptr\b[^}]*[}]|<[^>]*\bptr\b[^>]*>|[[][^]]*\bptr\b[^]]*[]])' "$1"
}

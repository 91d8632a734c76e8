# For bash to read in, with `root` set and bin/kit.sh read in: programs of this folder, linked with a build of the library.
words=(-Wall -Wextra -pedantic -Werror -std=c99 -D_POSIX_C_SOURCE=200809L -O1 "-I$root/include"
    "-DREFUSALS=$(sed -n 's/^ *\(OPEN_PANEL_[A-Z_]*\) = [0-9]*\b.*/\1/p' "$root/include/open_panel.h" | paste -sd,)")

# runnable TARGET: can a program for it be linked and run here? Where not, it says why.
runnable() {
    case $1 in
        "$machine-linux") return 0 ;;
        aarch64-linux)
            if command -v aarch64-linux-gnu-gcc >/dev/null && command -v qemu-aarch64 >/dev/null; then return 0; fi
            echo "$1: left out, as there is no aarch64-linux-gnu-gcc or no qemu-aarch64 here"
            ;;
    esac
    return 1
}

# linked TARGET NAME [KIND]: compiles NAME.c, links it with the library for TARGET, the archive (a) or the shared one (so), and leaves in
# `run` the words that run it here.
linked() {
    local folder=$root/target/library/$1 kind=${3:-a} source=$root/tests/c/$2.c made=$root/target/c/$1
    local library=$folder/libopen_panel.$kind
    mkdir -p "$made"
    made=$made/$2.$kind
    run=("$made")
    case $1 in
        "$machine-linux") cc "${words[@]}" "$source" "$library" -Wl,-rpath,"$folder" -o "$made" ;;
        aarch64-linux)
            if [ $kind = a ]; then
                aarch64-linux-gnu-gcc -static "${words[@]}" "$source" "$library" -o "$made"
                run=(qemu-aarch64 "$made")
            else
                aarch64-linux-gnu-gcc "${words[@]}" "$source" "$library" -Wl,-rpath,"$folder" -o "$made"
                run=(qemu-aarch64 -L "$(dirname "$(dirname "$(aarch64-linux-gnu-gcc -print-file-name=libc.so.6)")")" "$made")
            fi
            ;;
    esac
}

# The LLVM module of a program that isn't proved, for package/unproved and bench/unproved. To be sourced at the top of the
# repository; a caller sets
#   room  a temporary folder
# and calls `copy`, which leaves the crates in $room/copy, and `module`, which leaves a program's module as text.
#
# `rt try` runs a program without a proof, and has its checks compiled into it: what overflows, is out of bounds or
# can't be reached ends the process by an illegal instruction. Here it gets a kit whose clang keeps the LLVM module of
# the program, in place of compiling it for a run.
# shellcheck shell=bash disable=SC2154

kit=$(dirname "$(rt doc)")
clang=("$kit/toolchain/bin/clang" --target=x86_64-unknown-linux-gnu -ffunction-sections -fdata-sections)

# The crates, in a folder of their own.
copy() {
    mkdir "$room/copy"
    tar --create --no-wildcards-match-slash --exclude='crates/*/out' crates crates.txt HANDLES |
        tar --extract --directory="$room/copy"
}

# Makes the folder $1 a kit of links, whose clang keeps the module of a program with checks as the file $2, and whose
# checker checks nothing.
kit_of_links() {
    local folder file
    mkdir -p "$1/bin" "$1/toolchain/bin"
    cp "$kit"/bin/{rt,rtlib.py} "$1/bin"
    ln -s "$(type -P false)" "$1/bin/rattle"
    cat > "$1/toolchain/bin/clang" <<EOF
#!/usr/bin/env bash
case " \$* " in
    *" -fsanitize=address "*)
        for word; do case \$word in *.bc) cp "\$word" "$2" ;; esac; done
        exit 1
        ;;
esac
exec "$kit/toolchain/bin/clang" "\$@"
EOF
    chmod 755 "$1/toolchain/bin/clang"
    for folder in . bin toolchain toolchain/bin; do
        for file in "$kit/$folder"/*; do
            [ -e "$1/$folder/${file##*/}" ] || ln -s "$file" "$1/$folder"
        done
    done
}

# The LLVM module of a crate as text, as `rt try` has it, without what it fills memory with before it is written.
module() {
    local made=$room/$1
    kit_of_links "$made.kit" "$made.bc"
    (cd "$room/copy/crates/$1" && "$made.kit/bin/rt" try --steps 1 --seconds 1 < /dev/null) > "$made.said" 2>&1 || :
    [ -s "$made.bc" ] || { cat "$made.said" >&2; stop "rt try makes no program of $1"; }
    "${clang[@]}" -S -emit-llvm -O0 -Xclang -disable-llvm-passes "$made.bc" -o - |
        sed -E '/ call void @llvm\.memset\.[a-z0-9.]+\(ptr %r[0-9]+, i8 -86, /d; s/ sanitize_address\b//' > "$made.ll"
}

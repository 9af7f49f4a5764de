# shellcheck shell=bash
# kit.sh: sourced. The kit's compiler and linker, for C beside the static libraries of `rt lib`. Nothing is installed.
#   kit_compile SOURCE OBJECT [WORDS..]    C to an object, compiled as rattle has its own code compiled
#   kit_link PROGRAM OBJECT|ARCHIVE..      a program for x86-64
#   kit_run PROGRAM [WORDS..]              runs it under the kit's loader, with the kit's C library
#   kit_archive                            target/libsneupelaar.a, the library for C, made anew where a source is newer
kit_root=$(cd "$(dirname "${BASH_SOURCE[0]}")/.." && pwd)
kit_home=$(dirname "$(rt doc)")
kit_tools=$kit_home/toolchain

# The target and the words that rattle gives clang for its own code, so that C is compiled alike. The kit has no headers of the C library:
# tools/headers declares what is used here.
kit_flags=(--target=x86_64-unknown-linux-gnu -march=x86-64-v2 -O3 -fPIC -ffunction-sections -fdata-sections --no-default-config -nostdinc
    -isystem "$kit_root/tools/headers" -I "$kit_root/include" -std=c11 -Wall -Wextra -Werror)

kit_compile() {
    local source=$1 object=$2
    shift 2
    mkdir -p "$(dirname "$object")"
    "$kit_tools/bin/clang" "${kit_flags[@]}" "$@" -c "$source" -o "$object"
}

# The linker says what it linked; that is shown only where it fails.
kit_link() {
    local program=$1 said
    shift
    if ! said=$("$kit_home/bin/rattle-link" --target x86_64-unknown-linux-gnu --toolchain "$kit_tools" -o "$program" "$@" 2>&1); then
        echo "$said" >&2
        return 1
    fi
}

# The words before a program: a loader that finds the kit's C library.
kit_words=("$kit_tools/lib/ld-linux-x86-64.so.2" --library-path "$kit_tools/lib")

kit_run() {
    "${kit_words[@]}" "$@"
}

# The crates that export functions to C. The compiler takes a crate's archive as a whole, and makes what two of its functions call a function
# apart; so explaining, which settles, and writing an hour, which searches as settling does, are not in one with settling. Whoever calls only
# some of the functions links only their archive's code.
kit_exporting=(sneupelaar_c explain_c writer_c tenminutes_c)

kit_archive() {
    local archive=$kit_root/target/libsneupelaar.a crate said made=()
    if [ ! -f "$archive" ] || [ -n "$(find "$kit_root/crates.txt" "$kit_root"/crates/*/src -newer "$archive" -print -quit)" ]; then
        echo "proving the library for C and all that it rests on, and making its archive; from nothing this takes some minutes" >&2
        for crate in "${kit_exporting[@]}"; do
            if ! said=$(cd "$kit_root/crates/$crate" && rt lib 2>&1); then
                echo "$said" >&2
                return 1
            fi
            made+=("$kit_root/crates/$crate/out/lib$crate.a")
        done
        mkdir -p "$kit_root/target"
        rm -f "$archive"
        "$kit_tools/bin/llvm-ar" qcL "$archive" "${made[@]}"
    fi
    echo "$archive"
}

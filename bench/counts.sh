# shellcheck shell=bash
# counts.sh: sourced by run and growth. Benches, each with the hand compiled its own way, and what they count. Instructions are counted by
# valgrind. They are counted and not seconds, since a count is the same in every run; the environment is empty, since its size moves the stack, and
# how the C library copies goes by where the stack is.
#   counts_ready                            the archive, the hours, and bench `clang`; ends the script where nothing can be counted
#   counts_build BENCH SHARE COMPILER..     a bench whose hand is compiled by these words, with that share.c
#   counts_former                           bench `former`: as `clang`, with shares by the former method
#   counts_alike BENCH SUBJECT              ends the script where archive and hand don't answer alike: figures would say nothing then
#   counts_of BENCH SUBJECT FUNCTION WHO    the instructions of a round, in that function alone; WHO is rattle or hand
#   counts_stack BENCH SUBJECT WHO          the bytes of stack of a round
#   counts_row TITLE ROUND COUNTS..         a table's row: counts a call, where a round has so many, with commas; the first to the second
counts_here=$(cd "$(dirname "${BASH_SOURCE[0]}")" && pwd)
. "$counts_here/../tools/kit.sh"
counts_made=$kit_root/target/bench
counts_hand=$kit_root/tests/boundary/hand

counts_ready() {
    if ! command -v valgrind > /dev/null; then
        echo "bench: valgrind counts the instructions, and it is not installed" >&2
        exit 2
    fi
    counts_archive=$(kit_archive)
    mkdir -p "$counts_made"
    python3 "$counts_here/hours.py" "$counts_made"
    kit_compile "$counts_here/bench.c" "$counts_made/bench.o" -I "$counts_hand"
    kit_compile "$counts_here/paint.c" "$counts_made/paint.o"
    counts_build clang "$counts_hand/share.c" "$kit_tools/bin/clang" "${kit_flags[@]}"
}

counts_build() {
    local bench=$counts_made/$1 source objects=()
    local sources=("$2" "$counts_hand"/{file,settle,ten_minutes,explain,write_hour,amount}.c)
    shift 2
    mkdir -p "$bench"
    for source in "${sources[@]}"; do
        objects+=("$bench/$(basename "$source" .c).o")
        "$@" -I "$kit_root/include" -I "$counts_hand" -c "$source" -o "${objects[-1]}"
    done
    kit_link "$bench/bench" "${objects[@]}" "$counts_made/bench.o" "$counts_made/paint.o" "$counts_archive"
}

counts_former() {
    counts_build former "$counts_here/former/share.c" "$kit_tools/bin/clang" "${kit_flags[@]}"
}

counts_alike() {
    local rattle by_hand
    rattle=$(kit_run "$counts_made/$1/bench" "$counts_made" "$2" rattle 1)
    by_hand=$(kit_run "$counts_made/$1/bench" "$counts_made" "$2" hand 1)
    if [ "$rattle" != "$by_hand" ]; then
        echo "bench: $2 is answered otherwise by hand ($1)" >&2
        exit 1
    fi
}

counts_of() {
    local function=sneupelaar_$3 words=("$counts_made/$1/bench" "$counts_made" "$2" "$4")
    [ "$4" = rattle ] || function=hand_$3
    env -i "$(command -v valgrind)" --tool=callgrind --callgrind-out-file=/dev/null --toggle-collect="$function" \
        "${kit_words[@]}" "${words[@]}" 1 2>&1 | sed -n 's/.*Collected : //p'
}

counts_stack() {
    kit_run "$counts_made/$1/bench" "$counts_made" "$2" "$3" stack
}

counts_row() {
    local title=$1 round=$2
    shift 2
    awk -v title="$title" -v round="$round" -v counts="$*" '
        function commas(text) {
            while (match(text, /[0-9][0-9][0-9][0-9]($|[.,])/))
                text = substr(text, 1, RSTART) "," substr(text, RSTART + 1)
            return text
        }
        function shown(count) {
            return count == "-" ? count : commas(sprintf(round == 1 ? "%d" : "%.1f", count / round))
        }
        BEGIN {
            printf "| %s |", title
            n = split(counts, each, " ")
            for (i = 1; i <= n; i++) printf " %s |", shown(each[i])
            printf " %.2f |\n", each[1] / each[2]
        }'
}

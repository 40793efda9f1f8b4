#!/bin/sh
# bench/board.sh [LIB.a [BATCHES]]: a board of eight questions beside one run of its chains and the eight evaluations, in instructions, and beside eight times
# `fuse` and a run, in time; on the random map of bench/run.sh. bench/board.c says what is counted.
# Without LIB.a it makes build/libservice.a, which proves first all that it stands on. Needs gcc and, for the instructions, valgrind. Not part of the gate.
set -eu
[ $# = 0 ] || lib=$(realpath "$1")
batches=${2:-101}
cd "$(dirname "$0")/.."
if [ $# = 0 ]; then
    make -s lib
    lib=build/libservice.a
fi
dir=build/bench
mkdir -p "$dir"
# Bound at the start of the program: else the first call of memset would count the search for it.
gcc -std=gnu11 -O3 -Wall -Wextra -Werror -Iinclude bench/board.c bench/samples.c tests/differential/plain.c "$lib" -lm -Wl,-z,now -o "$dir/board"

"$dir/board" agree

echo
if command -v valgrind >/dev/null; then
    # As in run.sh: else callgrind counts every byte that is filled or copied as an instruction.
    tunables=glibc.cpu.x86_rep_stosb_threshold=1000000:glibc.cpu.x86_rep_movsb_threshold=1000000
    echo "Instructions by callgrind"
    GLIBC_TUNABLES=$tunables valgrind --tool=callgrind --toggle-collect=one_call --dump-after=one_call --combine-dumps=yes \
        --callgrind-out-file="$dir/board.out" "$dir/board" once 2>"$dir/valgrind.log" || { cat "$dir/valgrind.log"; exit 1; }
    sed -n 's/^totals: //p' "$dir/board.out" | "$dir/board" counts
else
    echo "No instructions: valgrind is missing (on Debian: apt-get install valgrind)."
fi

echo
echo "Microseconds, the least of $batches batches"
"$dir/board" times "$batches"

#!/bin/sh
# bench/run.sh [LIB.a [BATCHES]]: the library beside plain C on six questions and four maps: that all give the same bytes, then instructions, then times.
# Without LIB.a it makes build/libgrafs.a, which proves first all that it stands on: minutes, but for what is proved already.
# Needs gcc and, for the instructions, valgrind. The program stays in build/bench. Not part of the gate; docs/BENCHMARKS.md says what the columns are.
set -eu
[ $# = 0 ] || lib=$(realpath "$1")
batches=${2:-101}
cd "$(dirname "$0")/.."
if [ $# = 0 ]; then
    make -s lib
    lib=build/libgrafs.a
fi
dir=build/bench
mkdir -p "$dir"
# Bound at the start of the program: else the first call of memset would count the search for it.
gcc -std=gnu11 -O3 -Wall -Wextra -Werror -Iinclude bench/bench.c bench/by_hand.c bench/desk.c bench/samples.c tests/differential/plain.c "$lib" \
    -lm -Wl,-z,now -o "$dir/bench"

echo "$(gcc --version | head -n 1), -O3;$(grep -m 1 'model name' /proc/cpuinfo | cut -d : -f 2); load average before the run $(cut -d ' ' -f 1 /proc/loadavg)"
echo
"$dir/bench" agree

echo
if command -v valgrind >/dev/null; then
    # Without this the C library fills and copies by `rep stosb` and `rep movsb`, and callgrind counts every byte as an instruction.
    tunables=glibc.cpu.x86_rep_stosb_threshold=1000000:glibc.cpu.x86_rep_movsb_threshold=1000000
    echo "Instructions of one call by callgrind; desk, fused and push in parts of run: above 1, run needs fewer"
    GLIBC_TUNABLES=$tunables valgrind --tool=callgrind --toggle-collect=one_call --dump-after=one_call --combine-dumps=yes \
        --callgrind-out-file="$dir/callgrind.out" "$dir/bench" once 2>"$dir/valgrind.log" || { cat "$dir/valgrind.log"; exit 1; }
    sed -n 's/^totals: //p' "$dir/callgrind.out" | "$dir/bench" counts
else
    echo "No instructions: valgrind is missing (on Debian: apt-get install valgrind)."
fi

echo
echo "Microseconds of one call, the least of $batches batches; desk, fused and push in parts of run: above 1, run is faster"
"$dir/bench" times "$batches"

#!/bin/sh
# bench/sort.sh [LIB.a [RUNS [CALLS]]]: grafs_sort_map, bytes to bytes, beside qsort of the same rows, on six orders of 64 and of 1,024 rows. bench/sort.c says
# what is timed. Without LIB.a it makes build/libservice.a, which proves first all that it stands on. Needs gcc. Not part of the gate.
set -eu
[ $# = 0 ] || lib=$(realpath "$1")
runs=${2:-9}
calls=${3:-2000}
cd "$(dirname "$0")/.."
if [ $# = 0 ]; then
    make -s lib
    lib=build/libservice.a
fi
dir=build/bench
mkdir -p "$dir"
gcc -std=gnu11 -O3 -Wall -Wextra -Werror -Iinclude bench/sort.c "$lib" -lm -o "$dir/sort"

"$dir/sort" agree

echo
echo "Microseconds, the least of $runs runs of $calls calls each, the copy of the input among them; $(ldd --version | head -n 1)"
"$dir/sort" times "$runs" "$calls"

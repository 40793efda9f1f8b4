#!/bin/sh
# bench/ratio.sh OLD.a NEW.a [BATCHES]: microseconds of `run` in NEW.a, and of that in OLD.a in parts of them, in turn in one process.
# Above 1 the new one is faster. Answers are not compared: a rule may have changed between the two.
set -eu
old=$(realpath "${1:?old archive}")
new=$(realpath "${2:?new archive}")
cd "$(dirname "$0")/.."
dir=build/bench
mkdir -p "$dir"
objcopy --redefine-sym run=old_run --redefine-sym fuse=old_fuse "$old" "$dir/old.a"
gcc -std=gnu11 -O3 -Wall -Wextra -Werror -Iinclude bench/bench.c bench/by_hand.c bench/desk.c bench/samples.c tests/differential/plain.c "$new" \
    -Wl,-u,old_run "$dir/old.a" -lm -Wl,-z,now -o "$dir/ratio"
"$dir/ratio" ratio "${3:-101}"

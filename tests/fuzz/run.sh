#!/bin/sh
# tests/fuzz/run.sh SECONDS [SEED]: fuzzes the exported calls for so long, from the seeds of seeds.py; the last line is a count of calls.
# An input at which a check fails is left in build/fuzz/found, and the status is not 0. Not part of the gate.
set -eu
cd "$(dirname "$0")/../.."
seconds=${1:?seconds}
seed=${2:-1}
tests/fuzz/install.sh
make -s lib
work=build/fuzz
mkdir -p "$work/corpus" "$work/found"
python3 tests/fuzz/seeds.py "$work/seeds"
clang-14 -std=c11 -O2 -g -Wall -Wextra -Werror -fsanitize=fuzzer,address,undefined -fno-sanitize-recover=all -Iinclude \
    tests/fuzz/fuzz.c build/libservice.a -o "$work/fuzz"
# -timeout: a call that does not end is a finding too
exec "$work/fuzz" -max_total_time="$seconds" -seed="$seed" -max_len=18600 -len_control=20 -timeout=10 -print_final_stats=1 -verbosity=1 \
    -dict=tests/fuzz/words.dict -artifact_prefix="$work/found/" "$work/corpus" "$work/seeds"

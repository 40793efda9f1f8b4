#!/bin/sh
# tests/differential/run.sh CASES [FIRST]: the archive of all calls against the plain implementation on so many random cases, from a fixed seed.
# The last line is 'N cases, 0 differences'; a difference stops it, is printed in hexadecimal, and the status is 1. Not part of the gate.
set -eu
cd "$(dirname "$0")/../.."
cases=${1:?cases}
make -s lib
dir=$(mktemp -d)
trap 'rm -rf "$dir"' EXIT
gcc -std=gnu11 -O2 -g -Wall -Wextra -Werror -fsanitize=address,undefined -fno-sanitize-recover=all -Iinclude \
    tests/differential/driver.c tests/differential/plain.c build/libservice.a -o "$dir/driver"
"$dir/driver" "$cases" "${2:-0}"

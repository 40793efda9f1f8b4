#!/bin/sh
# Installs what the fuzz harness needs: clang with libFuzzer and the sanitizers' libraries, from Debian's packages. Nothing where it is there.
set -eu
dir=$(mktemp -d)
trap 'rm -rf "$dir"' EXIT

fuzzes() {
    echo '#include <stddef.h>
          int LLVMFuzzerTestOneInput(const unsigned char *p, size_t n) { (void)p, (void)n; return 0; }' >"$dir/try.c"
    clang-14 -fsanitize=fuzzer,address,undefined "$dir/try.c" -o "$dir/try" && "$dir/try" -runs=1
}

if ! fuzzes >/dev/null 2>&1; then
    apt-get update
    apt-get install -y --no-install-recommends clang-14 libclang-rt-14-dev libc6-dev
    fuzzes >/dev/null 2>&1 || { echo "clang-14 has no libFuzzer" >&2; exit 2; }
fi

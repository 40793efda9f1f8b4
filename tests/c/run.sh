#!/bin/sh
# The C tests: the exported calls of both archives, the builders and readers of grafs_build.h as C and as C++, what the headers say of stack and threads, a
# program with a `run` of its own, the examples against their stored output, the C in the pages, what the archives hold, and an installed copy. The last line
# is 'N passed, M failed'.
set -u
cd "$(dirname "$0")/../.." || exit 2
dir=$(mktemp -d) || exit 2
trap 'rm -rf "$dir"' EXIT
lib=build/libgrafs.a
prefixed=build/libgrafs_prefixed.a
served=build/libservice.a
cases='crates/cases/data/cases.bin crates/cases/data/runs.bin'
passed=0
failed=0

check() { # NAME COMMAND..
    name=$1
    shift
    if "$@"; then
        passed=$((passed + 1))
    else
        echo "failed: $name"
        failed=$((failed + 1))
    fi
}

warnings='-Wall -Wextra -Wpedantic -Wconversion -Wshadow -Werror -Iinclude'
c() { gcc -std=c11 $warnings "$@"; }
cxx() { g++ -std=c++11 -x c++ $warnings "$@"; }
sanitize='-g -fsanitize=address,undefined -fno-sanitize-recover=all'

calls() { c -O2 tests/c/test.c "$lib" -o "$dir/test" && "$dir/test"; }
calls_sanitized() { c $sanitize tests/c/test.c "$lib" -o "$dir/test" && "$dir/test"; }
builders() { c -O2 tests/c/build.c "$lib" -o "$dir/build" && "$dir/build" $cases; }
builders_sanitized() { c $sanitize tests/c/build.c "$lib" -o "$dir/build" && "$dir/build" $cases; }
builders_in_cxx() { cxx $sanitize tests/c/build.c -x none "$lib" -o "$dir/build" && "$dir/build" $cases; }
limits() { c -O2 tests/c/limits.c "$lib" -pthread -o "$dir/limits" && "$dir/limits"; }
limits_served() { c -O2 -DSERVICE tests/c/limits.c "$served" -pthread -o "$dir/limits" && "$dir/limits"; }
calls_served() { c -O2 tests/c/test.c "$served" -o "$dir/test" && "$dir/test" && c -O2 tests/c/service.c "$served" -o "$dir/test" && "$dir/test"; }
calls_served_sanitized() { c $sanitize tests/c/service.c "$served" -o "$dir/test" && "$dir/test"; }
own_names() { c -O2 -DGRAFS_PREFIXED tests/c/own_names.c "$prefixed" -o "$dir/own" && "$dir/own"; }
own_names_in_cxx() { cxx -O2 -DGRAFS_PREFIXED tests/c/own_names.c -x none "$prefixed" -o "$dir/own" && "$dir/own"; }
service() { c -O2 examples/service.c "$lib" -o "$dir/service" && "$dir/service" | diff - examples/service.out; }

# The C in a page, as it stands there: the README's as a program, what docs/FORMATS.md declares beside the header.
c_of() { sed -n '/^```c$/,/^```$/p' "$1" | grep -v '^```'; }
pages() {
    { printf '#include <stdio.h>\n#include "grafs_build.h"\n#include "grafs_service.h"\nint main(void)\n{\n'; c_of README.md; echo '}'; } >"$dir/readme.c"
    { echo '#include "grafs_service.h"'; c_of docs/FORMATS.md; echo 'int main(void) { return fuse(NULL, 0, NULL, 0) != GRAFS_REFUSAL + 1; }'; } \
        >"$dir/formats.c"
    c "$dir/readme.c" "$served" -o "$dir/readme" && "$dir/readme" && c "$dir/formats.c" "$served" -o "$dir/formats" && "$dir/formats"
}

# The files that the example writes are those on which the program is tried.
files() {
    c -O2 examples/files.c -o "$dir/files" && (cd "$dir" && ./files) &&
        cmp "$dir/question.lpq" crates/grafs_main/data/question.lpq && cmp "$dir/map.lpm" crates/grafs_main/data/map.lpm
}

# Each way of a run, of a worksheet and of a board, counted and not: sixteen of the seventeen names behind `fuse` and `run`.
sixteen() { for of in '' counted_ board_ counted_board_; do for way in pull push; do echo "Tgrafs_$of$way" "Tgrafs_$of${way}_rounds"; done; done; }
in_order() { printf '%s\n' "$@" | sort | tr '\n' ' '; }

# exported ARCHIVE NAMES: just these functions, in the order of `sort`; nothing that can be written, and no function but three is asked for.
exported() { nm "$1" | awk 'NF == 3 && $2 ~ /[A-Z]/ { print $2 $3 }' | sort | tr '\n' ' ' | grep -qx "$2"; }
asked_for() { ! nm -u "$1" | awk '$1 == "U" { print $2 }' | grep -vx -e memcpy -e memmove -e memset; }
no_data() { ! size -A "$1" | awk '$2 > 0' | grep -E '^\.(data|bss|tdata|tbss)'; }

# An installed copy, used elsewhere by its pkg-config files.
flags() { PKG_CONFIG_PATH="$dir/usr/lib/pkgconfig" pkg-config --cflags --libs "$1"; }
elsewhere() {
    gcc service.c $(flags grafs) -o service && gcc own_names.c $(flags grafs_prefixed) -o own && ./own && gcc calls.c $(flags grafs_service) -o calls && ./calls
}
installed() {
    make -s install PREFIX="$dir/usr" >"$dir/log" 2>&1 || { cat "$dir/log"; return 1; }
    mkdir "$dir/far" && cp examples/service.c tests/c/own_names.c tests/c/check.h "$dir/far" && cp tests/c/service.c "$dir/far/calls.c" &&
        (cd "$dir/far" && elsewhere) && "$dir/far/service" | diff - examples/service.out
}

make -s lib || exit 1
check 'the calls' calls
check 'the calls under the sanitizers' calls_sanitized
check 'the builders' builders
check 'the builders under the sanitizers' builders_sanitized
check 'the builders in C++' builders_in_cxx
check 'stack, threads, the longest question' limits
check 'the calls of the service' calls_served
check 'the calls of the service under the sanitizers' calls_served_sanitized
check 'stack, threads, the longest board' limits_served
check 'a program with a run of its own' own_names
check 'a program with a run of its own, in C++' own_names_in_cxx
check 'the example service' service
check 'the example that writes files' files
check 'the C in the pages' pages
check 'exactly two functions are exported' exported "$lib" 'Tfuse Trun '
check 'exactly two functions are exported, by their other names' exported "$prefixed" 'Tgrafs_fuse Tgrafs_run '
check 'exactly nineteen functions are exported by the service' exported "$served" "$(in_order Tfuse Trun Tgrafs_sort_map $(sixteen))"
check 'nothing but memcpy, memmove and memset is asked for' asked_for "$lib"
check 'nothing but these is asked for by the service' asked_for "$served"
check 'the archive has no data that can be written' no_data "$lib"
check 'the archive of the service has no data that can be written' no_data "$served"
check 'an installed copy' installed
echo "$passed passed, $failed failed"
[ "$failed" = 0 ]

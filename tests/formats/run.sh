#!/bin/sh
# tests/formats/run.sh [PAGE]: the examples of docs/FORMATS.md (or of PAGE) are run against the library, and the constants in its tables compared
# with include/grafs.h and include/grafs_service.h, all of which must be there. With GRAFS_LIB set that archive, of all calls, is taken as it is.
# The last line is 'N passed, M failed', by calls and constants.
set -u
page=${1:+$(realpath "$1")} || exit 2
lib=${GRAFS_LIB:+$(realpath "$GRAFS_LIB")} || exit 2
cd "$(dirname "$0")/../.." || exit 2
page=${page:-docs/FORMATS.md}
dir=$(mktemp -d) || exit 2
trap 'rm -rf "$dir"' EXIT
if [ -z "$lib" ]; then
    make -s lib || exit 1
    lib=build/libservice.a
fi
LC_ALL=C awk -f tests/formats/page.awk include/grafs.h include/grafs_service.h "$page" >"$dir/page.inc" || exit 1
gcc -std=c11 -Wall -Wextra -Werror -Iinclude -I"$dir" tests/formats/check.c "$lib" -o "$dir/check" || exit 1
"$dir/check"

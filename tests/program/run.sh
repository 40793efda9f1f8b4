#!/bin/bash
# The program on stored questions and maps: its whole output, byte for byte, in a folder that has nothing else.
# Bytes are written in hexadecimal; what is expected is written by hand from documents 01 and 02. The last line is 'N passed, M failed'.
set -eu
cd "$(dirname "$0")/../.."
make -s program
program=$PWD/build/grafs_main
dir=$(mktemp -d)
trap 'rm -rf "$dir"' EXIT
cases=0
differences=0

# The bytes of a line of hexadecimal digits; blanks part them as they like.
bytes() { local h=${1//[[:space:]]/}; printf "$(sed 's/../\\x&/g' <<<"$h")"; }

# A text so many times.
times() { local i; for ((i = 0; i < $1; i++)); do printf %s "$2"; done; }

# A question or a map for a case: hexadecimal digits, `missing` for none, `folder` for what opens and cannot be read.
put() {
    case $2 in
    missing) ;;
    folder) mkdir "$1" ;;
    *) bytes "$2" >"$1" ;;
    esac
}

# try NAME QUESTION MAP LINE..
try() {
    local name=$1 question=$2 map=$3
    shift 3
    rm -rf "$dir/at"
    mkdir "$dir/at"
    put "$dir/at/question.lpq" "$question"
    put "$dir/at/map.lpm" "$map"
    printf '%s\n' "$@" >"$dir/expected"
    cases=$((cases + 1))
    if (cd "$dir/at" && "$program" >"$dir/output" 2>&1) && cmp -s "$dir/expected" "$dir/output"; then
        return
    fi
    differences=$((differences + 1))
    echo "differs: $name"
    diff "$dir/expected" "$dir/output" | head -10 || true
}

# ---------------------------------------------------------------------------------------------- questions and maps
each='4c5051 0100 00'   # a value at each place
one='4c5051 0100 01'    # one result
seconds="$each 10 01 02 0000"
wrong_order="$each 10 02 05 02 0000"   # keys 5,2
plus='12 03'
sixteen='10 0000 0100 0200 0300 0400 0500 0600 0700 0800 0900 0a00 0b00 0c00 0d00 0e00 0f00'
chain="13 03 020205 $sixteen"          # a term of the greatest length, 38 bytes
apply() { echo "22 0$1 $2 $3"; }       # an operator and two result terms
most='21 ffffffff'                     # the greatest literal

# An odd number of place terms in a tree of little depth.
tree() {
    local left=$((($1 - 1) / 2 | 1))
    if [ "$1" = 1 ]; then
        echo "$chain"
    else
        echo "$plus $(tree $left) $(tree $(($1 - 1 - left)))"
    fi
}

# Map A: 0→1 5 s size 10; 0→2 2 s size 4; 2→1 3 s size 20; 1→3 0 s size 7.
map_a='4c504d 0100 0400 0400  0000 0100 0500 0a00  0000 0200 0200 0400  0200 0100 0300 1400  0100 0300 0000 0700'
loop='4c504d 0100 0100 0100  0000 0000 0100 0300'                          # one place, self-passage size 3
alone='4c504d 0100 0100 0000'
back='4c504d 0100 0200 0200  0000 0100 0100 0900  0100 0000 0100 0200'     # 0→1 size 9, 1→0 size 2
bad_map='4c5058 0100 0100 0000'                                            # the third letter differs
apart='4c504d 0100 1000 0000'                                              # 16 places, no passage
widest='4c504d 0100 0001 0000'                                             # 256 places, no passage
fullest="4c504d 0100 0100 0004 $(times 1024 '0000 0000 0100 0300')"        # 1,024 passages: 8,201 bytes

# ---------------------------------------------------------------------------------------------- the marked trials
try 'seconds from 0' "$seconds" "$map_a" 'rounds 3' '0 0' '1 5' '2 2' '3 5'
try 'keys 2,5 from 0' "$each 10 02 0205 0000" "$map_a" 'rounds 3' '0 65535' '1 10' '2 4' '3 7'
try 'keys 2,6 from 0' "$each 10 02 0206 0000" "$map_a" 'rounds 4' '0 65535' '1 4' '2 4' '3 4'
try 'key 6 from 0' "$each 10 01 06 0000" "$map_a" 'rounds 4' '0 65535' '1 4' '2 4' '3 4'
try 'absent rows: key 1 from 3' "$each 10 01 01 0300" "$map_a" 'rounds 1' '0 -' '1 -' '2 -' '3 0'
try 'key 6 at a self-passage' "$each 10 01 06 0000" "$loop" 'rounds 2' '0 3'
try 'key 6 with no passage' "$each 10 01 06 0000" "$alone" 'rounds 1' '0 65535'
try 'key 6 there and back' "$each 10 01 06 0000" "$back" 'rounds 4' '0 2' '1 2'
try 'keys 5,2' "$wrong_order" "$map_a" 'refused 10'
try 'one result: greatest of key 1' "$one 20 02 10 01 01 0000" "$map_a" 'rounds 3' 'result 2'

# ---------------------------------------------------------------------------------------------- rows
try 'no chain' "$each 11 07000000" "$alone" 'rounds 1' '0 7'
try 'a result that is absent: 1 - 2' "$one $(apply 4 '21 01000000' '21 02000000')" "$alone" 'rounds 1' 'result -'
# (2^32 - 1) * (2^32 - 1) + ((2^32 - 1) + (2^32 - 1)) = 2^64 - 1
try 'the greatest number' "$one $(apply 3 "$(apply 5 "$most" "$most")" "$(apply 3 "$most" "$most")")" "$alone" \
    'rounds 1' 'result 18446744073709551615'
mapfile -t itself < <(for ((i = 0; i < 256; i++)); do echo "$i $i"; done)
try '256 places, each its own start' "$each 10 01 03 ffff" "$widest" 'rounds 1' "${itself[@]}"
try '1,024 passages' "$each 10 01 06 0000" "$fullest" 'rounds 2' '0 3'

# ---------------------------------------------------------------------------------------------- only the places that matter
from_0='10 01 02 0000'
beyond() { echo "12 09 $from_0 11 0${1}000000"; }   # more than so many seconds from 0
try 'the sum beyond 2 seconds' "$one 23 03 $(beyond 2) $from_0" "$map_a" 'rounds 3' 'result 10'
try 'the largest beyond 2 seconds' "$one 23 02 $(beyond 2) $from_0" "$map_a" 'rounds 3' 'result 5'
try 'the largest beyond 9 seconds' "$one 23 02 $(beyond 9) $from_0" "$map_a" 'rounds 3' 'result -'
try 'key 1 from 2 as condition: absent, 1, 0, 2' "$one 23 03 10 01 01 0200 12 03 $from_0 11 01000000" "$map_a" 'rounds 3' 'result 12'
try 'a condition at each place' "$each 23 03 $(beyond 2) $from_0" "$map_a" 'refused 9'
try 'a condition and no value' "$one 23 03 $(beyond 2)" "$map_a" 'refused 1'
try 'reduction 131 with a condition' "$one 23 83 $(beyond 2) $from_0" "$map_a" 'refused 9'

# ---------------------------------------------------------------------------------------------- from any of our counters
set="$each 13 01 02"                   # seconds, and a set is due
try 'seconds from 0 or 2' "$set 02 0000 0200" "$map_a" 'rounds 3' '0 0' '1 3' '2 0' '3 3'
try 'seconds from 1 or 2' "$set 02 0100 0200" "$map_a" 'rounds 2' '0 -' '1 0' '2 0' '3 0'
try 'the nearer of 0 and 2' "$each 13 02 0203 02 0000 0200" "$map_a" 'rounds 3' '0 0' '1 2' '2 2' '3 2'
try 'a set of one' "$set 01 0000" "$map_a" 'rounds 3' '0 0' '1 5' '2 2' '3 5'
try 'key 6 there and back, from both' "$each 13 01 06 02 0000 0100" "$back" 'rounds 3' '0 2' '1 2'
try 'one result: the farthest from 0 or 2' "$one 20 02 13 01 02 02 0000 0200" "$map_a" 'rounds 3' 'result 3'
try '16 starts, each its own' "$each 13 01 04 $sixteen" "$apart" 'rounds 1' "${itself[@]:0:16}"
try 'no start' "$set 00" "$map_a" 'refused 9'
try '17 starts' "$set 11${sixteen#10} 1000" "$widest" 'refused 9'
try 'no set count' "$set" "$map_a" 'refused 1'
try 'half a start' "$set 02 0000 02" "$map_a" 'refused 1'
try '256 in a set' "$set 02 0000 0001" "$widest" 'refused 13'
try 'anywhere in a set' "$set 02 0000 ffff" "$map_a" 'refused 13'
try 'a start of a set that the map has not' "$set 02 0300 0400" "$map_a" 'refused 13'
try 'equal starts' "$set 02 0200 0200" "$map_a" 'refused 17'
try 'starts that fall, and a bad map' "$set 03 0000 0200 0100" "$bad_map" 'refused 17'
try 'a question of version 2' "4c5051 0200 00 13 01 02 02 0000 0200" "$map_a" 'refused 3'
try 'a map of version 2' "$set 02 0000 0200" '4c504d 0200 0100 0000' 'refused 3'
try 'a set of one less 0x10' "$each 12 04 13 01 02 01 0000 $from_0" "$map_a" 'rounds 3' '0 0' '1 0' '2 0' '3 0'
try 'what the second start saves' "$one 20 03 12 04 $from_0 13 01 02 02 0000 0200" "$map_a" 'rounds 3' 'result 6'

# ---------------------------------------------------------------------------------------------- one counter cut off
from_3='10 01 02 0300'                 # absent, absent, absent, 0
nothing='12 04 11 00000000 11 01000000'
try 'the lesser from 0 or 3' "$each 12 01 $from_0 $from_3" "$map_a" 'rounds 3' '0 0' '1 5' '2 2' '3 0'
try 'the lesser from 3 or 0' "$each 12 01 $from_3 $from_0" "$map_a" 'rounds 3' '0 0' '1 5' '2 2' '3 0'
try 'the greater from 0 or 3' "$each 12 02 $from_0 $from_3" "$map_a" 'rounds 3' '0 0' '1 5' '2 2' '3 5'
try 'the greater from 3 or nowhere' "$each 12 02 $from_3 $nothing" "$map_a" 'rounds 1' '0 -' '1 -' '2 -' '3 0'
try 'the sum from 0 and 3' "$each 12 03 $from_0 $from_3" "$map_a" 'rounds 3' '0 -' '1 -' '2 -' '3 5'
try 'the lesser of a sum over none and one over all' "$one 22 01 23 03 11 00000000 $from_0 20 03 $from_0" "$map_a" 'rounds 3' 'result 12'

# ---------------------------------------------------------------------------------------------- files, and the order of judging
try 'no question' missing "$map_a" 'refused 1'
try 'no map' "$seconds" missing 'refused 1'
try 'neither' missing missing 'refused 1'
try 'a question of no bytes' '' "$map_a" 'refused 1'
try 'a question that cannot be read' folder "$map_a" 'refused 1'
try 'a map that cannot be read' "$seconds" folder 'refused 1'
try 'a bad map' "$seconds" "$bad_map" 'refused 2'
try 'a bad question and a bad map' "$wrong_order" "$bad_map" 'refused 10'
try 'a bad question and no map' "$wrong_order" missing 'refused 10'
try 'a bad question with a start that the map has not' "$each 10 02 0502 0400" "$map_a" 'refused 10'
try 'a start that the map has not' "$each 10 01 02 0400" "$map_a" 'refused 13'
try 'a bad map and a start that it has not' "$each 10 01 02 0400" "$bad_map" 'refused 2'

# ---------------------------------------------------------------------------------------------- longer files than any legal one
long=$(times 6000 00)
try 'the longest question' "$one 20 01 $(tree 63)" "$apart" 'rounds 1' 'result 2097120' # 32 times 65,535
try 'the longest question and 1 byte' "$one 20 01 $(tree 63) 00" "$apart" 'refused 6'
try 'a question and 1 byte' "$seconds 00" "$map_a" 'refused 6'
try 'a question and 6,000 bytes' "$seconds $long" "$map_a" 'refused 6'
try '63 terms and 6,000 bytes' "$each $(tree 63) $long" "$map_a" 'refused 6'
try '65 terms and 6,000 bytes' "$each $(tree 65) $long" "$map_a" 'refused 12'
try '64 terms, and a byte where the 65th is due' "$each $plus $(tree 63) ff" "$map_a" 'refused 12'
try '64 terms, and nothing where the 65th is due' "$each $plus $(tree 63)" "$map_a" 'refused 1'
try 'depth 17 and 6,000 bytes' "$each $(times 16 "$plus ") $chain $long" "$map_a" 'refused 11'
try '6,000 bytes of no question' "$long" "$map_a" 'refused 2'
# The longest question: 32 chains of three keys and 16 starts. On a map of no passages each is 65,535 at 16 places: 16 * 32 * 65,535.
longest="$one 20 03 $(chain="13 03 020205 10 $(printf '%02x00 ' {0..15})"; tree 63)"
try 'the longest question' "$longest" "$widest" 'rounds 1' 'result 33553920'
try 'the longest question and 1 byte' "$longest 00" "$widest" 'refused 6'
try 'the longest question and 6,000 bytes' "$longest $long" "$widest" 'refused 6'
try '1,024 passages and 1 byte' "$seconds" "$fullest 00" 'refused 6'
try '1,024 passages and 70,000 bytes' "$seconds" "$fullest $(times 70000 00)" 'refused 6'
try '1,025 passages' "$seconds" "${fullest/0100 0004/0100 0104} 0000 0000 0100 0300" 'refused 5'
try 'a map of 70,000 bytes that has 1 place and no passage' "$seconds" "$alone $(times 70000 00)" 'refused 6'

echo "$((cases - differences)) passed, $differences failed"
[ "$differences" = 0 ]

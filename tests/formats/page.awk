# docs/FORMATS.md as calls of C functions (check.c): each example and each constant in a table, in their order, with its line.
# awk -f page.awk include/grafs.h include/grafs_service.h docs/FORMATS.md
function quoted(s) { gsub(/["\\]/, "", s); return "\"" s "\"" }
function wrong(line, why) { printf "wrong(%d, %s);\n", line, quoted(why) }

# The bytes of a name as C, counted; `known` says so before.
function known(name) { used[name] = 1; if (name in list) return 1; wrong(FNR, "no bytes have the name " name); return 0 }
function bytes(name) { return "(bytes){ (const uint8_t[]){ " list[name] "0 }, " count[name] + 0 " }" }

# A line of a block `bytes`: NAME = HEX.., or indented bytes that go on. A name stands for its bytes.
function define(    i) {
    i = 1
    if ($2 == "=") {
        if ($1 !~ /^[A-Z][A-Z0-9_][A-Z0-9_]+$/ || $1 in list) wrong(FNR, "no new name of three or more letters: " $1)
        name = $1; at[name] = FNR; list[name] = ""; i = 3
    } else if ($0 !~ /^ / || name == "") wrong(FNR, "neither a name and = nor more bytes of one: " $0)
    for (; i <= NF; i++)
        if ($i ~ /^[0-9A-F][0-9A-F]$/) { list[name] = list[name] "0x" $i ", "; count[name]++ }
        else if (known($i)) { list[name] = list[name] list[$i]; count[name] += count[$i] }
}

# A line of a block `calls`.
function call(    line, i, kind, alone, rounds, lent, refused, want) {
    $1 = $1; line = $0
    if (line !~ /^((fuse|sort) [A-Z0-9_]+|(run|board) [A-Z0-9_]+ [A-Z0-9_]+( rounds [0-9]+)?)( lent [0-9]+)? -> ([A-Z0-9_]+|refused [1-9][0-9]*)$/)
        return wrong(FNR, "no call: " line)
    kind = $1; alone = kind == "fuse" || kind == "sort"; rounds = "QUIET"; lent = most[kind]
    i = alone ? 3 : 4
    if ($i == "rounds") { rounds = $(i + 1); i += 2 }
    if ($i == "lent") { lent = $(i + 1); i += 2 }
    refused = $(i + 1) == "refused" ? $(i + 2) : 0
    want = refused ? "" : $(i + 1)
    if (!known($2) || (!alone && !known($3)) || (!refused && !known(want))) return
    calls++
    printf "call(%d, %s, %s, %s, ", FNR, quoted(line), toupper(kind), bytes($2)
    printf "%s, %s, %s, %s, %s);\n", bytes(alone ? "" : $3), rounds, lent, refused, bytes(want)
}

# A row of a table that has a constant in a cell of its own: its value is in the first cell.
function row(    cell, n, i, value) {
    n = split($0, cell, /[ `]*\|[ `]*/)
    value = cell[2]
    gsub(/,/, "", value)
    for (i = 3; i < n; i++)
        if (cell[i] ~ /^GRAFS_[A-Z_]+$/) {
            listed[cell[i]] = 1
            if (!(cell[i] in constant)) wrong(FNR, "not in the header: " cell[i])
            else if (value !~ /^(0x[0-9A-F]+|[0-9]+)$/) wrong(FNR, "no value in the first cell: " $0)
            else printf "constant(%d, \"%s\", %s, %s);\n", FNR, cell[i], cell[i], value
        }
}

BEGIN { most["fuse"] = "GRAFS_WORKSHEET_MAX"; most["run"] = "GRAFS_ANSWER_MAX"; most["board"] = "GRAFS_BOARD_ANSWERS_MAX"; most["sort"] = "GRAFS_MAP_MAX" }
FILENAME ~ /\.h$/ { if (/^#define GRAFS_[A-Z_]+ [0-9]/) constant[$2] = 1; else if (/^ *GRAFS_[A-Z_]+ = [0-9]/) constant[$1] = 1; next }
/^```/ { block = block == "" ? substr($0, 4) " " : ""; name = ""; next }
block == "" && /^\|/ { row() }
block == "bytes " || block == "calls " { sub(/#.*/, ""); if (NF) { if (block == "bytes ") define(); else call() } }
END {
    if (block != "") wrong(FNR, "a block has no end")
    if (!calls) wrong(FNR, "no calls")
    for (n in at) if (!(n in used)) wrong(at[n], "bytes that no line uses: " n)
    for (c in constant) if (!(c in listed)) wrong(FNR, "in no table: " c)
}

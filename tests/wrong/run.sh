#!/bin/sh
# Wrong variants of definitions and of code, and the check that refuses each (docs/RULED_OUT.md, "What rules what out"). Not part of the gate;
# crates/CRATE/must-fail has those that are.
#
#   tests/wrong/run.sh [CRATE | CRATE/LABEL]..      all, or those of some crates, or some
#
# CRATE.edits has a paragraph for each: a comment (what is wrong), 'edit: LABEL', and a must-fail edit's lines; these may also mend the text of a proof whose
# law stays true, so that the check comes to one that does not. Each is applied to a copy of the repository. The crate itself is checked ('rt check', which
# begins with what was kept of the crate as it is), and while all is proved the crates that stand on it, up the layers, to the first that refuses. A variant
# that the check cannot read counts for nothing: BAD EDIT. RT is the command in place of 'rt'. Logs stand in target/wrong/CRATE; the copy stands in TMPDIR
# and is removed at the end, since 'rt ci' takes no crates.txt below the top.
set -u
here=$(cd "$(dirname "$0")" && pwd -P)
root=$(cd "$here/../.." && pwd -P)
rt=${RT:-rt}
work=$(mktemp -d) || exit 2
trap 'rm -rf "$work"' EXIT
trap 'exit 2' HUP INT TERM
# their contracts cite no definition of the project
tests='cases random_tests'

# crates in the order of crates.txt, each behind what it stands on: "NAME DEP DEP .."
layers=$(awk '
    { sub(/#.*/, "") } /^[ \t]*$/ { next }
    { i = index($0, ":"); n = substr($0, 1, i - 1); sub(/[ \t].*/, "", n); deps[n] = substr($0, i + 1); list[++count] = n }
    function visit(n,    a, k, m) {
        if (n in seen) return
        seen[n] = 1; m = split(deps[n], a, " ")
        for (k = 1; k <= m; k++) if (a[k] in deps) visit(a[k])
        print n " " deps[n]
    }
    END { for (k = 1; k <= count; k++) visit(list[k]) }' "$root/crates.txt")

# the crate, and those that stand on it, up the layers
reached() { # CRATE
    printf '%s\n' "$layers" | awk -v c="$1" -v tests="$tests" '
        BEGIN { m = split(tests, t, " "); for (k = 1; k <= m; k++) skip[t[k]] = 1 }
        $1 == c { in_[$1] = 1; print $1; next }
        { for (k = 2; k <= NF; k++) if ($k in in_) { in_[$1] = 1; if (!($1 in skip)) print $1; next } }'
}

# one paragraph of a file, by its label
paragraph() { awk -v RS= -v label="$2" '{ n = split($0, l, "\n"); for (k = 1; k <= n; k++) if (l[k] == "edit: " label) print $0 }' "$1"; }

# applies the edits on standard input to the crate at $1; says what is wrong with them
apply() { # CRATE-FOLDER
    f='' old='' pairs=0
    while IFS= read -r line || [ -n "$line" ]; do
        case $line in
        'file: '*) f=${line#file: } ;;
        'old: '*) old=${line#old: } ;;
        'new:'*)
            new=${line#new:}
            new=${new# }
            [ -f "$1/$f" ] || { echo "no file $f"; return; }
            OLD=$old NEW=$new awk '
                { text = text $0 "\n" }
                END {
                    old = ENVIRON["OLD"]; new = ENVIRON["NEW"]
                    at = index(text, old)
                    if (old == "" || !at) exit 3
                    rest = substr(text, at + length(old))
                    if (index(rest, old)) exit 4
                    printf "%s%s%s", substr(text, 1, at - 1), new, rest
                }' "$1/$f" >"$work/edited"
            case $? in
            0) mv "$work/edited" "$1/$f" ;;
            3) echo "'$old' is not in $f"; return ;;
            *) echo "'$old' is in $f more than once"; return ;;
            esac
            pairs=$((pairs + 1)) ;;
        esac
    done
    [ "$pairs" -gt 0 ] || echo "no 'old:' and 'new:'"
}

# the sources of all crates as they are; what was kept of them stays
restore() {
    cp "$root/crates.txt" "$work/"
    for d in $(printf '%s\n' "$layers" | cut -d' ' -f1); do
        mkdir -p "$work/crates/$d"
        for part in src specs proofs; do
            rm -rf "$work/crates/$d/$part"
            [ ! -d "$root/crates/$d/$part" ] || cp -R "$root/crates/$d/$part" "$work/crates/$d/$part"
        done
    done
}

check() { (cd "$work/crates/$1" && $rt check --jobs 1) >"$2" 2>&1; } # CRATE LOG

# the crate as it is must be proved
prepare() { # CRATE
    restore
    to_try=$(reached "$1")
    mkdir -p "$root/target/wrong/$1"
    log=$root/target/wrong/$1/as_it_is.log
    check "$1" "$log" || { echo "$1 is not proved as it is: see $log" >&2; exit 2; }
}

# from a log, 'unread PLACE' where a text of the sources, the definitions or an edited file does not read, 'name PLACE' where only a name is gone that a proof
# file cites, 'at PLACE' where a fact fails, or nothing
judge() { # LOG EDITED-FILES
    awk -v edited="$2" '
        BEGIN { m = split(edited, e, " "); for (k = 1; k <= m; k++) changed[e[k]] = 1 }
        {
            note = sub(/^note: /, ""); sub(/^\.\//, "")
            if (!match($0, /^[^ :]+:[0-9]+:[0-9]+:/)) next
            place = substr($0, 1, RLENGTH - 1); said = substr($0, RLENGTH + 1); file = place; sub(/:.*/, "", file)
            fails = sub(/^ error(\[[a-z-]*\])?: /, "", said)
            if (!fails && !(note && said ~ /not proved/) || said ~ /^[0-9]+ declarations? that depends? on/) next
            named = said ~ /^`[^`]*`: /
            lost = file ~ /^proofs\// && said ~ /has no field|is not in scope|has no `|was not admitted/
            gsub(/`[^`]*`/, "", said)
            if (fails && !unread && (file ~ /^(src|specs)\// || file in changed) &&
                (!named || said ~ /is not in scope|has no field|is no name|operand is missing|expected the end|cannot continue/)) unread = place
            if (lost) { if (!name) name = place } else if (!at) at = place
        }
        END { if (unread) print "unread " unread; else if (at) print "at " at; else if (name) print "name " name }' "$1"
}

try() { # CRATE LABEL
    crate=$1 label=$2
    log=$root/target/wrong/$crate/$label.log
    restore
    wrong=$(paragraph "$here/$crate.edits" "$label" | apply "$work/crates/$crate")
    [ -z "$wrong" ] || { echo "$crate/$label: BAD EDIT: $wrong"; return; }
    for d in $to_try; do
        check "$d" "$log"
        status=$?
        [ "$status" -ne 0 ] || continue
        files=''
        [ "$d" != "$crate" ] || files=$(paragraph "$here/$crate.edits" "$label" | sed -n 's/^file: //p' | tr '\n' ' ')
        found=$(judge "$log" "$files")
        case $status:$found in
        1:'at '*) echo "$crate/$label: refused by $d (${found#at })" ;;
        1:'name '*) echo "$crate/$label: refused by $d (${found#name }, only because a name is gone that a proof file cites)" ;;
        1:'unread '*) echo "$crate/$label: BAD EDIT: it does not read (${found#unread } of $d)" ;;
        *) echo "$crate/$label: BAD EDIT: $d ends with status $status${found:+ (${found#* })}" ;;
        esac
        return
    done
    echo "$crate/$label: SURVIVED"
}

# the edits asked for
wanted=$(for f in "$here"/*.edits; do c=$(basename "$f" .edits); sed -n "s|^edit: |$c/|p" "$f"; done)
if [ $# -gt 0 ]; then
    wanted=$(for w in "$@"; do case $w in */*) echo "$w" ;; *) printf '%s\n' "$wanted" | grep "^$w/" ;; esac; done)
fi
tried=0 refused=0 survived=0 bad=0 ready=''
for w in $wanted; do
    [ "$ready" = "${w%%/*}" ] || prepare "${w%%/*}"
    ready=${w%%/*}
    line=$(try "$ready" "${w#*/}")
    printf '%s\n' "$line"
    tried=$((tried + 1))
    case $line in *': refused by '*) refused=$((refused + 1)) ;; *': SURVIVED') survived=$((survived + 1)) ;; *) bad=$((bad + 1)) ;; esac
done
echo "$tried tried, $refused refused, $survived survived, $bad bad"
[ "$bad" -eq 0 ]

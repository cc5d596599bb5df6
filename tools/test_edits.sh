#!/bin/sh
# Tries the wrong bodies that no clause can refuse, outside the gate: tests have to. Usage: tools/test_edits.sh
# [CRATE..]; with none, all crates.
#
# A contract says nothing of threads that run at once, nor of memory that is there. So a wrong body of that kind stands
# as crates/CRATE/must-fail/EDIT.tests.md, by lines `file:`, `old:` and `new:` as in an edit, and lines `tests:` with
# the name of a crate of tests and the names of tests there; any other line is a remark. Without it each of these tests
# passes. With it `rt check` still proves the crate, and each of these tests must fail.
#
# Each is tried on a copy of the repository, over what checks have kept, and nothing here is changed. A line is printed
# for each, with its seconds, and last 'N refused by tests, M not'. Status 0 only where all are refused.
cd "$(dirname "$0")/.." || exit 2
for crate in "$@"; do
    [ -n "$(ls "crates/$crate"/must-fail/*.tests.md 2>/dev/null)" ] ||
        { echo "test_edits: $crate has none" >&2; exit 2; }
done
. tools/copy.sh
refused=0
others=0

# others_than ENDS EDIT FOLDER: which of the edit's tests do not end so ('ok' or 'FAILED'), by the logs in the folder;
# the tests of a crate are run where there is no log yet
others_than() {
    mkdir -p "$3"
    sed -n 's/^tests: //p' "$2" | while read -r place names || [ -n "$place" ]; do
        [ -f "$3/$place" ] || (cd "$room/crates/$place" && rt try --test) >"$3/$place" 2>&1 </dev/null
        [ -n "$names" ] || printf 'no test of %s is named; ' "$place"
        for test in $names; do
            grep -q "^test .*::$test \.\.\. $1" "$3/$place" ||
                printf '%s of %s does not end by %s; ' "$test" "$place" "$1"
        done
    done
    grep -q '^tests: ' "$2" || printf 'it names no tests; '
}

# tried CRATE EDIT: one wrong body
tried() {
    name=$(basename "$2" .tests.md)
    rm -rf "$room/with"
    start=$(date +%s)
    said=$(others_than ok "$top/$2" "$room/without")
    if [ -n "$said" ]; then
        said="before it, $said"
    elif ! said=$(cd "$room/crates/$1" && rewritten "$top/$2"); then
        said="it cannot be applied: $said"
    elif ! (cd "$room/crates/$1" && rt check) >"$room/log" 2>&1; then
        said="it is not proved: $(grep -m 1 -E ':[0-9]+:[0-9]+: error|^error' "$room/log" || tail -n 1 "$room/log")"
    else
        said=$(others_than FAILED "$top/$2" "$room/with")
    fi
    if [ -z "$said" ]; then
        refused=$((refused + 1))
        echo "edit $1/$name: refused by tests, in $(($(date +%s) - start)) seconds"
    else
        others=$((others + 1))
        echo "edit $1/$name: NOT REFUSED: $said"
    fi
    restored "$1"
}

for edit in crates/*/must-fail/*.tests.md; do
    [ -f "$edit" ] || continue
    folder=${edit%%/must-fail/*}
    changed=${folder#crates/}
    case " ${*:-$changed} " in
        *" $changed "*) ;;
        *) continue ;;
    esac
    tried "$changed" "$edit"
done
echo "$refused refused by tests, $others not"
[ "$others" = 0 ] && [ "$refused" -gt 0 ]

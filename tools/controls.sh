#!/bin/sh
# Tries the controls of must-fail edits, outside the gate. Usage: tools/controls.sh [CRATE..]; with none, all crates.
#
# The gate counts an edit as refused also where only a proof written by hand stops fitting. So an edit in a function
# that has proof files of its own has a control beside it, crates/CRATE/must-fail/EDIT.control.md: a rewrite of the same
# place with the same meaning, by lines `file:`, `old:` and `new:` as in an edit; any other line is a remark. With it
# `rt check` must still prove the crate: then it was the meaning that the edit was refused for. So has an EDIT.more.md,
# which only tools/more_edits.sh tries.
#
# Each control is tried on a copy of the repository, over what checks have kept, and nothing here is changed. A line is
# printed for each, with its seconds, and last 'N controls proved, M not'. Status 0 only where all are proved.
cd "$(dirname "$0")/.." || exit 2
for crate in "$@"; do
    [ -n "$(ls "crates/$crate"/must-fail/*.control.md 2>/dev/null)" ] || { echo "controls: $crate has none" >&2; exit 2; }
done
. tools/copy.sh
proved=0
others=0

# tried CRATE CONTROL: one control
tried() {
    name=$(basename "$2" .control.md)
    start=$(date +%s)
    if [ ! -f "crates/$1/must-fail/$name.edit" ] && [ ! -f "crates/$1/must-fail/$name.more.md" ]; then
        said="there is no edit $name.edit or $name.more.md beside it"
    elif ! said=$(cd "$room/crates/$1" && rewritten "$top/$2"); then
        said="it cannot be applied: $said"
    elif (cd "$room/crates/$1" && rt check) >"$room/log" 2>&1; then
        said=
    else
        said="it is not proved: $(grep -m 1 -E ':[0-9]+:[0-9]+: error|^error' "$room/log" || tail -n 1 "$room/log")"
    fi
    if [ -z "$said" ]; then
        proved=$((proved + 1))
        echo "control $1/$name: proved, in $(($(date +%s) - start)) seconds"
    else
        others=$((others + 1))
        echo "control $1/$name: NOT PROVED: $said"
    fi
    restored "$1"
}

for folder in crates/*; do
    crate=${folder#crates/}
    case " ${*:-$crate} " in
        *" $crate "*) ;;
        *) continue ;;
    esac
    for control in "crates/$crate"/must-fail/*.control.md; do
        [ -f "$control" ] || continue
        tried "$crate" "$control"
    done
done
echo "$proved controls proved, $others not"
[ "$others" = 0 ] && [ "$proved" -gt 0 ]

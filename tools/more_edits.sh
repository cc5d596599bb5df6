#!/bin/sh
# Tries more must-fail edits than the gate does. Usage: tools/more_edits.sh [CRATE..]; with none, all crates.
#
# An edit costs the gate half a minute, so a crate keeps those that tell most. The others stand beside them as
# crates/CRATE/must-fail/EDIT.more.md, in the same words, and the prover must refuse them as well. Here they are tried
# by `rt must-fail` on a copy of the repository, over what checks have kept; nothing here is changed. The last line says
# of how many crates all were refused, and of how many not. Status 0 only where all are.
cd "$(dirname "$0")/.." || exit 2
for crate in "$@"; do
    [ -n "$(ls "crates/$crate"/must-fail/*.more.md 2>/dev/null)" ] || { echo "more_edits: $crate has none" >&2; exit 2; }
done
. tools/copy.sh
refused=0
others=0

rm -f "$room"/crates/*/must-fail/*.edit
for more in "$room"/crates/*/must-fail/*.more.md; do
    mv "$more" "${more%.more.md}.edit"
done
for edits in "$room"/crates/*/must-fail; do
    crate=$(basename "${edits%/must-fail}")
    case " ${*:-$crate} " in
        *" $crate "*) ;;
        *) continue ;;
    esac
    [ -n "$(ls "$edits"/*.edit 2>/dev/null)" ] || continue
    if (cd "$room" && rt must-fail "$crate"); then refused=$((refused + 1)); else others=$((others + 1)); fi
done
echo "more edits: of $refused crates all are refused, of $others not"
[ "$others" = 0 ] && [ "$refused" -gt 0 ]

#!/bin/sh
# Holds an implementation against the scripts of this folder: see README.md.
# Usage: sh conformance/run.sh COMMAND [WORD..], a command that reads a script on its standard input.
# Its words are followed by those of a script's line `# run: WORD..`, where its first line is one.
# Status 0 where each script is answered as its file NAME.answer says; 1 where one is not.
here=$(cd "$(dirname "$0")" && pwd) || exit 2
[ $# -gt 0 ] || { echo "usage: sh $0 COMMAND [WORD..]" >&2; exit 2; }
work=$(mktemp -d) || exit 2
trap 'rm -rf "$work"' EXIT
: >"$work/nothing"
wrong=0
right=0

# differs NAME WHAT: tells what was wanted and what came
differs() {
    echo "conformance: $1: $2" >&2
    diff "$here/$1.answer" "$work/out" >&2
    cat "$work/err" >&2
}

for script in "$here"/*.script; do
    name=$(basename "$script" .script)
    words=$(sed -n '1s/^# run: //p' "$script")
    answer=$here/$name.answer
    # An answer of one line `dmljob: ..` is a refusal: it stands on the standard error, and the exit status is 2.
    status=0 out=$answer err=$work/nothing
    if head -n 1 "$answer" | grep -q '^dmljob: '; then
        status=2 out=$work/nothing err=$answer
    fi
    "$@" $words <"$script" >"$work/out" 2>"$work/err"
    got=$?
    if [ "$got" != "$status" ]; then
        differs "$name" "exit status $got, not $status"
    elif ! cmp -s "$out" "$work/out"; then
        differs "$name" "another answer"
    elif ! cmp -s "$err" "$work/err"; then
        differs "$name" "another text on the standard error"
    else
        right=$((right + 1))
        continue
    fi
    wrong=$((wrong + 1))
done
echo "conformance: $right scripts are answered as they must be, $wrong are not, by: $*"
[ "$wrong" = 0 ] && [ "$right" -gt 0 ]

#!/bin/sh
# A server that stays up holds no more memory in the long run. Usage: tests/soak.sh [PARTS]; each part is some hundred
# thousand jobs of four clients, whose log is taken off behind each round; with no word ten parts, a million jobs. After
# each part the resident memory of the program is read: behind the first part it grows by a mebibyte at most. Then five
# million jobs are run, and the most that the program holds at once is read. Works on the program that the gate leaves
# in crates/dml_soak/out; `check` calls it. Needs a C compiler (CC, or cc) and Linux's /proc.
most_more=1024    # KiB above what is held behind the first part
most_at_once=4096 # KiB, of a run of so many parts
parts_at_once=43
parts=${1:-10}

cd "$(dirname "$0")/.." || exit 2
binary=crates/dml_soak/out/dml_soak
if [ ! -x "$binary" ]; then
    echo "soak: $binary is missing: run rt ci first" >&2
    exit 1
fi
work=$(mktemp -d) || exit 2
mkfifo "$work/lines" || exit 2
"$binary" "$parts" >"$work/lines" 2>"$work/said" &
program=$!
trap 'kill "$program" 2>/dev/null; rm -rf "$work"' EXIT

failed=0
seen=0
first=
greatest=0
last=
while read -r jobs word; do
    seen=$((seen + 1))
    last=$jobs
    case $word in
        "jobs, the last client held back behind "[1-9]*" rounds") ;;
        *) echo "soak: says $jobs $word" >&2; failed=1 ;;
    esac
    held=$(sed -n 's/^VmRSS:[^0-9]*\([0-9]*\) kB$/\1/p' "/proc/$program/status" 2>/dev/null)
    # Behind the last line the program may have ended.
    if [ -z "$held" ]; then
        [ "$seen" = "$parts" ] && continue
        echo "soak: no memory is told behind $jobs jobs" >&2
        failed=1
    fi
    first=${first:-$held}
    [ "${held:-0}" -le "$greatest" ] || greatest=$held
done <"$work/lines"
wait "$program" || { echo "soak: the program ends with status $?: $(cat "$work/said")" >&2; failed=1; }
[ "$seen" = "$parts" ] || { echo "soak: $seen parts of $parts" >&2; failed=1; }
more=$((greatest - ${first:-0}))
[ "$more" -le "$most_more" ] || { echo "soak: $more KiB more than behind the first part" >&2; failed=1; }
echo "soak: $last jobs, $first KiB behind the first part, at most $more KiB more behind a later one"

"${CC:-cc}" -O2 -Wall -Wextra -Werror -o "$work/peak" tests/peak.c || exit 1
"$work/peak" "$work/resident" "$binary" "$parts_at_once" >"$work/out" 2>"$work/said" || {
    echo "soak: the run of $parts_at_once parts ends with status $?: $(cat "$work/said")" >&2
    failed=1
}
resident=$(cat "$work/resident") || exit 1
[ "$resident" -le "$most_at_once" ] || { echo "soak: $resident KiB are held at once" >&2; failed=1; }
echo "soak: $(sed -n '$s/ .*//p' "$work/out") jobs, at most $resident KiB at once"
exit "$failed"

#!/bin/sh
# Compares a row of the benchmark with the same row of another build of it, say of an earlier commit.
#
# Usage: bench/against.sh PROGRAM [ROW [SIZE [ROUNDS]]]   move, 64 and 100, where nothing else is said.
# PROGRAM is another dml_bench; this one has to be built (rt run in crates/dml_bench). Both run in turn, every second
# round in the opposite order, on one processor and before all other work where that is allowed (taskset, chrt). It
# prints the least, both quartiles and the median of the row over the rounds, in nanoseconds. Exit status: 0 where
# neither the least nor the median of this build is greater, 1 where one is, 2 where nothing was measured.
here=$(cd "$(dirname "$0")" && pwd)
proved=$here/../crates/dml_bench/out/dml_bench
other=$1
row=${2:-move}
size=${3:-64}
rounds=${4:-100}
for program in "$proved" "$other"; do
    if [ ! -x "$program" ]; then
        echo "bench/against.sh: there is no program '$program'" >&2
        exit 2
    fi
done
work=$(mktemp -d) || exit 2
trap 'rm -rf "$work"' EXIT
alone=
if chrt -f 10 taskset -c 1 true 2>/dev/null; then alone='chrt -f 10 taskset -c 1'; fi

# one NAME PROGRAM: writes the nanoseconds of the row behind those of the rounds before
one() {
    $alone "$2" 1 2>"$work/rows" >"$work/out" || exit 2
    awk -v row="$row" -v size="$size" '$1 == row && $2 == size { print $3; exit }' "$work/rows" >>"$work/$1"
}

round=1
while [ "$round" -le "$rounds" ]; do
    if [ $((round % 2)) -eq 0 ]; then
        one this "$proved"
        one other "$other"
    else
        one other "$other"
        one this "$proved"
    fi
    round=$((round + 1))
done
[ -s "$work/this" ] && [ -s "$work/other" ] || exit 2

# figures NAME: the least, the first quartile, the median and the third quartile
figures() {
    sort -n "$work/$1" | awk '{ at[NR] = $1 } END { print at[1], at[int((NR + 3) / 4)], at[int((NR + 1) / 2)], at[int((3 * NR + 3) / 4)] }'
}

echo "$row $size, nanoseconds over $rounds rounds: the least, the first quartile, the median, the third quartile"
echo "this build:  $(figures this)"
echo "other build: $(figures other)"
echo "$(figures this) $(figures other)" | awk '{ exit !($1 <= $5 && $3 <= $7) }'

#!/bin/sh
# Rings that wake end by themselves, ten times. Usage: tests/bells.sh [ROUNDS]; portals of one to eight clients, one
# after another: all clients of one together submit a job, ring, and sleep until its record is there so many times, with
# no word 100,000 times. No run may take five minutes. Works on the tests of dml_seats that the gate leaves in
# crates/dml_seats_tests/out; `check` calls it. Needs timeout.
rounds=${1:-100000}

cd "$(dirname "$0")/.." || exit 2
binary=crates/dml_seats_tests/out/dml_seats_tests_tests
if [ ! -x "$binary" ]; then
    echo "bells: $binary is missing: run rt ci first" >&2
    exit 1
fi
work=$(mktemp -d) || exit 2
trap 'rm -rf "$work"' EXIT
for run in 1 2 3 4 5 6 7 8 9 10; do
    RINGS=$rounds timeout 300 "$binary" tests::bells::rings_wake >"$work/out" 2>&1 </dev/null || {
        echo "bells: run $run ends with status $?: $(cat "$work/out")" >&2
        exit 1
    }
done
echo "bells: ten runs of one to eight clients, $rounds rounds of ring and sleep each"

#!/bin/sh
# Runs the program on tables of scripts: scripts with their answers and texts with a fault (tests/rows/answers.py and
# faults.py), and scripts that are cut anywhere (cuts.py). Works on the binary that the gate leaves in
# crates/dmljob/out; `check` calls it. Needs Python 3.
cd "$(dirname "$0")/.." || exit 2
program=crates/dmljob/out/dmljob
if [ ! -x "$program" ]; then
    echo "rows: $program is missing: run rt ci first" >&2
    exit 1
fi
# No compiled copies of the tables are kept (-B).
exec python3 -B tests/rows/run.py "$program"

#!/bin/sh
# Random scripts over memory in random segments with holes, beside the same scripts over an image's own pages: each
# job's record and all bytes behind it, and those of every fourth script as a batch, are compared by the program that
# the gate leaves in crates/dml_pieces/out; `check` calls this. The gate itself has 200 jobs.
#
# Usage, from anywhere: sh tests/pieces.sh [COUNT [SEED]]
#   COUNT  how many jobs, 20,000 where nothing is said; a million take some seconds
#   SEED   a number below 2^32, 1 where nothing is said; each seed gives other scripts, the same ones each time
# Status 0 where all jobs agree; 1 where one does not, or, in a run of 20,000 and more, where some status that a job by
# itself may have never came up.
cd "$(dirname "$0")/.." || exit 2
binary=crates/dml_pieces/out/dml_pieces
if [ ! -x "$binary" ]; then
    echo "pieces: $binary is missing: run rt ci first" >&2
    exit 1
fi
count=${1:-20000}
said=$("$binary" "$count" "${2:-1}") || exit 1
printf '%s\n' "$said" | sed 's/^/pieces: /'
[ "$count" -ge 20000 ] || exit 0
failed=0
for status in 01 02 03 07 08 10 11 13 15 16 17 1c 7d 7e 83; do
    printf '%s\n' "$said" | grep -q "^status $status " || {
        echo "pieces: no job had status $status" >&2
        failed=1
    }
done
exit "$failed"

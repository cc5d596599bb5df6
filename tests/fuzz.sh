#!/bin/sh
# Random scripts and descriptors, well-formed and broken, at random settings: what the program answers is compared byte
# for byte (standard output, standard error, exit status) with what an evaluator of its own answers, which was written
# from docs/PROFILE.md and shares no code with the program. Works on the binary that the gate leaves in
# crates/dmljob/out; `check` calls it. Needs a C compiler (CC, or cc) and Linux.
#
# Usage, from anywhere: sh tests/fuzz.sh [SEED [COUNT [FIRST]]]
#   SEED   a number, 1 where nothing is said; each seed gives other cases, the same ones each time
#   COUNT  how many cases, 4000 where nothing is said: some seconds; a million take some twenty minutes on four processors
#   FIRST  the number of the first case, 0 where nothing is said: `sh tests/fuzz.sh SEED 1 N` runs case N alone
# With PROCESSES=N in the environment N processes run cases side by side (else one for each processor, 16 at most).
# PROGRAM=FILE runs another program. A case that is answered otherwise is shortened and kept, with both answers, in the
# folder that is named then. Status 0 where all cases agree; 1 where one does not, or, in a run of 3,000 and more, where
# some status of a job or some kind of fault never came up.
cd "$(dirname "$0")/.." || exit 2
program=${PROGRAM:-crates/dmljob/out/dmljob}
if [ ! -x "$program" ]; then
    echo "fuzz: $program is missing: run rt ci first" >&2
    exit 1
fi
work=$(mktemp -d) || exit 2
kept=$(mktemp -d) || exit 2
trap 'rm -rf "$work"; rmdir "$kept" 2>/dev/null' EXIT
"${CC:-cc}" -O2 -Wall -Wextra -Werror -o "$work/fuzz" \
    tests/fuzz/fuzz.c tests/fuzz/cases.c tests/fuzz/broken.c tests/fuzz/large.c tests/fuzz/evaluator.c \
    tests/fuzz/jobs.c || exit 1
processes=${PROCESSES:-$(nproc)}
[ "$processes" -le 16 ] || processes=16
"$work/fuzz" "$program" "${1:-1}" "${2:-4000}" "${3:-0}" "$processes" "$kept"

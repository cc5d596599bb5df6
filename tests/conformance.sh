#!/bin/sh
# Runs the conformance kit: each script of conformance/ by the program, at settings from the smallest chunks to the
# largest, on which no answer depends, and by the evaluator of tests/fuzz, which shares no code with the program. Works
# on the binary that the gate leaves in crates/dmljob/out; `check` calls it. Needs a C compiler (CC, or cc).
cd "$(dirname "$0")/.." || exit 2
program=crates/dmljob/out/dmljob
if [ ! -x "$program" ]; then
    echo "conformance: $program is missing: run rt ci first" >&2
    exit 1
fi
work=$(mktemp -d) || exit 2
trap 'rm -rf "$work"' EXIT
failed=0
"${CC:-cc}" -O2 -Wall -Wextra -Werror -o "$work/evaluator" \
    tests/fuzz/answer.c tests/fuzz/evaluator.c tests/fuzz/jobs.c || exit 1

for script in conformance/*.script; do
    [ -f "${script%.script}.answer" ] || { echo "conformance: $script has no answer" >&2; failed=1; }
    head -n 2 "$script" | grep -v '^# run: ' | grep -q '^# ' || { echo "conformance: $script tells no rule" >&2; failed=1; }
done
for answer in conformance/*.answer; do
    [ -f "${answer%.answer}.script" ] || { echo "conformance: $answer has no script" >&2; failed=1; }
done

sh conformance/run.sh "$work/evaluator" run || failed=1
sh conformance/run.sh "$program" run || failed=1
for settings in '8 1' '8 16' '16 2' '4096 4' '1048576 16'; do
    sh conformance/run.sh "$program" run --chunk "${settings% *}" --workers "${settings#* }" || failed=1
done
exit "$failed"

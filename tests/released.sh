#!/bin/sh
# Counts how often an arena's block is taken and given back, by running a test of dml_arena under tests/released.c.
# No proof says that a block is given back at least once (that it is not given back twice is proved). Works on the
# tests that the gate leaves in crates/dml_arena/out; `check` calls it. Needs the GNU C library and a C compiler.
cd "$(dirname "$0")/.." || exit 2
work=$(mktemp -d) || exit 2
trap 'rm -rf "$work"' EXIT
binary=crates/dml_arena/out/dml_arena_tests
[ -x "$binary" ] || { echo "released: $binary is missing: run rt ci first" >&2; exit 1; }
"${CC:-cc}" -O2 -Wall -Wextra -Werror -shared -fPIC -o "$work/released.so" tests/released.c || exit 1
# The test makes one arena of 12,345 bytes, cuts and fills it, and lets it go.
BLOCK_SIZE=12345 BLOCK_LOG=$work/log LD_PRELOAD=$work/released.so "$binary" tests::released_once >"$work/out" 2>&1
status=$?
events=$(tr '\n' ' ' <"$work/log" 2>/dev/null)
echo "released: status $status, $events"
[ "$status" -eq 0 ] && [ "$events" = "taken given " ]

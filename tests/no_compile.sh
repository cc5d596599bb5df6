#!/bin/sh
# Programs over dml_arena that must not compile, one of them for a lock that is waited for without Wait, and one
# program that must compile. Each file tests/no-compile/NAME.rt.txt says on its first line the error that is wanted,
# as `// borrow-e0499: why`, and on its second what the error says, or begins with `// compiles:`. Each becomes the
# one file of a crate over a throw-away copy of dml_arena, and the check has to refuse it with that very error.
# Last, an arena whose block is not given back must not compile.
# Usage, from anywhere: sh tests/no_compile.sh. Status 0 where each did as wanted.
top=$(cd "$(dirname "$0")/.." && pwd) || exit 2
room=$(mktemp -d) || exit 2
trap 'rm -rf "$room"' EXIT
mkdir "$room/crates" || exit 2
mkdir "$room/crates/dml_arena" || exit 2
for part in src specs proofs; do
    cp -R "$top/crates/dml_arena/$part" "$room/crates/dml_arena/" || exit 2
done
cp "$top/HANDLES" "$room/" || exit 2
grep '^dml_arena' "$top/crates.txt" >"$room/crates.txt" || exit 2

failed=0
wrong=0
right=0
for name in control region_after_cut region_after_join region_after_joining_next region_after_reopening \
    region_outlives_arena lock_without_wait; do
    case=$top/tests/no-compile/$name.rt.txt
    [ -f "$case" ] || { failed=1; echo "$name: there is no such case"; continue; }
    says=$(sed -n '2s,^// says: ,,p' "$case")
    wanted=$(sed -n '1s,^// \([a-z0-9-]*\):.*,\1,p' "$case")
    crate="$room/crates/$name"
    mkdir -p "$crate/src" || exit 2
    { echo '#![tactic(auto)]'; cat "$case"; } >"$crate/src/lib.rt"
    echo "$name: dml_arena" >>"$room/crates.txt"
    (cd "$crate" && rt check --jobs 1) >"$room/log" 2>&1
    status=$?
    case $wanted in
    compiles)
        if [ "$status" -eq 0 ] && ! grep -q 'error\[' "$room/log"; then
            right=$((right + 1))
            echo "$name: compiles, as it must"
            continue
        fi
        ;;
    borrow-* | unsatisfied-bound)
        if [ "$status" -ne 0 ] && [ -n "$says" ] && grep "^src/lib.rt:.*error\[$wanted\]" "$room/log" | grep -qF "$says"; then
            wrong=$((wrong + 1))
            echo "$name: refused with $wanted, as it must be"
            continue
        fi
        ;;
    esac
    failed=1
    echo "$name: wanted '$wanted', and the check ended with status $status:"
    tail -n 5 "$room/log"
done
# An arena that lets its block go without giving it back: the block's owner is no value that may be dropped.
arena=$room/crates/dml_arena/src/arena.rt
grep -q 'memory\.free(lease, &alloc);' "$arena" || { failed=1; echo "unreleased: the line that gives the block back is not there"; }
sed 's/memory\.free(lease, &alloc);/let _ = (\&memory, \&lease, \&alloc);/' "$arena" >"$room/unreleased" && mv "$room/unreleased" "$arena"
(cd "$room/crates/dml_arena" && rt check --jobs 1) >"$room/log" 2>&1
status=$?
if [ "$status" -ne 0 ] && grep -q '^src/arena.rt:.*error\[linear-value-let-go\]' "$room/log"; then
    wrong=$((wrong + 1))
    echo "unreleased: refused with linear-value-let-go, as it must be"
else
    failed=1
    echo "unreleased: the check ended with status $status:"
    tail -n 5 "$room/log"
fi
echo "no_compile: $wrong refused, $right compiled, failed=$failed"
exit "$failed"

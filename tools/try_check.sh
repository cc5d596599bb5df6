#!/bin/sh
# Tries ./check with a stand-in for `rt` and scripts of its own, in a folder of its own: what it says, its last line and
# its status. Proves nothing. Usage: tools/try_check.sh
top=$(cd "$(dirname "$0")/.." && pwd) || exit 2
room=$(mktemp -d) || exit 2
trap 'rm -rf "$room"' EXIT
mkdir "$room/bin" "$room/top" "$room/top/tests"
cp "$top/check" "$room/top/"
scripts=$(sed -n "/^scripts='/,/'$/p" "$top/check" | tr -d "'" | sed 's/^scripts=//')
number=$(set -- $scripts && echo $#)
tried=0
wrong=0

# gate STATUS LINE [COMMAND]: the stand-in says some lines, and at last LINE, and ends with STATUS
gate() {
    printf '#!/bin/sh\necho "rt: dml_one proved"\n%s\necho "%s"\nexit %s\n' "${3:-:}" "$2" "$1" >"$room/bin/rt"
    chmod +x "$room/bin/rt"
}

# all_scripts STATUS: each listed script, and no other, ends with STATUS
all_scripts() {
    rm -f "$room/top/tests/"*
    for script in $scripts; do
        printf 'echo "%s ran"\nexit %s\n' "$script" "$1" >"$room/top/$script"
    done
}

# ends STATUS LINE [TEXT..]: what check ends with, and the lines that it says before
ends() {
    status=$1 line=$2
    shift 2
    PATH=$room/bin:$PATH "$room/top/check" >"$room/said" 2>&1
    got=$?
    tried=$((tried + 1))
    [ "$got" = "$status" ] || { echo "try_check: status $got, not $status, before: $line"; wrong=1; }
    [ "$(tail -n 1 "$room/said")" = "$line" ] || { echo "try_check: the last line is not: $line"; wrong=1; }
    for text in "$@"; do
        grep -qxF -e "$text" "$room/said" || { echo "try_check: does not say: $text"; wrong=1; }
    done
}

all_scripts 0
gate 0 '9 passed, 0 failed' 'sleep 3'
echo 'sleep 1; echo tests/cli.sh ran' >"$room/top/tests/cli.sh"
ends 0 "$((9 + number)) passed, 0 failed" 'rt: dml_one proved' '9 passed, 0 failed' 'tests/cli.sh ran'
for task in '[34]  rt ci' '[12]  tests/cli.sh'; do
    grep -q "^ *$task\$" "$room/said" || { echo "try_check: no time of: $task"; wrong=1; }
done
grep -q '^== the gate: [34] seconds, [01] minutes of a processor in this run, 0 must-fail edits$' "$room/said" ||
    { echo 'try_check: does not say what the gate took'; wrong=1; }
mkdir -p "$room/top/crates/one/must-fail"
for edit in $(seq 259); do
    : >"$room/top/crates/one/must-fail/$edit.edit"
done
gate 0 '9 passed, 0 failed'
ends 0 "$((9 + number)) passed, 0 failed"
! grep -q 'over the budget' "$room/said" || { echo 'try_check: a budget is passed too early'; wrong=1; }
: >"$room/top/crates/one/must-fail/260.edit"
sed -i 's/^minutes_set=.*/minutes_set=0/' "$room/top/check"
gate 0 '9 passed, 0 failed' 'seq 9000000 | tail -n 1 >/dev/null'
ends 0 "$((9 + number)) passed, 0 failed" \
    'check: over the budget: 1 minutes of a processor, where the gate is to take 0' \
    'check: over the budget: 260 must-fail edits, where there are to be fewer than 260'
rm -r "$room/top/crates"
cp "$top/check" "$room/top/"
gate 1 '8 passed, 1 failed'
ends 1 "$((8 + number)) passed, 1 failed"
gate 1 '9 passed, 0 failed'
ends 1 "$((9 + number)) passed, 1 failed" 'check: the gate ended with status 1'
gate 1 'rt: killed'
ends 1 "$number passed, 1 failed" 'check: the gate ended with no count, with status 1'
gate 0 'rt: nothing'
ends 1 "$number passed, 1 failed" 'check: the gate ended with no count, with status 0'

gate 0 '9 passed, 0 failed'
echo 'exit 3' >"$room/top/tests/cli.sh"
ends 1 "$((8 + number)) passed, 1 failed" 'check: tests/cli.sh failed' 'tests/released.sh ran'
rm "$room/top/tests/cli.sh"
ends 1 "$((8 + number)) passed, 1 failed" 'check: tests/cli.sh is missing' 'tests/released.sh ran'
all_scripts 0
echo 'exit 0' >"$room/top/tests/other.sh"
ends 1 "$((9 + number)) passed, 1 failed" 'check: tests/other.sh is not in the list of scripts'
all_scripts 1
gate 1 '8 passed, 1 failed'
ends 1 "8 passed, $((1 + number)) failed"

[ "$wrong" = 0 ] && echo "try_check: $tried runs of check"
exit "$wrong"

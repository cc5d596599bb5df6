#!/bin/sh
# Jobs on both sides of a line in memory that a program lends in one piece: by a list, by a batch with a fence, and by a
# portal whose engine hands each task to its workers. Runs the program that the gate leaves in crates/dml_far/out, with
# the line at 4 GiB, and 64 KiB before the end of 5 GiB; the gate itself has it at 64 KiB. Behind the line lie 64 KiB,
# so it takes up to 5 GiB: where less than 8 GiB are there, it is left out. `check` calls it. Needs Linux's /proc, and
# timeout.
cd "$(dirname "$0")/.." || exit 2
binary=crates/dml_far/out/dml_far
if [ ! -x "$binary" ]; then
    echo "far: $binary is missing: run rt ci first" >&2
    exit 1
fi
available=$(awk '/^MemAvailable:/ { print $2 }' /proc/meminfo)
if [ "${available:-0}" -lt 8388608 ]; then
    echo "far: left out, too little memory"
    exit 0
fi
work=$(mktemp -d) || exit 2
trap 'rm -rf "$work"' EXIT

# wanted LINE: what each way answers and leaves. The fill writes 16 bytes from 4 before the line on, the move and the
# apply the same into the front; the delta has three entries of 10 bytes; the last fill ends at the memory's end.
wanted() {
    for way in list batch portal; do
        cat <<END
a $way:
Record { status: Success, result: 0, completed: 16, fault: 0, delta_size: 0 }
Record { status: Success, result: 0, completed: 16, fault: 0, delta_size: 0 }
Record { status: Success, result: 0, completed: 16, fault: 0, delta_size: 0 }
Record { status: Success, result: 1, completed: 24, fault: 0, delta_size: 30 }
Record { status: Success, result: 0, completed: 30, fault: 0, delta_size: 0 }
Record { status: WriteFault, result: 0, completed: 8, fault: $(($1 + 65536)), delta_size: 0 }
56: [0, 0, 0, 0, 0, 0, 0, 0, 1, 2, 3, 4, 5, 6, 7, 8, 1, 2, 3, 4, 5, 6, 7, 8, 0, 0, 0, 0, 0, 0, 0, 0]
120: [0, 0, 0, 0, 0, 0, 0, 0, 0, 0, 0, 0, 1, 2, 3, 4, 5, 6, 7, 8, 1, 2, 3, 4, 5, 6, 7, 8, 0, 0, 0, 0]
$(($1 - 16)): [0, 0, 0, 0, 0, 0, 0, 0, 0, 0, 0, 0, 1, 2, 3, 4, 5, 6, 7, 8, 1, 2, 3, 4, 5, 6, 7, 8, 0, 0, 0, 0]
$(($1 + 4096)): [0, 0, 0, 0, 0, 0, 1, 2, 3, 4, 1, 0, 5, 6, 7, 8, 1, 2, 3, 4, 2, 0, 5, 6, 7, 8, 0, 0, 0, 0, 0, 0]
$(($1 + 65504)): [0, 0, 0, 0, 0, 0, 0, 0, 0, 0, 0, 0, 0, 0, 0, 0, 0, 0, 0, 0, 0, 0, 0, 0, 255, 0, 0, 0, 0, 0, 0, 0]
END
    done
}

for page in 1048576 1310704; do
    wanted $((4096 * page)) >"$work/want"
    timeout 300 "$binary" "$page" >"$work/got" 2>&1
    status=$?
    if [ "$status" -ne 0 ] || ! diff "$work/want" "$work/got" >&2; then
        echo "far: with the line at page $page it ends with status $status, or answers otherwise" >&2
        exit 1
    fi
done
echo "far: a list, a batch and a portal go over the line of 4 GiB, and to the end of 5 GiB"

#!/bin/sh
# Counts the threads that `dmljob run`, a list of an engine, lists and batches over lent memory, rounds of portals, and
# the guide's monitor and pool start, by tests/started.c: no gate is given there, and no answer and no contract tells
# how many workers a list or a batch had. Where the system has no thread left, the answers are the same. Works on the
# programs and on the tests of dml_engine and dml_portal that the gate leaves in crates/NAME/out; `check` calls it.
# Needs the GNU C library, timeout, and a C compiler (CC, or cc).
cd "$(dirname "$0")/.." || exit 2
work=$(mktemp -d) || exit 2
trap 'rm -rf "$work"' EXIT
dmljob=crates/dmljob/out/dmljob
engines=crates/dml_engine_tests/out/dml_engine_tests_tests
portals=crates/dml_portal_tests/out/dml_portal_tests_tests
guest=crates/example_guest/out/example_guest
pool=crates/example_pool/out/example_pool
chunk=65536
failed=0
for program in "$dmljob" "$engines" "$portals" "$guest" "$pool"; do
    [ -x "$program" ] || { echo "starts: $program is missing: run rt ci first" >&2; exit 1; }
done
"${CC:-cc}" -O2 -Wall -Wextra -Werror -shared -fPIC -o "$work/started.so" tests/started.c -ldl || exit 1

# image: one of 16 MiB of zeros
image() {
    awk 'BEGIN { print "image 4096"; for (page = 0; page < 4096; page++) print "page " page }'
}

# compares FRONT SIZE LINKS: so many compares of a size, which do not conflict, and behind them a chain of so many
# links, each a fill and a compare that conflict with all before them: each has a level of its own
compares() {
    awk -v front="$1" -v size="$2" -v links="$3" 'BEGIN {
        for (job = 0; job < front; job++) print "compare " job % 8 * 2097152 " " job % 8 * 2097152 + 1048576 " " size
        for (link = 0; link < links; link++) print "fill 0 0 8\ncompare 0 1048576 " size
    }'
}

# batch FENCED: a batch of four compares of 1 MiB, of which the one at this place, counted from 0, has the fence
batch() {
    echo batch
    compares 4 1048576 0 | awk -v fenced="$1" '{ print $0 (NR - 1 == fenced ? " flags 1" : "") }'
    echo end
}

# twice: four compares of 1 MiB, a fill into the first range of each, and the four compares again
twice() {
    compares 4 1048576 0
    awk 'BEGIN { for (job = 0; job < 4; job++) print "fill 0 " job * 2097152 " 8" }'
    compares 4 1048576 0
}

# creates COUNT: so many creates of 512 KiB, which do not conflict: each has a record of its own
creates() {
    awk -v count="$1" 'BEGIN {
        for (job = 0; job < count; job++)
            print "create " 8 * job " " 2097152 + 8 * job " 524288 " 12582912 + 80 * job " 80"
    }'
}

# different: jobs behind which every create finds three blocks of two chunks that differ, and each compare that begins
# at 2 or 6 MiB finds a difference; they are a list of their own. shown: the records of 24 creates
different() {
    printf 'fill 1 2101248 8\nfill 2 2228224 16\nfill 3 6295552 8\nshow 2101248 8\n'
}

shown() {
    echo 'show 12582912 1920'
}

# copies COUNT LINE: so many times a line
copies() {
    awk -v count="$1" -v line="$2" 'BEGIN { for (job = 0; job < count; job++) print line }'
}

# threads: how many the last program has started; `no` where it has no log
threads() {
    [ -s "$work/log" ] || { echo no; return; }
    awk '{ all += $1 } END { print all + 0 }' "$work/log"
}

# run MOST WORKERS OUT: carries out the jobs on the standard input, where the system has no more than so many threads if
# any number is given, into a file; sets `status` and `started`. No list may take a minute.
run() {
    { image; cat; } >"$work/in"
    rm -f "$work/log"
    timeout 60 env STARTED_MOST="$1" STARTED_LOG="$work/log" LD_PRELOAD="$work/started.so" \
        "$dmljob" run --workers "$2" --chunk "$chunk" --arena 16777216 <"$work/in" >"$3" 2>&1
    status=$?
    started=$(threads)
}

# expect WANTED WORKERS DONE COUNT WHAT: the jobs on the standard input start so many threads, and so many of them end
# with success and all bytes done
expect() {
    run '' "$2" "$work/out"
    equal=$(grep -c "status 01 result 0 completed $3 " "$work/out")
    if [ "$status" -ne 0 ] || [ "$started" != "$1" ] || [ "$equal" -ne "$4" ]; then
        echo "starts: $5, $2 workers: status $status, $started threads started, not $1; $equal jobs were done, not $4" >&2
        failed=1
    fi
}

# test_of WANTED TESTS TEST: a test of such a program passes, and starts so many threads, those of all its processes
test_of() {
    rm -f "$work/log"
    timeout 60 env STARTED_LOG="$work/log" LD_PRELOAD="$work/started.so" "$2" "$3" >"$work/out" 2>&1 </dev/null
    status=$?
    started=$(threads)
    if [ "$status" -ne 0 ] || [ "$started" != "$1" ]; then
        echo "starts: $3: status $status, $started threads started, not $1: $(cat "$work/out")" >&2
        failed=1
    fi
}

# example_starts WANTED PROGRAM: a program of the guide starts so many threads, and prints what it is to
example_starts() {
    rm -f "$work/log"
    timeout 60 env STARTED_LOG="$work/log" LD_PRELOAD="$work/started.so" "$2" >"$work/out" 2>&1 </dev/null
    status=$?
    started=$(threads)
    if [ "$status" -ne 0 ] || [ "$started" != "$1" ] || ! cmp "$work/out" "crates/${2##*/}/stdout" >&2; then
        echo "starts: ${2##*/}: status $status, $started threads started, not $1" >&2
        failed=1
    fi
}

# limited MOST WORKERS JOBS WITH WHAT: the jobs of the file `jobs` start so many threads where the system has no more,
# and are answered byte for byte as they are where it has: so many end with success, so many of them with a difference
limited() {
    run '' "$2" "$work/want" <"$work/jobs"
    free=$status
    jobs=$(grep -c ' status 01 ' "$work/want") with=$(grep -c ' status 01 result 1 ' "$work/want")
    run "$1" "$2" "$work/out" <"$work/jobs"
    if [ "$free" -ne 0 ] || [ "$jobs" -ne "$3" ] || [ "$with" -ne "$4" ] || [ "$status" -ne 0 ] ||
        [ "$started" != "$1" ] || ! cmp "$work/want" "$work/out" >&2; then
        echo "starts: $5, $2 workers: status $status with $started threads of $1, and $free with all; $jobs jobs of $3," \
            "$with with a difference of $4" >&2
        failed=1
    fi
}

# counted WANTED WORKERS FRONT SIZE LINKS: one list of these starts so many threads, and no compare finds a difference
counted() {
    compares "$3" "$4" "$5" >"$work/jobs"
    expect "$1" "$2" "$4" "$(($3 + $5))" "$3 compares of $4 and $5 links" <"$work/jobs"
}

# A worker pays for a mebibyte that is shared, the calling thread is one of them, and one worker starts none.
counted 0 1 4 1048576 0
counted 1 2 4 1048576 0
counted 3 4 4 1048576 0
counted 15 16 64 1048576 0
counted 1 4 2 1048576 0
counted 0 4 1 1048576 0
# A second worker pays from a mebibyte and a half on, less 2 KiB for a task and 16 for a job.
counted 1 4 34 65536 0
counted 0 4 33 65536 0
counted 3 4 1024 65536 0
# More tasks than in the other rows, 16,384: chunks of 4 KiB leave 496 KiB of each compare to be shared.
chunk=4096
counted 3 4 64 1048576 0
chunk=65536
# A batch is judged as a list is, and each of its waves by itself: two compares share 1,998,848 bytes and pay for two
# workers, so those before a fence start one thread and those behind it one.
batch none >"$work/jobs"
expect 3 4 1048576 4 'a batch of 4 compares' <"$work/jobs"
batch 2 >"$work/jobs"
expect 2 4 1048576 4 'a batch of 2 compares and 2 behind a fence' <"$work/jobs"
# A round of a portal is one list, over an image of its own and over lent memory.
test_of 3 "$portals" tests::rounds::round_worth_four_workers
test_of 3 "$portals" tests::lent::four_workers_over_lent_memory
test_of 3 "$portals" tests::lent::four_workers_over_one_piece
test_of 3 "$portals" tests::segments::four_workers_over_segments
test_of 0 "$portals" tests::round_of_128
# So is one of the caller that takes its records from the engine: eight compares of 1 MiB share 7,995,392 bytes, which
# pay for the four workers that there may be, ten times over.
test_of 30 "$engines" tests::lists::large_compares
# A list and a batch over lent memory, without an engine: their first wave pays for no second worker, and the four
# compares behind it share 3,997,696 bytes, which pay for four. Of 1, 2 and 16 workers, one after another, 0, 1 and 3
# are started.
test_of 4 "$engines" tests::pieces::list_on_workers_over_one_piece
test_of 4 "$engines" tests::pieces::batch_on_workers_over_one_piece
# A list over segments: see there what each of its waves shares.
test_of 2 "$engines" tests::segments::list_on_workers_over_eight_segments
# A monitor's batch over two segments: the two compares before its fence share 1,998,848 bytes, which pay for two.
example_starts 1 "$guest"
# A pool's 1,024 creates of 64 KiB need 80 KiB of staging each, of 16 MiB: so they are five waves of 204, which share
# 9,609,216 bytes each and pay for the four workers that there may be, and one of four, which pays for one. The repairs
# share none. As many compares are one wave, which pays for four.
example_starts 18 "$pool"
# Each wave of a list is judged by itself: the fills between the compares share nothing, and those behind them pay again.
twice >"$work/jobs"
expect 6 4 1048576 8 'four compares, fills into their sources, and four compares' <"$work/jobs"
# Levels behind the first one cost a list no worker, until the cut of all of them costs more than workers save, or
# where none of them shares a mebibyte and a half.
counted 3 4 4 1048576 10
counted 1 4 34 65536 100
counted 0 4 34 65536 150
counted 0 4 34 65536 493
counted 0 4 1 1048576 3
counted 0 4 1 65536 511
# Creates share their bytes as compares do, where the arena holds the entries of several; jobs that write what workers
# would have to stage start none.
creates 24 >"$work/jobs"
expect 3 4 524288 24 '24 creates' <"$work/jobs"
copies 64 'move 0 2097152 1048576' >"$work/jobs"
expect 0 4 1048576 64 '64 moves of 1 MiB' <"$work/jobs"
copies 1024 'fill 1 0 8' >"$work/jobs"
expect 0 4 8 1024 '1,024 fills of 8 bytes' <"$work/jobs"
# Where no thread is left, or too few are, the workers that there are carry out the rest.
for most in 0 1 2; do
    { different; compares 4 1048576 0; } >"$work/jobs"
    limited "$most" 4 7 2 "4 compares, at most $most threads"
    { different; compares 1024 65536 0; } >"$work/jobs"
    limited "$most" 4 1027 256 "1,024 compares, at most $most threads"
    { different; creates 24; shown; } >"$work/jobs"
    limited "$most" 4 27 24 "24 creates, at most $most threads"
done
{ different; compares 64 1048576 0; } >"$work/jobs"
limited 5 16 67 16 '64 compares, at most 5 threads'
[ "$failed" -eq 0 ] && echo "starts: each list started its workers"
exit "$failed"

#!/bin/sh
# Runs the proved benchmark and the C programs of this folder alternately, and prints the medians of their ratios.
#
# Usage: bench/run.sh [ROUNDS [MEBIBYTES]]   31 rounds of 64 mebibytes a row, where nothing else is said.
# Wants the program dml_bench built (rt run in crates/dml_bench, with --cpu x86-64-v3 where the processor has AVX2, since
# the C library's functions choose their instructions by the processor), clang or another C compiler as $CC, with
# $CFLAGS or -O2.
# The second table has lists with 1, 2 and 4 workers as the engine takes them, the third lists of jobs of 64 KiB whose
# workers begin however little work there is. A move of 64 bytes has no bar here: how many memmoves it takes differs
# from machine to machine, so bench/against.sh compares it with that of another build.
# Each round runs every program once, every second round in the opposite order, and a ratio is taken within its
# round. A round in which the host of a virtual machine took more than HOST_MOST percent of the processors' time (2,
# where nothing else is said) is left out and run again, at most three such rounds for each one wanted.
# Exit status: 0 where all bars are met, 1 where one is missed, 2 where nothing was measured.
here=$(cd "$(dirname "$0")" && pwd)
rounds=${1:-31}
mebibytes=${2:-64}
proved=$here/../crates/dml_bench/out/dml_bench
if [ ! -x "$proved" ]; then
    echo "bench/run.sh: $proved is not built: run 'rt run' in crates/dml_bench" >&2
    exit 2
fi
work=$(mktemp -d) || exit 2
trap 'rm -rf "$work"' EXIT
for name in memmove staged fill compare create compares ruled bells; do
    "${CC:-clang}" ${CFLAGS:--O2} -pthread -o "$work/$name" "$here/$name.c" || exit 2
done

# Writes "ROUND NAME SIZE NANOSECONDS" for each row of a program.
one() {
    "$2" "$mebibytes" 2>"$work/rows" >"$work/out" || exit 2
    sed "s/^/$1 /" "$work/rows" >>"$work/round"
}

# The ticks that the host took so far, and all ticks.
host() {
    awk '/^cpu / { for (i = 2; i <= 9; i++) all += $i; print $9, all }' /proc/stat
}

# taken BEFORE AFTER: what the host took between two answers of `host`, in percent
taken() {
    echo "$1 $2" | awk '{ printf("%.2f\n", ($4 > $2) ? 100 * ($3 - $1) / ($4 - $2) : 0) }'
}

echo "machine: $(sed -n 's/^model name[^:]*: //p' /proc/cpuinfo | head -n 1), $(nproc) processors"
echo "load before: $(cut -d ' ' -f 1-3 /proc/loadavg)"
start=$(host)
round=1
left_out=0
while [ "$round" -le "$rounds" ]; do
    : >"$work/round"
    before=$(host)
    set -- "$proved" "$work/memmove" "$work/staged" "$work/fill" "$work/compare" "$work/create" \
        "$work/compares" "$work/ruled" "$work/bells"
    [ $((round % 2)) -eq 0 ] &&
        set -- "$work/bells" "$work/ruled" "$work/compares" "$work/create" "$work/compare" "$work/fill" "$work/staged" \
            "$work/memmove" "$proved"
    for program in "$@"; do
        one "$round" "$program"
    done
    if taken "$before" "$(host)" | awk -v most="${HOST_MOST:-2}" '{ exit $1 <= most }'; then
        left_out=$((left_out + 1))
        [ "$left_out" -le $((3 * rounds)) ] && continue
        echo "bench/run.sh: the host took too much in $left_out rounds; $((round - 1)) were quiet" >&2
        exit 2
    fi
    cat "$work/round" >>"$work/times"
    round=$((round + 1))
done
echo "the host took $(taken "$start" "$(host)") percent in all; $left_out rounds were left out"

awk '
    function median(list, count,    i, j, t) {
        for (i = 2; i <= count; i++)
            for (j = i; j > 1 && list[j - 1] > list[j]; j--) {
                t = list[j]; list[j] = list[j - 1]; list[j - 1] = t
            }
        return count % 2 ? list[(count + 1) / 2] : (list[count / 2] + list[count / 2 + 1]) / 2
    }
    function middle(name, size,    r, list) {
        for (r = 1; r <= rounds; r++) list[r] = times[r, name, size]
        return median(list, rounds)
    }
    function ratio(name, base, size,    r, list) {
        for (r = 1; r <= rounds; r++) list[r] = times[r, name, size] / times[r, base, size]
        return median(list, rounds)
    }
    function over(name, base, size,    r, list) {
        for (r = 1; r <= rounds; r++) list[r] = times[r, name, size] - times[r, base, size]
        return median(list, rounds)
    }
    function speed(name, workers,    r, list) {
        for (r = 1; r <= rounds; r++) list[r] = times[r, name, 1] / times[r, name, workers]
        return median(list, rounds)
    }
    function both(name, size, base, other,    r, list) {
        for (r = 1; r <= rounds; r++) list[r] = times[r, name, size] / times[r, base, other]
        return median(list, rounds)
    }
    function atleast(text, value, least) {
        if (value < least) missed = 1
        printf("%-48s %9.3f, at least %.3f: %s\n", text, value, least, (value < least) ? "missed" : "met")
    }
    function bar(text, value, most) {
        if (value > most) missed = 1
        printf("%-48s %9.3f, at most %s: %s\n", text, value, most, (value > most) ? "missed" : "met")
    }
    { times[$1, $2, $3] = $4; if ($1 > rounds) rounds = $1 }
    END {
        printf "medians of %d rounds\n%-24s %9s %12s %10s %10s %10s %10s\n", \
            rounds, "row", "bytes", "ns", "memmove", "staged", "words", "memcmp"
        names = split("move move_down move_up fill dualcast compare compare_pattern image_move " \
            "image_move_unaligned image_move_down image_move_up image_move_up_unaligned image_fill memmove staged words memcmp", name)
        sizes = split("64 4096 65536 1048576", size)
        for (n = 1; n <= names; n++)
            for (s = 1; s <= sizes; s++)
                printf "%-24s %9d %12.1f %9.2fx %9.2fx %9.2fx %9.2fx\n", name[n], size[s], middle(name[n], size[s]), \
                    ratio(name[n], "memmove", size[s]), ratio(name[n], "staged", size[s]), \
                    ratio(name[n], "words", size[s]), ratio(name[n], "memcmp", size[s])
        rows = split("create_equal:524288 create_sixteenth:524288 submit_create_equal:524288 " \
            "submit_create_sixteenth:524288 words_equal:524288 words_sixteenth:524288 apply_entries:32768 " \
            "submit_apply_entries:32768 tasks_wave:8192 tasks_alone:8192 each_page_moves:1 " \
            "over_move:64 over_move:4096 own_move:64 own_move:4096 whole_move:4096 page_copy:4096 " \
            "addresses_ps:16777216 piece_has_ps:16777216 piece_present_ps:16777216 piece_move:64 piece_move:4096 " \
            "piece_move:1048576 " \
            "piece_edge:4096 piece_fill:4096 one_segment_has_ps:16777216 one_segment_present_ps:16777216 " \
            "one_segment_move:64 one_segment_move:4096 one_segment_move:1048576 one_segment_edge:4096 " \
            "one_segment_fill:4096 eight_segments_has_ps:16777216 eight_segments_present_ps:16777216 " \
            "eight_segments_move:64 eight_segments_move:4096 eight_segments_move:1048576 " \
            "eight_segments_edge:4096 eight_segments_fill:4096 levels_in_order:64 levels_in_order:1024 " \
            "levels_shuffled:64 levels_shuffled:128 levels_shuffled:256 levels_shuffled:512 levels_shuffled:1024 " \
            "levels_dualcasts:64 levels_dualcasts:1024 levels_one_source:1024 levels_many_cells:1024 " \
            "levels_chain:1024 waves_in_order:1024 waves_chain:1024 ring_push:1024 seat_submit:1024 ring_pop:1024 " \
            "seat_poll:1024 round_no_ops:1024 clients_list:128 clients_round:128 clients_whole:128 " \
            "log_kept:800 log_taken:800 bell_wake:1 futex_wake:1", row)
        for (n = 1; n <= rows; n++) {
            split(row[n], part, ":")
            printf "%-24s %9d %12.1f\n", part[1], part[2], middle(part[1], part[2])
        }
        printf "\n%-24s %12s %12s %12s %8s %8s\n", "list, by workers", "1, ns", "2, ns", "4, ns", "1 to 2", "1 to 4"
        shapes = split("list_compares_64 threads_compares_64 ruled_compares_64 list_compares_4 threads_compares_4 " \
            "ruled_compares_4 list_no_ops list_page_moves list_large_moves list_small_moves list_chain list_mixed " \
            "list_compare_chain list_short_chain", shape)
        for (n = 1; n <= shapes; n++)
            printf "%-24s %12.0f %12.0f %12.0f %7.2fx %7.2fx\n", shape[n], middle(shape[n], 1), middle(shape[n], 2), \
                middle(shape[n], 4), speed(shape[n], 2), speed(shape[n], 4)
        printf "\n%-24s %12s %12s %12s %8s %8s\n", "list of 64 KiB, bytes", "1, ns", "2, ns", "4, ns", "1 to 2", "1 to 4"
        kinds = split("pays_compare pays_move pays_fill", kind)
        for (n = 1; n <= kinds; n++)
            for (bytes = 262144; bytes <= 4194304; bytes *= 2)
                printf "%-12s %11d %12.0f %12.0f %12.0f %7.2fx %7.2fx\n", kind[n], bytes, middle(kind[n] "_1", bytes), \
                    middle(kind[n] "_2", bytes), middle(kind[n] "_4", bytes), \
                    ratio(kind[n] "_1", kind[n] "_2", bytes), ratio(kind[n] "_1", kind[n] "_4", bytes)
        printf "\n"
        split("move move_down move_up", job)
        for (n = 1; n <= 3; n++)
            bar(job[n] " of 1 MiB by submit, of memmove", ratio(job[n], "memmove", 1048576), 1.25)
        bar("fill of 1 MiB by submit, of the word loop", ratio("fill", "words", 1048576), 1.1)
        for (n = 1; n <= names; n++)
            if (name[n] ~ /^image_move/)
                bar(name[n] " of 1 MiB, of memmove", ratio(name[n], "memmove", 1048576), 1.25)
        bar("image_fill of 1 MiB, of the word loop", ratio("image_fill", "words", 1048576), 1.1)
        bar("a look at presence, in nanoseconds", middle("has_ps", 16777216) / 1000, 3)
        bar("an image of absent pages, in nanoseconds", middle("image_new", 4096), 20000)
        bar("a move of 4 KiB over lent pages, less memmove", over("over_move", "memmove", 4096), 30)
        bar("a look at presence, one segment, in nanoseconds", middle("one_segment_has_ps", 16777216) / 1000, 3)
        bar("a look at presence, eight segments", middle("eight_segments_has_ps", 16777216) / 1000, 8)
        bar("4 KiB moved over eight segments, less one piece", over("eight_segments_move", "piece_move", 4096), 25)
        bar("1 MiB moved over eight segments, of one piece", ratio("eight_segments_move", "piece_move", 1048576), 1.1)
        bar("compare of 1 MiB, of memcmp", ratio("compare", "memcmp", 1048576), 1.11)
        bar("compare of 64 KiB, of memcmp", ratio("compare", "memcmp", 65536), 1.67)
        bar("compare of 4 KiB, of memcmp", ratio("compare", "memcmp", 4096), 2.5)
        bar("compare pattern of 1 MiB, of compare", ratio("compare_pattern", "compare", 1048576), 1)
        bar("create, a block in 16 differs, of the loop", ratio("submit_create_sixteenth", "words_sixteenth", 524288), 1.3)
        bar("create, none differs, of the loop", ratio("submit_create_equal", "words_equal", 524288), 1.1)
        bar("apply, in nanoseconds an entry", middle("submit_apply_entries", 32768) / 4096, 12)
        bar("its scan alone: a block in 16, of the loop", ratio("create_sixteenth", "words_sixteenth", 524288), 1.3)
        bar("its scan alone: none differs, of the loop", ratio("create_equal", "words_equal", 524288), 1.1)
        atleast("64 compares of 1 MiB, 4 workers, speed of one", speed("list_compares_64", 4), 2.3)
        bar("64 compares of 1 MiB, 4 workers, of C threads", ratio("list_compares_64", "threads_compares_64", 4), 1.15)
        atleast("4 compares of 1 MiB, 4 workers, speed of one", speed("list_compares_4", 4), \
            speed("threads_compares_4", 4))
        bar("no-op in a list of 1,024, in nanoseconds", middle("list_no_ops", 1) / 1024, 60)
        bar("no-op, an engine with 4 workers", middle("list_no_ops", 4) / 1024, 60)
        bar("1,024 moves of a page in a list, of one by one", both("list_page_moves", 1, "each_page_moves", 1), 1.2)
        for (n = 1; n <= shapes; n++)
            if (shape[n] ~ /^list/)
                bar(shape[n] ", 4 workers, of one", 1 / speed(shape[n], 4), 1.1)
        bar("deque and outcome, in nanoseconds a task", over("tasks_wave", "tasks_alone", 8192) / 8192, 150)
        for (n = 1; n <= rows; n++) {
            split(row[n], part, ":")
            if (part[1] ~ /^levels/ && part[2] == 1024)
                bar(part[1] " of 1,024 jobs, in nanoseconds", middle(part[1], 1024), 500000)
        }
        bar("levels_in_order of 1,024 jobs, of those of 64", both("levels_in_order", 1024, "levels_in_order", 64), 20)
        bar("try_submit, of a push to a bare ring", ratio("seat_submit", "ring_push", 1024), 3)
        bar("poll, of a pop from a bare ring", ratio("seat_poll", "ring_pop", 1024), 3)
        bar("round of 128 no-ops, in nanoseconds a job", middle("round_no_ops", 1024) / 1024, 150)
        bar("round of eight clients, of the list", ratio("clients_round", "clients_list", 128), 1.3)
        bar("the same with submits and polls, of the list", ratio("clients_whole", "clients_list", 128), 1.3)
        atleast("rounds with the log taken off, of those that keep it", ratio("log_kept", "log_taken", 800), 1.5)
        bar("a ring where nobody sleeps, in nanoseconds", middle("bell_ring_ps", 1) / 1000, 20)
        bar("a ring that wakes, in nanoseconds", middle("bell_wake", 1), 10000)
        bar("a ring that wakes, of a futex pair", ratio("bell_wake", "futex_wake", 1), 1.25)
        exit missed
    }' "$work/times"

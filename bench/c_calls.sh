#!/bin/sh
# Builds the C library and bench/c_calls.c, runs that and dml_bench alternately, and prints the least and the median
# of the calls' times, and the bars of calls from C: a move of 4 KiB over memmove, and each call over the same one
# inside Rattle (`submit_over` on the caller's pages, `submit_to` on an image's own); and moves of pages anywhere in 1
# GiB in one piece over memmove at the same places, by bench/c_whole.c. Jobs with the staging of an engine beside the
# same ones with their own from malloc, moves, fills, both compares, dualcasts, creates and applies over eight regions
# beside one, and a batch of moves of a page, in one piece, on an image and over eight regions, beside the list of them
# that dml_bench hands to an engine of one worker, without a bar, by bench/c_regions.c. Then the jobs straight over
# buffers, by bench/c_buffers.c, beside the same ones by kazovuni_submit_pointers, with their bars as ratios: of the
# operation's own call (`buffers`) and of kazovuni_execute (`execute`), which checks the job twice.
#
# Usage: bench/c_calls.sh [ROUNDS [OLDER [BENCH]]]   15 rounds, where nothing else is said.
# OLDER is the prefix of an older library, or an older checkout, whose own tools/install_library.sh is run then. The
# calls of bench/c_calls.c and the jobs of bench/c_buffers.c by kazovuni_submit_pointers (that program built with these
# alone), which both libraries have, go by turns on the two, and each may take 1.03 of its time on the older one at
# most; how far memmove and the rows `libc`, which are neither's, are from 1 shows what is chance.
# BENCH is the program dml_bench as it was before there were batches. It goes by turns too, and the batch of moves, in
# one piece and on an image, may take 1.02 of the list of them on its engine.
#
# Wants rt, ar, a C compiler as $CC or cc, with $CFLAGS or -O2, and the program dml_bench built (rt run in
# crates/dml_bench). Each round runs all programs, every second round in the opposite order, and a difference or a ratio
# is taken within its round. Exit status: 0 where all bars are met, 1 where one is missed, 2 where nothing was measured,
# or where the load before was higher than there are processors, by which no bar can be judged.
here=$(cd "$(dirname "$0")" && pwd)
rounds=${1:-15}
older=${2:-}
proved=$here/../crates/dml_bench/out/dml_bench
listed=${3:-}
if [ ! -x "$proved" ]; then
    echo "bench/c_calls.sh: $proved is not built: run 'rt run' in crates/dml_bench" >&2
    exit 2
fi
work=$(mktemp -d) || exit 2
trap 'rm -rf "$work"' EXIT

# installed CHECKOUT PREFIX: builds the library of a checkout
installed() {
    "$1/tools/install_library.sh" "$2" >"$work/log" 2>&1 || { cat "$work/log" >&2; exit 2; }
}

# built NAME PREFIX PROGRAM FLAG..: builds a program of this folder with an installed library
built() {
    name=$1 prefix=$2 program=$3
    shift 3
    "${CC:-cc}" ${CFLAGS:--O2} -std=c11 -D_POSIX_C_SOURCE=200809L "$@" -I"$prefix/include" -o "$work/$name" \
        "$here/$program.c" "$prefix/lib/libkazovuni.a" || exit 2
}

installed "$here/.." "$work/now"
built c_calls "$work/now" c_calls
built c_buffers "$work/now" c_buffers
built c_whole "$work/now" c_whole
built c_regions "$work/now" c_regions
programs='c_calls c_whole c_regions dml_bench c_buffers' backwards='c_buffers dml_bench c_regions c_whole c_calls'
if [ -n "$older" ]; then
    [ -f "$older/lib/libkazovuni.a" ] || { installed "$older" "$work/before"; older=$work/before; }
    built older "$older" c_calls
    built now_buffers "$work/now" c_buffers -DPOINTERS_ALONE
    built older_buffers "$older" c_buffers -DPOINTERS_ALONE
    programs='c_calls older c_whole c_regions dml_bench c_buffers now_buffers older_buffers'
    backwards='older_buffers now_buffers c_buffers dml_bench c_regions c_whole older c_calls'
fi
if [ -n "$listed" ]; then
    [ -x "$listed" ] || { echo "bench/c_calls.sh: $listed is no program" >&2; exit 2; }
    programs="$programs older_bench" backwards="older_bench $backwards"
fi

# listed_moves ROUND NAME: the time of each of 1,024 moves of a page in a list, of the rows of dml_bench
listed_moves() {
    awk -v round="$1" -v name="$2" \
        '$1 == "list_page_moves" && $2 == 1 { printf "%d %s 4096 %.2f\n", round, name, $3 / 1024 }' "$work/rows"
}

# one ROUND PROGRAM: writes "ROUND NAME BYTES NANOSECONDS" for each row of a program; those of the older library get a
# name of their own, and so do those of the program that is beside it.
one() {
    case $2 in
        dml_bench) "$proved" 8 2>"$work/rows" >"$work/out" || exit 2 ;;
        older_bench) "$listed" 8 2>"$work/rows" >"$work/out" || exit 2 ;;
        *) "$work/$2" >"$work/rows" || exit 2 ;;
    esac
    case $2 in
        dml_bench)
            sed -n "s/^\(over_move\|own_move\) /$1 &/p" "$work/rows"
            listed_moves "$1" list_page_moves
            ;;
        older_bench) listed_moves "$1" older_list_page_moves ;;
        older | older_buffers) sed "s/^/$1 older_/" "$work/rows" ;;
        now_buffers) sed "s/^/$1 now_/" "$work/rows" ;;
        *) sed "s/^/$1 /" "$work/rows" ;;
    esac >>"$work/times"
}

echo "machine: $(sed -n 's/^model name[^:]*: //p' /proc/cpuinfo | head -n 1), $(nproc) processors"
echo "load before: $(cut -d ' ' -f 1-3 /proc/loadavg)"
busy=$(awk -v most="$(nproc)" '{ print ($1 > most) }' /proc/loadavg)
round=1
while [ "$round" -le "$rounds" ]; do
    for program in $([ $((round % 2)) -eq 1 ] && echo "$programs" || echo "$backwards"); do
        one "$round" "$program"
    done
    round=$((round + 1))
done

awk -v busy="$busy" -v older="${older:+1}" -v listed="${listed:+1}" '
    BEGIN {
        split("buffers execute", ways, " "); split("pointers libc", kept, " ")
        regionals = split("move fill compare compare_pattern dualcast create apply", regional, " ")
        places = split("moves_batch moves_batch_on_image moves_batch_at", place, " ")
        split("in one piece,on an image,over eight regions", place_names, ",")
    }
    function sort(list, count,    i, j, t) {
        for (i = 2; i <= count; i++)
            for (j = i; j > 1 && list[j - 1] > list[j]; j--) {
                t = list[j]; list[j] = list[j - 1]; list[j - 1] = t
            }
    }
    function median(list, count) {
        sort(list, count)
        return count % 2 ? list[(count + 1) / 2] : (list[count / 2] + list[count / 2 + 1]) / 2
    }
    function over(name, base, bytes,    r, list) {
        for (r = 1; r <= rounds; r++) {
            if (!((r, name, bytes) in times) || !((r, base, bytes) in times)) {
                printf "no time of %s or %s, %d bytes: run \"rt run\" in crates/dml_bench\n", name, base, bytes
                exit 2
            }
            list[r] = times[r, name, bytes] - times[r, base, bytes]
        }
        return median(list, rounds)
    }
    function ratio(name, base, bytes,    r, list) {
        for (r = 1; r <= rounds; r++) list[r] = times[r, name, bytes] / times[r, base, bytes]
        return median(list, rounds)
    }
    function middle_of(name, bytes,    r, list) {
        for (r = 1; r <= rounds; r++) list[r] = times[r, name, bytes]
        return median(list, rounds)
    }
    function ratio_bar(text, value, most) {
        if (value > most) missed++
        bars++
        printf("%-72s %6.3f, at most %.2f: %s\n", text, value, most, (value > most) ? "missed" : "met")
    }
    function beside_older(text, name, base, bytes) {
        if ((1, base, bytes) in times)
            printf "%-28s %8d %9.1f %9.1f %9.3f\n", text, bytes, middle_of(name, bytes), middle_of(base, bytes), \
                ratio(name, base, bytes)
    }
    function bar_to_older(text, name, base, bytes) {
        ratio_bar(text " of " bytes " bytes, to the older library", ratio(name, base, bytes), 1.03)
    }
    function bar(text, value, most) {
        if (value > most) missed++
        bars++
        printf("%-72s %6.1f, at most %d: %s\n", text, value, most, (value > most) ? "missed" : "met")
    }
    { times[$1, $2, $3] = $4; if ($1 > rounds) rounds = $1 }
    $1 == 1 && $2 ~ /^buffers_/ { job[++jobs] = substr($2, 9) " " $3 }
    $1 == 1 && $2 !~ /^(older|now|buffers|execute|pointers|libc|entries)_/ { row[++rows] = $2 " " $3 }
    END {
        printf "%d rounds, nanoseconds of a job\n%-28s %8s %9s %9s\n", rounds, "call", "bytes", "least", "median"
        for (n = 1; n <= rows; n++) {
            split(row[n], part, " ")
            for (r = 1; r <= rounds; r++) list[r] = times[r, part[1], part[2]]
            middle = median(list, rounds)
            printf "%-28s %8d %9.1f %9.1f\n", part[1], part[2], list[1], middle
        }
        if (older)
            printf "\n%-28s %8s %9s %9s %9s\n", "call, medians", "bytes", "now", "older", "now/older"
        for (n = 1; older && n <= rows; n++) {
            split(row[n], part, " ")
            beside_older(part[1], part[1], "older_" part[1], part[2])
        }
        for (n = 1; older && n <= jobs; n++) {
            split(job[n], part, " ")
            for (way = 1; way <= 2; way++) {
                name = kept[way] "_" part[1]
                beside_older(name, "now_" name, "older_" name, part[2])
            }
        }
        printf "\n%-16s %8s %11s %11s %11s %9s %9s\n", "job, medians", "bytes", "buffers", "execute", "pointers", \
            "buffers/", "execute/"
        for (n = 1; n <= jobs; n++) {
            split(job[n], part, " ")
            base = "pointers_" part[1]
            printf "%-16s %8d %11.1f %11.1f %11.1f %9.2f %9.2f\n", part[1], part[2], \
                middle_of("buffers_" part[1], part[2]), middle_of("execute_" part[1], part[2]), \
                middle_of(base, part[2]), ratio("buffers_" part[1], base, part[2]), \
                ratio("execute_" part[1], base, part[2])
        }
        printf "\n"
        if (busy) {
            printf "the load was higher than there are processors: no bar can be judged\n"
            exit 2
        }
        bar("kazovuni_submit_over of 4096 bytes, over memmove", over("kazovuni_submit_over", "memmove", 4096), 60)
        bar("kazovuni_submit_whole of 4096 bytes in 1 GiB, over memmove", \
            over("kazovuni_submit_whole", "memmove_in_1_GiB", 4096), 20)
        for (bytes = 64; bytes <= 4096; bytes *= 64) {
            bar("kazovuni_submit_over of " bytes " bytes, over submit_over in Rattle", \
                over("kazovuni_submit_over", "over_move", bytes), 20)
            bar("kazovuni_submit (a handle) of " bytes " bytes, over submit_to in Rattle", \
                over("kazovuni_submit", "own_move", bytes), 20)
        }
        ratio_bar("create of a page with the staging of an engine, to kazovuni_submit_whole", \
            ratio("create_in", "create_whole", 4096), 0.85)
        ratio_bar("apply of 20 entries with the staging of an engine, to the same", \
            ratio("apply_in", "apply_whole", 4096), 0.75)
        for (n = 1; n <= regionals; n++)
            for (bytes = 64; bytes <= 4096; bytes *= 64)
                bar(regional[n] " of " bytes " bytes over eight regions, over the same over one", \
                    over(regional[n] "_at_eight", regional[n] "_at_one", bytes), 40)
        if (!listed)
            print "no bar on batches: BENCH is not given"
        for (n = 1; n <= places; n++) {
            text = "batch of 1,024 moves of a page " place_names[n] ", to a list on an engine"
            printf("%-72s %6.3f\n", text, ratio(place[n], "list_page_moves", 4096))
            if (n < places && listed && (1, "older_list_page_moves", 4096) in times)
                ratio_bar(text " before", ratio(place[n], "older_list_page_moves", 4096), 1.02)
        }
        for (n = 1; older && n <= rows; n++) {
            split(row[n], part, " ")
            if (part[1] ~ /^kazovuni_/ && (1, "older_" part[1], part[2]) in times)
                bar_to_older(part[1], part[1], "older_" part[1], part[2])
        }
        for (n = 1; older && n <= jobs; n++) {
            split(job[n], part, " ")
            name = "pointers_" part[1]
            bar_to_older(part[1] " by pointers", "now_" name, "older_" name, part[2])
        }
        for (n = 1; n <= jobs; n++) {
            split(job[n], part, " ")
            most = part[2] >= 4096 ? 1.05 : part[2] > 64 ? 0 : part[1] == "move" ? 0.8 : \
                part[1] ~ /^(compare|create_none|create_all|apply_all|fill)$/ ? 0.5 : 0
            if (most > 0)
                for (way = 1; way <= 2; way++)
                    ratio_bar(part[1] " of " part[2] " bytes by " ways[way] ", to kazovuni_submit_pointers", \
                        ratio(ways[way] "_" part[1], "pointers_" part[1], part[2]), most)
            entries = part[1] ~ /^apply_/ ? times[1, "entries_" part[1], part[2]] : 0
            if (entries >= 64)
                for (way = 1; way <= 2; way++)
                    ratio_bar(part[1] " of " entries " entries by " ways[way] ", nanoseconds an entry", \
                        middle_of(ways[way] "_" part[1], part[2]) / entries, 2.5)
        }
        for (way = 1; way <= 2; way++)
            ratio_bar("compare of 4096 bytes by " ways[way] ", to memcmp", \
                ratio(ways[way] "_compare", "libc_compare", 4096), 2.5)
        printf "%d of %d bars of calls from C are missed\n", missed, bars
        exit missed > 0
    }' "$work/times"

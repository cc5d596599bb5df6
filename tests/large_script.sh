#!/bin/bash
# Scripts at the limit of 4 MiB, of the shortest lines of each sort and of long ones: what each answers, how much
# processor time its reading and its run take, and how much memory. Works on the binary that the gate leaves in
# crates/dmljob/out; `check` calls it. Needs bash, a C compiler (CC, or cc) and Linux.
[ -n "${BASH_VERSION:-}" ] || exec bash "$0" "$@"
set -u
export LC_ALL=C

limit=4194304        # bytes of the longest script
most_memory=2        # times the longest script, above what a script of one line takes
most_reading=1000    # milliseconds of processor time to read a script and refuse its last line
most_running=3000    # milliseconds of processor time to read a script, carry it out and write its answer

cd "$(dirname "$0")/.." || exit 2
dmljob=crates/dmljob/out/dmljob
if [ ! -x "$dmljob" ]; then
    echo "large_script: $dmljob is missing: run rt ci first" >&2
    exit 1
fi
work=$(mktemp -d) || exit 2
trap 'rm -rf "$work"' EXIT
"${CC:-cc}" -O2 -Wall -Wextra -Werror -o "$work/peak" tests/peak.c || exit 1
head=$'image 1\npage 0\n'
failed=0

complain() {
    printf 'large_script: %s\n' "$*" >&2
    failed=1
}

# make LINE LAST: the script `in` of as many of these lines as go between `head` and LAST; sets `lines`
make() {
    lines=$(((limit - ${#head} - ${#2}) / (${#1} + 1)))
    { printf '%s' "$head"; yes "$1" | head -n "$lines"; printf '%s' "$2"; } >"$work/in"
    size=$(wc -c <"$work/in")
    [ "$size" -le "$limit" ] && [ "$size" -gt "$((limit - ${#1} - 1))" ] || complain "$1: the script has $size bytes"
}

# carry_out NAME STATUS: runs the script `in`; the answer has to be the file `wanted`, and the text the file `said`.
# Sets `spent`, in milliseconds of processor time, and `resident`, in KiB.
carry_out() {
    local TIMEFORMAT='%3U %3S' user system got
    { time "$work/peak" "$work/resident" "$dmljob" run <"$work/in" >"$work/out" 2>"$work/err"; } 2>"$work/time"
    got=$?
    [ "$got" = "$2" ] || complain "$1: status $got, not $2"
    cmp "$work/out" "$work/wanted" >&2 || complain "$1: the standard output"
    cmp "$work/err" "$work/said" >&2 || complain "$1: the standard error says $(head -c 200 "$work/err")"
    read -r user system <"$work/time"
    spent=$((10#${user/./} + 10#${system/./}))
    resident=$(cat "$work/resident") || exit 1
}

# spends NAME MOST
spends() {
    [ "$spent" -le "$2" ] || complain "$1: takes $spent ms of processor time, at most $2 are wanted"
}

# holds NAME: the memory above that of a script of one line; sets `tenths`, its tenths of the longest script
holds() {
    local more=$((resident - least))
    tenths=$((more * 10240 / limit))
    [ "$((more * 1024))" -le "$((most_memory * limit))" ] ||
        complain "$1: holds $more KiB, $((tenths / 10)).$((tenths % 10)) times the script, at most $most_memory are wanted"
}

# jobs COMPLETED: the records of `lines` jobs that are done
jobs() {
    seq -f "job %.0f status 01 result 0 completed $1 fault 0 delta 0" 0 "$((lines - 1))"
}

# of NAME LINE ANSWER [WORD..]: a script of such lines, with a fault in its last line and without; the command
# ANSWER WORD.. writes what the second answers
of() {
    local name=$1 line=$2 reading
    shift 2
    make "$line" $'frob\n'
    : >"$work/wanted"
    printf 'dmljob: line %s: unknown word\n' "$((lines + 3))" >"$work/said"
    carry_out "$name, the last line at fault" 2
    spends "$name, the last line at fault" "$most_reading"
    holds "$name, the last line at fault"
    reading="$spent ms"
    make "$line" ''
    "$@" >"$work/wanted"
    : >"$work/said"
    carry_out "$name" 0
    spends "$name" "$most_running"
    holds "$name"
    printf 'large_script: %s: %s lines, read in %s, carried out in %s ms, %s.%s times the script in memory\n' \
        "$name" "$lines" "$reading" "$spent" "$((tenths / 10))" "$((tenths % 10))"
}

shown() {
    yes 'show 0 00' | head -n "$lines"
}

printf 'image 1\n' >"$work/in"
: >"$work/wanted"
: >"$work/said"
carry_out 'a script of one line' 0
least=$resident
printf 'large_script: a script of one line holds %s KiB\n' "$least"

of 'noop' 'noop' jobs 0
of 'poke' 'poke 0 00' true
of 'page' 'page 0' true
of 'show' 'show 0 1' shown
of 'fill' 'fill 0 0 0' jobs 0
of 'compare' 'compare 0 0 0' jobs 0
of 'comments' '#' true
of 'fills of a page' 'fill 0x0807060504030201 0 4096' jobs 4096
of 'fills of long lines' 'fill 0x0807060504030201 0x0000000000000ff0 0x0000000000000010' jobs 16

# The longest script is carried out, and one with one byte more is refused, whatever its lines say.
make 'noop' ''
yes '' | head -n "$((limit - size))" >>"$work/in"
jobs 0 >"$work/wanted"
carry_out 'a script of the longest size' 0
echo >>"$work/in"
[ "$(wc -c <"$work/in")" = "$((limit + 1))" ] || complain 'the script that is too long has another size'
: >"$work/wanted"
printf 'dmljob: the script is too long\n' >"$work/said"
carry_out 'a script that is too long' 2
spends 'a script that is too long' "$most_reading"
holds 'a script that is too long'

[ "$failed" = 0 ] && echo 'large_script: each script answers as it must, in time and in memory'
exit "$failed"

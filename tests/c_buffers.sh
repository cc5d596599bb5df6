#!/bin/sh
# Jobs straight over the caller's own buffers, through the C library as both of the kit's compilers make it: random ones
# against kazovuni_submit_pointers and the evaluator of tests/fuzz (tests/c/buffers_random.c), and buffers of exact
# length between pages that are not mapped (buffers_exact.c), both as gcc and as clang compile them, under the address,
# leak and undefined-behaviour sanitizers. In the first one no call of a refused job may be given a byte
# (buffers_wrapped.c), and a header whose kazovuni_execute does not check has to be seen by that; the second one runs
# under valgrind's memcheck too, where no byte beside a buffer may be touched, not by a load of which a part lies in it
# either, and a read that is planted there has to be reported. And eight threads over parts of one allocation with
# shared sources (buffers_threads.c), under helgrind and drd, each of which has to report the race that is planted then.
# `check` calls it.
#
# Usage, from anywhere: sh tests/c_buffers.sh [SEED [COUNT]]   seed 1 and 100,000 random jobs where nothing else is said
# Wants rt, gcc or clang with its sanitizers, and valgrind; where one of these is not there, a line says so.
cd "$(dirname "$0")/.." || exit 2
work=$(mktemp -d) || exit 2
trap 'rm -rf "$work"' EXIT
trap 'exit 2' HUP INT TERM
failed=0
seed=${1:-1}
count=${2:-100000}
strict='-std=c11 -Wall -Wextra -Werror -pedantic -gdwarf-4'
sanitized="-O1 -fsanitize=address,undefined -fno-sanitize-recover=all"
wrapped=tests/c/buffers_wrapped.c
for call in compare compare_pattern fill move move_within dualcast create_delta apply_delta; do
    wrapped="$wrapped -Wl,--wrap=kazovuni_$call"
done

complain() {
    printf 'c_buffers: %s\n' "$*" >&2
    failed=1
}

# has COMMAND: whether it is there and runs
has() {
    "$1" --version >/dev/null 2>&1 && return
    echo "c_buffers: no $1 here: what it would build or run is left out"
    return 1
}

# sanitizes COMPILER: whether it is there, and its sanitizers with it
sanitizes() {
    has "$1" || return
    echo 'int main(void) { return 0; }' >"$work/none.c"
    "$1" $sanitized -o "$work/none" "$work/none.c" 2>/dev/null && "$work/none" 2>/dev/null && return
    echo "c_buffers: $1 has no sanitizers here: what it would build or run is left out"
    return 1
}

# passes WHAT COMMAND..: a command that ends with status 0
passes() {
    what=$1
    shift
    "$@" >"$work/out" 2>&1 && return
    complain "$what: status $?"
    cat "$work/out" >&2
    return 1
}

# compiled NAME WORD..: compiles tests/c/buffers_NAME.c by the words, with the library of $kit
compiled() {
    name=$1
    shift
    passes "$name is compiled by $1" "$@" $strict -I"$work/$kit/include" -o "$work/$name" "tests/c/buffers_$name.c" \
        tests/fuzz/jobs.c "$work/$kit/lib/libkazovuni.a" -pthread
}

# unchecked COMPILER: without its check, kazovuni_execute makes ranges of a refused job's addresses, and that is seen
unchecked() {
    mkdir "$work/unchecked" || exit 2
    sed '/if (kazovuni_check(d, /,/return/d' include/kazovuni.h >"$work/unchecked/kazovuni.h"
    cmp -s include/kazovuni.h "$work/unchecked/kazovuni.h" && complain "kazovuni_execute has no such check any more"
    compiled random "$1" -O1 -I"$work/unchecked" $wrapped || return
    "$work/random" "$seed" 1000 >"$work/out" 2>&1
    grep -q 'a refused job, .*, comes with a range' "$work/out" ||
        complain "a kazovuni_execute that checks nothing is not seen"
}

# memcheck WORD: the exact buffers by that word, with each load that touches a byte beside one as an error
memcheck() {
    valgrind --partial-loads-ok=no --error-exitcode=9 "$work/exact" "$1"
}

# watches: memcheck reports nothing, by a program that tells it where the buffers end, and then the planted read
watches() {
    passes "exact buffers under memcheck, on the library of $kit" memcheck 61 && {
        grep -q 'no byte beside a buffer is touched' "$work/out" ||
            complain "exact buffers under memcheck: built without valgrind/memcheck.h, so nothing was watched"
    }
    memcheck beside >"$work/out" 2>&1
    status=$?
    [ "$status" = 9 ] || complain "memcheck does not report the planted read: status $status"
}

# reports TOOL: the planted race is reported, and without it nothing is
reports() {
    passes "$1 over the threads" valgrind --tool="$1" --error-exitcode=9 "$work/threads" 2 1024
    valgrind --tool="$1" --error-exitcode=9 "$work/threads" 2 1024 race >"$work/out" 2>&1
    status=$?
    [ "$status" = 9 ] || complain "$1 does not report the planted race: status $status"
}

for kit in llvm rattle; do
    passes "the library of $kit" tools/install_library.sh "$work/$kit" --backend "$kit" || exit 1
done
tried=
for compiler in gcc clang; do
    sanitizes "$compiler" || continue
    tried="$tried $compiler"
    for kit in llvm rattle; do
        by="by $compiler on the library of $kit"
        compiled random "$compiler" $sanitized $wrapped && passes "random jobs $by" "$work/random" "$seed" "$count"
        compiled exact "$compiler" $sanitized && passes "exact buffers $by" "$work/exact" 7
        compiled threads "$compiler" $sanitized && passes "threads $by" "$work/threads" 200 4096
    done
done
[ -n "$tried" ] || { complain "neither gcc nor clang is here with its sanitizers"; exit 1; }
unchecked ${tried##* }
for kit in llvm rattle; do
    compiled exact ${tried##* } -O2 || continue
    passes "exact buffers, all alignments, on the library of $kit" "$work/exact"
    compiled threads ${tried##* } -O2
    has valgrind || continue
    watches
    reports helgrind
    reports drd
done
[ "$failed" = 0 ] && echo "c_buffers: passed"
exit "$failed"

#!/bin/sh
# Jobs over regions of memory, and what else an engine is for beside its own image, through the C library as both of the
# kit's compilers make it: the names of the header beside those of linux/idxd.h (tests/c/names.c); each code, the order
# of the codes, and worked rows (regions.c), those of batches and fences among them (fences.c, batches.c); random jobs,
# lists and batches over random regions beside the same ones on an engine's own pages (regions_random.c): all of these
# as gcc and clang compile them, under the address, leak and undefined-behaviour sanitizers. And threads with engines of
# their own over pages that stand side by side, and with one engine and its page that go round (threads.c),
# under helgrind and drd, each of which has to report two planted races: one handle in two threads with no lock, and one
# page in two tables. An atomic, by which it goes round too, these two do not know: the thread sanitizer looks at that,
# as far as it is told of memory, and has to report the same round by an atomic that orders nothing. It looks too at
# records that one thread writes at a completion address while another one waits for their status, and has to report
# one that memcpy writes. `check` calls it.
#
# Usage, from anywhere: sh tests/c_regions.sh [SEED [COUNT]]   seed 1 and 100,000 random jobs where nothing else is said
# Wants rt, gcc or clang with its sanitizers, and valgrind; where one of these is not there, a line says so.
cd "$(dirname "$0")/.." || exit 2
work=$(mktemp -d) || exit 2
trap 'rm -rf "$work"' EXIT
trap 'exit 2' HUP INT TERM
failed=0
seed=${1:-1}
count=${2:-100000}
strict='-std=c11 -Wall -Wextra -Werror -pedantic -Wno-missing-field-initializers -gdwarf-4'
sanitized="-O1 -fsanitize=address,undefined -fno-sanitize-recover=all"
ordered="-O1 -fsanitize=thread -fno-builtin" # so that memcpy and memset are calls, which the sanitizer sees

complain() {
    printf 'c_regions: %s\n' "$*" >&2
    failed=1
}

# has COMMAND: whether it is there and runs
has() {
    "$1" --version >/dev/null 2>&1 && return
    echo "c_regions: no $1 here: what it would build or run is left out"
    return 1
}

# sanitizes COMPILER WORD..: whether it is there, and its sanitizers of these words with it
sanitizes() {
    has "$1" || return
    echo 'int main(void) { return 0; }' >"$work/none.c"
    "$@" -o "$work/none" "$work/none.c" 2>/dev/null && "$work/none" 2>/dev/null && return
    echo "c_regions: $* has no sanitizers here: what it would build or run is left out"
    return 1
}

# passes WHAT COMMAND..: a command that ends with status 0
passes() {
    what=$1
    shift
    "$@" >"$work/out" 2>&1 && return
    complain "$what: status $?"
    cat "$work/out" >&2
    return 1
}

# compiled NAME WORD..: compiles tests/c/NAME.c by the words, with the library of $kit
compiled() {
    name=$1
    shift
    passes "$name is compiled by $1" "$@" $strict -I"$work/$kit/include" -o "$work/$name" "tests/c/$name.c" \
        "$work/$kit/lib/libkazovuni.a" -pthread
}

# left_out: what the program that ran last says that it left out, for want of memory that the system reserves
left_out() {
    sed -n 's/.* left out$/c_regions: &/p' "$work/out"
}

# reports TOOL: each planted race is reported, and without one nothing is
reports() {
    passes "$1 over the threads" valgrind --tool="$1" --error-exitcode=9 "$work/threads" 40
    for race in handle region; do
        valgrind --tool="$1" --error-exitcode=9 "$work/threads" 40 "$race" >"$work/out" 2>&1
        status=$?
        [ "$status" = 9 ] || complain "$1 does not report the planted race of a $race: status $status"
    done
}

# orders: a round by an atomic, and records at a completion address; and what has to be reported: an atomic that orders
# nothing (relaxed), and a record that memcpy writes (early)
orders() {
    passes "the thread sanitizer over an atomic $by" "$work/threads" 40 atomic
    passes "the thread sanitizer over records $by" "$work/threads" 40 record
    for race in relaxed early; do
        "$work/threads" 40 "$race" >"$work/out" 2>&1
        status=$?
        [ "$status" = 66 ] || complain "the thread sanitizer does not report the planted race $race $by: status $status"
    done
}

for kit in llvm rattle; do
    passes "the library of $kit" tools/install_library.sh "$work/$kit" --backend "$kit" || exit 1
done
tried=
for compiler in gcc clang; do
    sanitizes "$compiler" $sanitized || continue
    tried="$tried $compiler"
    for kit in llvm rattle; do
        by="by $compiler on the library of $kit"
        compiled names "$compiler" $sanitized
        compiled regions "$compiler" $sanitized && passes "rows $by" "$work/regions" && left_out
        compiled fences "$compiler" $sanitized && passes "fences $by" "$work/fences" && left_out
        compiled batches "$compiler" $sanitized && passes "batches $by" "$work/batches" && left_out
        compiled regions_random "$compiler" $sanitized &&
            passes "random jobs $by" "$work/regions_random" "$count" "$seed"
        compiled threads "$compiler" $sanitized && passes "threads $by" "$work/threads" 200 &&
            passes "threads by an atomic $by" "$work/threads" 200 atomic &&
            passes "records $by" "$work/threads" 200 record
    done
    sanitizes "$compiler" $ordered || continue
    for kit in llvm rattle; do
        by="by $compiler on the library of $kit"
        compiled threads "$compiler" $ordered && orders
    done
done
[ -n "$tried" ] || { complain "neither gcc nor clang is here with its sanitizers"; exit 1; }
has valgrind && for kit in llvm rattle; do
    compiled threads ${tried##* } -O2 || continue
    reports helgrind
    reports drd
done
[ "$failed" = 0 ] && echo "c_regions: passed"
exit "$failed"

#!/bin/sh
# Runs the worked rows of tests/c/table.rows, those of calls that are no jobs, and each growth refused in turn, through
# the C library; builds the examples of examples/c, runs them and compares what they print; plays the log of a driver
# against the little device; and runs the programs in C of docs/C.md, each in a main of its own. All of that as gcc and
# as clang compile it, under the address, leak and undefined-behaviour sanitizers, on the library as both of the kit's
# compilers make it; then each example as the head of its file says it, and lengths that 32 bits do not hold by the
# words of the examples in Rust and Python. The program of docs/C.md for Intel's C++ interface is compared with its
# port, and compiled with its names declared. `check` calls it. Wants rt, gcc or clang with its sanitizers, and basenc;
# where a compiler or another language is not there, a line says so.
cd "$(dirname "$0")/.." || exit 2
work=$(mktemp -d) || exit 2
trap 'rm -rf "$work"' EXIT
trap 'exit 2' HUP INT TERM
failed=0
sanitized='-fsanitize=address,undefined -fno-sanitize-recover=all'
strict="-Wall -Wextra -Werror -pedantic -Wno-missing-field-initializers -O1 -g $sanitized"

complain() {
    printf 'c_examples: %s\n' "$*" >&2
    failed=1
}

# has COMMAND: whether it is there and runs
has() {
    "$1" --version >/dev/null 2>&1 && return
    echo "c_examples: no $1 here: what it would build or run is left out"
    return 1
}

# sanitizes COMPILER: whether it is there, and its sanitizers with it
sanitizes() {
    has "$1" || return
    echo 'int main() { return 0; }' >"$work/none.c"
    "$1" $sanitized -o "$work/none" "$work/none.c" 2>/dev/null && "$work/none" 2>/dev/null && return
    echo "c_examples: $1 has no sanitizers here: what it would build or run is left out"
    return 1
}

# passes WHAT COMMAND..: a command that ends with status 0
passes() {
    what=$1
    shift
    "$@" >"$work/out" 2>&1 && return
    complain "$what: status $?"
    cat "$work/out" >&2
    return 1
}

# prints WHAT ANSWER COMMAND..: a command that ends with status 0 and prints what stands in a file
prints() {
    what=$1 answer=$2
    shift 2
    "$@" >"$work/printed" 2>"$work/out" || { complain "$what: status $?"; cat "$work/out" >&2; }
    cmp "$work/printed" "$answer" >&2 || complain "$what: it does not print what stands in $answer"
}

# compiled NAME WORD..: compiles a program from the words, strictly, with the library of $kit
compiled() {
    name=$1
    shift
    passes "$name is compiled by $1" "$@" $strict -I"$work/$kit/include" -o "$work/$name" "$work/$kit/lib/libkazovuni.a"
}

# ---- the worked rows

# left_out: what the program that ran last says that it left out, for want of memory that the system reserves
left_out() {
    sed -n 's/.* left out$/c_examples: &/p' "$work/out"
}

# try_rows COMPILER
try_rows() {
    compiled table "$1" -std=c11 tests/c/table.c &&
        passes "the rows by $1 on the library of $kit" "$work/table" tests/c/table.rows && left_out
    compiled calls "$1" -std=c11 tests/c/table_calls.c &&
        passes "the calls by $1 on the library of $kit" "$work/calls" && left_out
    compiled refused "$1" -std=c11 -Wl,--wrap=malloc,--wrap=realloc,--wrap=free tests/c/table_refused.c &&
        passes "the refused growths by $1 on the library of $kit" "$work/refused"
}

# ---- the examples

# try_examples SUFFIX COMPILER WORD..: those in C, or in C++; the device is both
try_examples() {
    suffix=$1
    shift
    for example in buffers gather move delta fault; do
        compiled "$example" "$@" "examples/c/$example.$suffix" &&
            prints "$example.$suffix by $1 on the library of $kit" "examples/c/$example.answer" "$work/$example"
    done
    for example in storage monitor; do
        [ "$suffix" = c ] || continue # these are in C alone
        compiled "$example" "$@" "examples/c/$example.c" &&
            prints "$example.c by $1 on the library of $kit" "examples/c/$example.answer" "$work/$example"
    done
    [ "$suffix" = c ] || set -- "$@" -x c++
    compiled device "$@" examples/c/device.c -x none && try_device "the device by $1 on the library of $kit"
}

# The bytes of hexadecimal text.
bytes() {
    tr a-f A-F | basenc --base16 -di
}

# answers WHAT STATUS INPUT WORD..: plays an input against the device; the records, one in a line, are in `printed` then
answers() {
    what=$1 status=$2 input=$3
    shift 3
    "$work/device" "$@" <"$input" >"$work/records" 2>"$work/out"
    answer=$?
    [ "$answer" = "$status" ] || { complain "$what: status $answer, not $status, of: $*"; cat "$work/out" >&2; }
    od -An -v -tx1 -w32 <"$work/records" >"$work/printed"
}

# only WHAT FIRST: the one record in `printed` has these first bytes, and zeros behind them
only() {
    printf '%s\n' "$2" | awk '{ while (NF < 32) $0 = $0 " 00"; print " " $0 }' >"$work/wanted"
    cmp "$work/printed" "$work/wanted" >&2 || complain "$1: the record is another one than $2"
}

zeros=0000000000000000
behind="00000000 $zeros $zeros $zeros"
printf '%s' "00000000 00000004 $zeros 0102030405060708 fa0f000000000000 0c000000 $behind" | bytes >"$work/fill.job"
printf '%s' "00000000 0c000003 $zeros 0010000000000000 0020000000000000 64000000 $behind" | bytes >"$work/move.job"
head -c 63 "$work/move.job" >"$work/part.job"
grep -v '^#' examples/c/device.log | bytes >"$work/log.job"

# try_device WHAT
try_device() {
    answers "$1" 0 "$work/log.job" -p 1
    cmp "$work/printed" examples/c/device.answer >&2 || complain "$1: other records of the log than device.answer has"
    head -c 4096 /dev/zero >"$work/memory"
    answers "$1" 0 "$work/fill.job" -m "$work/memory"
    only "$1" '83 00 00 00 06 00 00 00 00 10'
    { head -c 4090 /dev/zero && printf '\001\002\003\004\005\006'; } | cmp - "$work/memory" >&2 ||
        complain "$1: other bytes are left in the file"
    answers "$1" 0 "$work/move.job" -p 2 -b 0x1000 # its two pages are those at 4096 and 8192
    only "$1" '01 00 00 00 64'
    answers "$1" 0 "$work/move.job" -p 1 -b 4096
    only "$1" '83 00 00 00 00 00 00 00 00 20'
    answers "$1" 1 "$work/part.job"
    answers "$1" 1 "$work/fill.job" -m "$work/none"
    head -c 4095 /dev/zero >"$work/memory"
    answers "$1" 1 "$work/fill.job" -m "$work/memory"
    for words in '-p 0' '-p 4097' '-p x' '-b 1' '-q' 'log'; do
        answers "$1" 2 "$work/fill.job" $words
        [ -s "$work/records" ] && complain "$1: a record, though the words are wrong: $words"
    done
    try_waiting "$1"
}

# try_waiting WHAT: a driver that waits for each record before its next descriptor
try_waiting() {
    rm -f "$work/to" "$work/from"
    mkfifo "$work/to" "$work/from" || exit 2
    timeout 60 "$work/device" -p 2 <"$work/to" >"$work/from" &
    device=$!
    exec 8>"$work/to" 9<"$work/from"
    for _ in 1 2; do
        cat "$work/fill.job" >&8
        dd bs=32 count=1 <&9 2>/dev/null | od -An -v -tx1 -w32 >"$work/printed"
        only "$1, waited for" '01 00 00 00 0c'
    done
    exec 8>&- 9<&-
    wait "$device" || complain "$1: it does not end with its input"
}

# ---- the programs of docs/C.md

# What each of those in C leaves, in their order there, one in a line.
cat >"$work/left" <<'END'
memcmp(to, from, 5000) == 0
records[1][0] == 0x01 && memcmp(to, pool + 100, 500) == 0
memcmp(replica, pool + 100, 5000) == 0
memcmp(replica, pool, 8192) == 0
memcmp(pool + 40000, pool + 100, 5000) == 0
memcmp(pool + 40000, pool + 100, 5000) == 0 && memcmp(pool + 60000, pool + 100, 5000) == 0
END

# Cuts them out of the page: each block that is indented, and declares something of a type of kazovuni.h.
cut_programs() {
    awk -v file="$work/page." '
        function put() {
            if (is_c) { number++; printf "%s", text >(file number) }
            inside = is_c = 0
            text = ""
        }
        /^    / { inside = 1 }
        /^    kazovuni_[a-z]* / { is_c = 1 }
        inside && !/^    / && !/^$/ { put() }
        inside { text = text substr($0, 5) "\n" }
        END { put() }
    ' docs/C.md
    [ "$(ls "$work"/page.* | wc -l)" = "$(wc -l <"$work/left")" ] ||
        complain "docs/C.md has not as many programs in C as are known here"
}

# in_main NUMBER WANTED: one of them as a whole program: in a main with the arrays that the page names, which ends with
# status 0 only where what is wanted holds behind the page's lines
in_main() {
    cat <<'END'
#include <kazovuni.h>
uint8_t from[5000], to[5000], pool[65536], replica[65536];
int main(void)
{
    for (int i = 0; i < 65536; i++)
        from[i % 5000] = pool[i] = (uint8_t)(i % 251 + 1);
END
    grep -v '^#include' "$work/page.$1"
    printf 'return !(%s);\n}\n' "$2"
}

# try_programs COMPILER
try_programs() {
    number=0
    while read -r wanted; do
        number=$((number + 1))
        in_main "$number" "$wanted" >"$work/program_$number.c"
        compiled "program_$number" "$1" -std=c11 "$work/program_$number.c" &&
            passes "program $number of docs/C.md by $1 on the library of $kit" "$work/program_$number"
    done <"$work/left"
}

# program FIRST: the lines of docs/C.md from one on, as long as they are indented
program() {
    sed -n "/^    $1\$/,/^[^ ]/p" docs/C.md | grep '^ ' | sed 's/^ *//'
}

# The program of docs/C.md for Intel's C++ interface is the other one there but for its names, and that stands in
# buffers.cpp, line by line.
try_ported() {
    program '#include "dml.dml.hpp"' | sed 's|dml/dml|kazovuni|; s/dml::/kazovuni::/g' >"$work/intel"
    program '#include "kazovuni.hpp"' >"$work/ported"
    sed 's/^ *//' examples/c/buffers.cpp >"$work/lines"
    [ "$(wc -l <"$work/ported")" -gt 15 ] || complain "docs/C.md: no program for Intel's C++ interface"
    cmp "$work/intel" "$work/ported" >&2 || complain "docs/C.md: the two programs differ in more than names"
    grep -vxFf "$work/lines" "$work/ported" >&2 && complain "examples/c/buffers.cpp has not these lines of docs/C.md"
}

# try_intel COMPILER: that program by its own names, with declarations of these that stand for Intel's header
try_intel() {
    mkdir -p "$work/stub/dml"
    cp tests/c/dml_stub.hpp "$work/stub/dml/dml.hpp"
    {
        program '#include "dml.dml.hpp"' | sed -n 1p
        echo '#include <vector>'
        echo 'int main() { std::vector<std::uint8_t> old_text(48), new_text(48), copy(48), delta(60);'
        program '#include "dml.dml.hpp"' | sed 1d
        echo 'return 0; }'
    } >"$work/intel.cpp"
    passes "the program for Intel's C++ interface is compiled by $1" "$1" -std=c++17 -Wall -Wextra -Werror -pedantic \
        -fsyntax-only -I"$work/stub" "$work/intel.cpp"
}

# ---- the examples as the heads of their files say it

# as_written FILE: runs the commands in the head of a file, in a copy of the folder, and what they build
as_written() {
    example=${1%.*}
    {
        echo "cd '$work/folder'"
        grep -oE '(cc -o|c\+\+ -std|rustc --|KAZOVUNI=|grep -v).*' "examples/c/$1" | sed "s|PREFIX|$work/llvm|g"
        case $1 in
            *.py | device.*) ;;
            *) echo "./$example" ;;
        esac
    } >"$work/commands"
    prints "$1, as its head says" "examples/c/$example.answer" sh -e "$work/commands"
    rm -f "$work/folder/$example"
}

# try_lengths LANGUAGE: lengths that 32 bits do not hold
try_lengths() {
    case $1 in
        rs)
            passes "lengths.rs is compiled" rustc --edition 2021 -L "$work/llvm/lib" -l static=kazovuni \
                -o "$work/lengths" tests/c/lengths.rs &&
                passes "the lengths in Rust" "$work/lengths"
            ;;
        py) passes "the lengths in Python" env KAZOVUNI="$work/llvm/lib/libkazovuni.so" python3 -B tests/c/lengths.py ;;
    esac
}

# ---- all of it

for kit in llvm rattle; do
    passes "the library of $kit" tools/install_library.sh "$work/$kit" --backend "$kit" || exit 1
done
cut_programs
tried=
for compiler in gcc clang; do
    sanitizes "$compiler" || continue
    tried="$tried $compiler"
    for kit in llvm rattle; do
        try_rows "$compiler"
        try_examples c "$compiler" -std=c11
        try_programs "$compiler"
    done
done
[ -n "$tried" ] || complain "neither gcc nor clang is here with its sanitizers"
for compiler in g++ clang++; do
    sanitizes "$compiler" || continue
    kit=llvm
    try_examples cpp "$compiler" -std=c++20
    try_intel "$compiler"
done

try_ported
cp -r examples/c "$work/folder" || exit 2
export PKG_CONFIG_PATH="$work/llvm/lib/pkgconfig" LD_LIBRARY_PATH="$work/llvm/lib${LD_LIBRARY_PATH:+:$LD_LIBRARY_PATH}"
if ! command -v pkg-config >/dev/null; then
    echo "c_examples: no pkg-config here: a script answers its words"
    mkdir "$work/bin" || exit 2
    printf '#!/bin/sh\necho "-I%s/include -L%s/lib -lkazovuni"\n' "$work/llvm" "$work/llvm" >"$work/bin/pkg-config"
    chmod +x "$work/bin/pkg-config"
    PATH=$PATH:$work/bin
fi
for language in 'cc c' 'c++ cpp' 'rustc rs' 'python3 py'; do
    has "${language% *}" || continue
    for file in examples/c/*."${language#* }"; do
        file=${file#examples/c/}
        [ "${file%.*}" = kazovuni ] || as_written "$file"
    done
    try_lengths "${language#* }"
done
[ "$failed" = 0 ] && echo "c_examples: passed"
exit "$failed"

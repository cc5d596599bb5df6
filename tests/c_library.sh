#!/bin/sh
# Builds and installs the C library into a folder of its own, as both of the kit's compilers make it, holds it against
# include/kazovuni.h and against what docs/C.md says that it takes from outside, and runs the worked rows through it: in
# C under the address, leak and undefined-behaviour sanitizers, with each growth of memory refused in turn, and over the
# shared library. `check` calls it. Wants a C compiler as $CC or cc, and nm; where c++, g++, clang++ and python3 are
# there, they try the headers and the shared library too, and where one is not, a line says so.
cd "$(dirname "$0")/.." || exit 2
work=$(mktemp -d) || exit 2
trap 'rm -rf "$work"' EXIT
cc=${CC:-cc}
failed=0

complain() {
    printf 'c_library: %s\n' "$*" >&2
    failed=1
}

# has COMMAND: whether it is there and runs
has() {
    "$1" --version >/dev/null 2>&1 && return
    echo "c_library: no $1 here: what it would try is left out"
    return 1
}

"$cc" -O2 -Wall -Wextra -Werror -shared -fPIC -o "$work/refuse.so" tests/refuse.c || exit 1

# The names that the header declares, and those that the library has; its own inline functions are in no library.
grep -o '\bkazovuni_[a-z_]*(' include/kazovuni.h | tr -d '(' | sort -u >"$work/named"
sed -n 's/^KAZOVUNI_INLINE .*\(kazovuni_[a-z_]*\)(.*/\1/p' include/kazovuni.h | sort -u >"$work/inline"
comm -23 "$work/named" "$work/inline" >"$work/declared"

# The functions that it may take from outside: docs/C.md names them.
printf '%s\n' free malloc memcpy memmove memset realloc >"$work/allowed"

# A caller whose arrays are not constant, for compilers that are strict: in C99 and later, and in C++.
cat >"$work/strict.c" <<'END'
#include "kazovuni.h"
static uint8_t page[KAZOVUNI_PAGE_BYTES], descriptors[2][KAZOVUNI_DESCRIPTOR_BYTES], records[2][KAZOVUNI_RECORD_BYTES];
int main(void)
{
    kazovuni_engine engine = {NULL, false};
    if (kazovuni_execute(descriptors[0], records[0]) != KAZOVUNI_OK || records[0][0] != 0x01)
        return 1;
    if (kazovuni_fill(descriptors[0], page, sizeof page, records[1]) != KAZOVUNI_OTHER_OPERATION)
        return 1;
    uint8_t code = kazovuni_submit_list_over(page, sizeof page, descriptors[0], 2, 0, records[0], 2);
    if (code != KAZOVUNI_OK || kazovuni_version() != KAZOVUNI_VERSION || kazovuni_check(descriptors[1], 0) != 0)
        return 1;
    kazovuni_region no_bytes = {0, NULL, KAZOVUNI_PAGE_BYTES};
    if (kazovuni_submit_at(&engine, &no_bytes, 1, descriptors[0], records[0]) != KAZOVUNI_NO_ENGINE)
        return 1;
    if (kazovuni_create_staging(&engine, 0) != KAZOVUNI_OK)
        return 1;
    code = kazovuni_submit_at(&engine, &no_bytes, 1, descriptors[0], records[0]);
    kazovuni_free(&engine);
    if (code != KAZOVUNI_NULL_REGION)
        return 1;
    return kazovuni_submit_list(&engine, descriptors[0], 2, records[0], 2) != KAZOVUNI_NO_ENGINE;
}
END
strict='-pedantic -Wall -Wextra -Werror -Wcast-qual -Wconversion'

# Two files of one C++ program, by -DOTHER or without: what the headers define is there once, whichever file asks.
cat >"$work/files.cpp" <<'END'
#include "kazovuni.hpp"
struct places {
    std::uint8_t (*execute)(const std::uint8_t *, std::uint8_t *);
    const std::size_t *most;
    const void *move;
};
places other_places();
static places own_places() { return {&kazovuni_execute, &kazovuni::detail::most_delta, &kazovuni::mem_move}; }
#ifdef OTHER
places other_places() { return own_places(); }
#else
int main()
{
    places here = own_places(), there = other_places();
    return here.execute != there.execute || here.most != there.most || here.move != there.move;
}
#endif
END

# try COMPILER: the library as this compiler of the kit makes it
try() {
    prefix=$work/$1
    tools/install_library.sh "$prefix" --backend "$1" >"$work/log" 2>&1 || {
        cat "$work/log" >&2
        complain "$1: not installed"
        return
    }
    nm -g --defined-only "$prefix/lib/libkazovuni.a" | sed -n 's/.* T \(kazovuni_.*\)/\1/p' | sort -u >"$work/names"
    cmp -s "$work/declared" "$work/names" || complain "$1: the header and the library have not the same names"
    nm -g --defined-only "$prefix/lib/libkazovuni.a" | sed -n 's/.* [A-Z] //p' | sort -u >"$work/own"
    nm -u "$prefix/lib/libkazovuni.a" | sed -n 's/^ *[Uwv] //p' | sort -u | comm -23 - "$work/own" >"$work/taken"
    outside=$(comm -23 "$work/taken" "$work/allowed")
    [ -z "$outside" ] || complain "$1: taken from outside, and not named in docs/C.md: $outside"
    "$cc" -std=c11 -Wall -Wextra -Werror -O1 -g -fsanitize=address,undefined -fno-sanitize-recover=all \
        -I"$prefix/include" -o "$work/rows" tests/c/rows.c "$prefix/lib/libkazovuni.a" &&
        ASAN_OPTIONS=detect_leaks=1 "$work/rows" >"$work/log" || complain "$1: the rows"
    for standard in c99 c11; do
        "$cc" -std=$standard $strict -I"$prefix/include" -o "$work/strict" "$work/strict.c" \
            "$prefix/lib/libkazovuni.a" && "$work/strict" || complain "$1: a strict caller in $standard"
    done
    "$cc" -std=c11 -O1 -I"$prefix/include" -o "$work/linked" tests/c/rows.c -L"$prefix/lib" -lkazovuni &&
        LD_LIBRARY_PATH=$prefix/lib "$work/linked" >"$work/log" || complain "$1: the rows over the shared library"
    "$cc" -std=c11 -Wall -Wextra -Werror -O1 -I"$prefix/include" -o "$work/refused" tests/c/refused.c \
        "$prefix/lib/libkazovuni.a" || complain "$1: the program of refused growths is not built"
    "$work/refused" 0 || complain "$1: with no growth refused"
    number=1
    while [ "$number" -le 20 ]; do
        rm -f "$work/met"
        REFUSE=$number REFUSE_LOG=$work/met LD_PRELOAD=$work/refuse.so "$work/refused" 1
        status=$?
        [ -f "$work/met" ] || break
        [ "$status" = 0 ] || complain "$1: growth $number refused: $status"
        number=$((number + 1))
    done
    [ "$number" = 12 ] || complain "$1: $((number - 1)) growths were met, and 11 are wanted"
}

# stricter COMPILER: the warning of casts to a value's own type, where a C++ compiler has it
echo 'int main() { return 0; }' >"$work/none.cpp"
stricter() {
    "$1" -Werror -Wuseless-cast -fsyntax-only "$work/none.cpp" 2>/dev/null && echo -Wuseless-cast
}

try llvm
try rattle
if has c++; then
    for standard in c++98 c++11 c++20; do
        c++ -x c++ -std=$standard $strict $(stricter c++) -I"$work/llvm/include" -o "$work/plus" "$work/strict.c" \
            -x none "$work/llvm/lib/libkazovuni.a" && "$work/plus" || complain "a strict caller in $standard"
    done
fi
for compiler in g++ clang++; do
    has $compiler || continue
    plus="$compiler -std=c++20 $strict $(stricter $compiler) -Wold-style-cast -Wshadow -I$work/llvm/include"
    $plus -DOTHER -c -o "$work/other.o" "$work/files.cpp" &&
        $plus -o "$work/files" "$work/files.cpp" "$work/other.o" "$work/llvm/lib/libkazovuni.a" && "$work/files" ||
        complain "two files by $compiler: status $?"
    sanitized="$plus -O1 -g -fsanitize=address,undefined -fno-sanitize-recover=all"
    if ! $sanitized -o "$work/none" "$work/none.cpp" 2>/dev/null || ! "$work/none"; then
        echo "c_library: $compiler has no sanitizers here: the spans are tried without them"
        sanitized="$plus -O1 -g"
    fi
    $sanitized -o "$work/spans" tests/c/spans.cpp "$work/llvm/lib/libkazovuni.a" && "$work/spans" ||
        complain "the spans by $compiler: status $?"
done
if has python3; then
    python3 - "$work/llvm/lib/libkazovuni.so" <<'END' || complain "Python"
import ctypes, sys
library = ctypes.CDLL(sys.argv[1])
library.kazovuni_submit_over.restype = ctypes.c_uint8
pages = (ctypes.c_uint8 * 4096)(*range(1, 6))
descriptor = (ctypes.c_uint8 * 64)()
descriptor[7], descriptor[24], descriptor[32] = 3, 100, 5
record = (ctypes.c_uint8 * 32)()
answer = library.kazovuni_submit_over(pages, ctypes.c_size_t(4096), descriptor, 4096, record)
assert answer == 0 and bytes(record[:8]) == bytes([1, 0, 0, 0, 5, 0, 0, 0]), (answer, bytes(record))
assert bytes(pages[100:106]) == bytes([1, 2, 3, 4, 5, 0])
END
fi
[ "$failed" = 0 ] && echo "c_library: passed"
exit "$failed"

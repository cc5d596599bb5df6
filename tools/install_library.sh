#!/bin/sh
# Proves and builds the C library, and installs it under a prefix: lib/libkazovuni.a, lib/libkazovuni.so,
# include/kazovuni.h, include/kazovuni.hpp and lib/pkgconfig/kazovuni.pc.
#
# Usage: tools/install_library.sh PREFIX [WORD..]   the further words go to rt lib, as --backend rattle
# Wants rt, ar, objcopy, a C compiler as $CC or cc; $DESTDIR stands before the prefix where it is set.
prefix=${1:?usage: tools/install_library.sh PREFIX [WORD..]}
shift
top=$(cd "$(dirname "$0")/.." && pwd)
case $prefix in
    /*) ;;
    *) prefix=$(pwd)/$prefix ;;
esac
root=${DESTDIR:-}$prefix
version=$(sed -n 's/^#define KAZOVUNI_VERSION UINT32_C(0x\(....\)\(....\))/\1 \2/p' "$top/include/kazovuni.h")
version=$(printf '%d.%d' 0x"${version% *}" 0x"${version#* }")
heap=$(dirname "$(rt doc | head -n 1)")/c/liblibc_c.a
work=$(mktemp -d) || exit 1
trap 'rm -rf "$work"' EXIT

# The library alone, and the three functions over malloc, realloc and free that its allocator calls.
(cd "$top/crates/dml_c" && rt lib "$@" >"$work/log" 2>&1) || { cat "$work/log" >&2; exit 1; }
(cd "$work" && ar x "$top/crates/dml_c/out/libdml_c.a" && ar x "$heap" heap.pic.o) || exit 1
# Each function begins at a multiple of 64 bytes: so what a job takes does not hang on how long other functions are.
for part in "$work"/*.o; do
    objcopy --set-section-alignment '.text.*=64' "$part" || exit 1
done
mkdir -p "$root/lib/pkgconfig" "$root/include" || exit 1
rm -f "$root/lib/libkazovuni.a"
ar rcs "$root/lib/libkazovuni.a" "$work"/*.o || exit 1
"${CC:-cc}" -shared -Wl,-soname,libkazovuni.so -o "$root/lib/libkazovuni.so" "$work"/*.o || exit 1
cp "$top/include/kazovuni.h" "$top/include/kazovuni.hpp" "$root/include/" || exit 1
cat >"$root/lib/pkgconfig/kazovuni.pc" <<END
prefix=$prefix
libdir=\${prefix}/lib
includedir=\${prefix}/include

Name: kazovuni
Description: Jobs of a data mover in software, over the caller's own memory
Version: $version
Libs: -L\${libdir} -lkazovuni
Cflags: -I\${includedir}
END
echo "installed under $root: version $version"

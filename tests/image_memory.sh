#!/bin/sh
# How much memory an image takes: one of 4,096 pages with k of them present at most k pages and 128 KiB, also
# where others were there and went. Counted by
# tests/held.c are the bytes that the allocator has given at the peak of the process, in dml_image's tests holds_K_pages,
# over those in holds_no_image. The resident memory is no measure of it: it differs by 200 KiB from run to run. Works on
# the binary that the gate leaves in crates/dml_image_tests/out; `check` calls it. Needs a C compiler (CC, or cc) and the
# GNU C library.
most_more=131072 # bytes above the present pages

cd "$(dirname "$0")/.." || exit 2
binary=crates/dml_image_tests/out/dml_image_tests_tests
if [ ! -x "$binary" ]; then
    echo "image_memory: $binary is missing: run rt ci first" >&2
    exit 1
fi
work=$(mktemp -d) || exit 2
trap 'rm -rf "$work"' EXIT
"${CC:-cc}" -O2 -Wall -Wextra -Werror -shared -fPIC -o "$work/held.so" tests/held.c || exit 1
"$binary" --list | sed -n 's/: test$//p' >"$work/list"
failed=0

complain() {
    printf 'image_memory: %s\n' "$*" >&2
    failed=1
}

# peak NAME: sets `held`, the peak of the test of this name, in bytes
peak() {
    held=0
    test=$(grep "\(^\|:\)$1\$" "$work/list")
    if [ -z "$test" ]; then
        complain "there is no test $1"
        return
    fi
    rm -f "$work/held"
    HELD=$work/held LD_PRELOAD=$work/held.so "$binary" "$test" >"$work/out" 2>&1 ||
        complain "$test: $(head -c 200 "$work/out")"
    held=$(cat "$work/held") || complain "$test: nothing was counted"
}

peak holds_no_image
base=$held
for pages in 0 3 64 2048 4096; do
    peak "holds_${pages}_pages"
    more=$((held - base - 4096 * pages))
    [ "$more" -le "$most_more" ] ||
        complain "$pages present pages: $more bytes above them, at most $most_more are wanted"
    [ "$((held - base))" -ge "$((4096 * pages))" ] || complain "$pages present pages: they are not held"
    printf 'image_memory: %s present pages: %s bytes above them\n' "$pages" "$more"
done

# 4,096 pages one after another, each of which is evicted before the next one comes
peak holds_pages_that_went
more=$((held - base - 4096))
[ "$more" -le "$most_more" ] || complain "pages that went: $more bytes above one page, at most $most_more are wanted"
printf 'image_memory: pages that went: %s bytes above one page\n' "$more"

[ "$failed" = 0 ] && echo 'image_memory: each image takes its present pages and a table'
exit "$failed"

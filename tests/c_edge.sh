#!/bin/sh
# The C edge: the header, what the archive holds, the example, the comparison with the peer, the same under sanitizers,
# and a short run of the benchmark. Needs target/staticlib/libhub.a, which tools/build makes.
set -eu
cd "$(dirname "$0")/.."
archive=target/staticlib/libhub.a
built=target/c
strict='-std=c99 -Wall -Wextra -Wpedantic -Wconversion -Wshadow -Werror -Iinclude -Itests'
sanitized='-g -O1 -fsanitize=address,undefined -fno-sanitize-recover=all'
compare='tests/compare.c tests/compare/*.c tests/peer.c'

fail() {
    echo "c_edge: $1" >&2
    exit 1
}

# built_as NAME OPTION...: a program of strict C99, linked with the archive.
built_as() {
    name=$1
    shift
    # shellcheck disable=SC2086
    gcc $strict "$@" "$archive" -o "$built/$name"
}

[ -f "$archive" ] || fail "no $archive: run tools/build archive"
mkdir -p "$built"

sh tests/header.sh

# as the header says: of the C library memmove and memset alone, and no data that is written
called=$(nm -u "$archive" | sed -n 's/^ *U //p' | sort -u | tr '\n' ' ')
[ "$called" = 'memmove memset ' ] || fail "the archive calls $called"
kept=$(size "$archive" | awk 'NR > 1 { kept += $2 + $3 } END { print kept }')
[ "$kept" = 0 ] || fail "the archive has $kept bytes of data"
echo "c_edge: the archive calls memmove and memset alone and has no data of its own"

built_as hub -O2 examples/hub.c
timeout 10 "$built/hub" | diff examples/hub.txt - || fail "examples/hub.c prints something else"
echo "c_edge: the example prints what it should"

# shellcheck disable=SC2086
built_as compare -O2 $compare
timeout 120 "$built/compare"

# shellcheck disable=SC2086
built_as hub_sanitized $sanitized examples/hub.c
timeout 20 "$built/hub_sanitized" | diff examples/hub.txt - || fail "examples/hub.c fails under sanitizers"
# shellcheck disable=SC2086
built_as compare_sanitized $sanitized $compare
timeout 120 "$built/compare_sanitized" 2 500000 >"$built/compare_sanitized.txt" || {
    cat "$built/compare_sanitized.txt"
    fail "the comparison fails under sanitizers"
}
head -1 "$built/compare_sanitized.txt"

tests/benchmark --quick

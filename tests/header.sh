#!/bin/sh
# Compiles include/thuyrekho.h as C and as C++: its numbers and types, alone, twice, and what it includes.
set -eu

root=$(cd "$(dirname "$0")/.." && pwd)
strict='-Wall -Wextra -Wpedantic -Wconversion -Wshadow -Werror'
once='#include "thuyrekho.h"'

fail() {
    echo "header: $1" >&2
    exit 1
}

# compiled LANGUAGE STANDARD OPTION...: compiles standard input and keeps nothing.
compiled() {
    language=$1
    standard=$2
    shift 2
    case $language in
        c) compiler=${CC:-gcc} ;;
        *) compiler=${CXX:-g++} ;;
    esac
    # $strict and the compiler may be several words.
    # shellcheck disable=SC2086
    $compiler -x "$language" -std="$standard" $strict -fsyntax-only -I"$root/include" "$@" -
}

# included LANGUAGE STANDARD: the names of the files that the header itself includes, sorted.
included() {
    printf '%s\n' "$once" | compiled "$1" "$2" -H 2>&1 | sed -n 's|^\.\. .*/||p' | sort -u | tr '\n' ' '
}

checked() {
    compiled "$1" "$2" <"$root/tests/header.c" || fail "tests/header.c does not compile as $2"
    printf '%s\n' "$once" | compiled "$1" "$2" || fail "does not compile alone as $2"
    printf '%s\n' "$once" "$once" | compiled "$1" "$2" || fail "does not compile twice as $2"
    [ "$(included "$1" "$2")" = 'stddef.h stdint.h ' ] || fail "includes $(included "$1" "$2")as $2"
    echo "header: $2"
}

checked c c99
checked c c11
checked c++ c++98
checked c++ c++17

#!/bin/sh
# Which functions of C the bench program calls: those that docs/TRUST.md names and no others. It must be built.
set -eu
cd "$(dirname "$0")/.."
# its start, what the compiler puts in, and those whose contracts are assumed
start='__errno_location __libc_start_main __sysv_signal __write __x86_get_cpuid_feature_leaf'
named="$start __xpg_strerror_r memcpy memmove memset read write "
called=$(nm -u target/bin/bench | sed -n 's/^ *U //p' | sort | tr '\n' ' ')
[ "$called" = "$named" ] || {
    echo "assumed: target/bin/bench calls $called, and not $named: see docs/TRUST.md" >&2
    exit 1
}
echo "assumed: the bench program calls $called"

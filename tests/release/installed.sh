#!/bin/sh
# Tries what is installed, in a system that has neither the sources nor the toolchain: installed.sh CASES, where CASES is a copy of
# tests/cases with example.c beside it. Where a C compiler and pkg-config are installed, a program is compiled with the library.
set -eu
cd "$1"
fail() { echo "installed.sh: $*" >&2; exit 1; }
is() { # WANTED COMMAND..
    wanted=$1; shift
    found=$("$@") || true
    [ "$found" = "$wanted" ] || fail "'$*' says '$found', and not '$wanted'"
}
is 'accepted 5 1 0 93' hverolda judge 01-x.edi
is 'same' hverolda compare 01-x.edi 13-respelled.edi
hverolda judge 02-unt-count-4.edi >/dev/null && fail 'a wrong count is accepted'
shelf=$(mktemp -u)
is 'started 65536' hverolda shelf "$shelf" start
is '01-x.edi: new 0
13-respelled.edi: copy 0' hverolda shelf "$shelf" put 01-x.edi 13-respelled.edi
rm "$shelf"
if command -v man >/dev/null; then
    man hverolda | grep -q EDIFACT || fail 'the manual has no hverolda(1)'
    man 3 hverolda | grep -q hverolda_judge || fail 'the manual has no hverolda(3)'
fi
if command -v cc >/dev/null && command -v pkg-config >/dev/null; then
    program=$(mktemp)
    # shellcheck disable=SC2046
    cc -std=c99 -Wall -Wextra -Werror -o "$program" example.c $(pkg-config --cflags --libs hverolda)
    ldd "$program" | grep -q libhverolda.so.1 || fail 'the program is not linked with the shared library'
    "$program" 01-x.edi 13-respelled.edi | grep -qx 'same; keep 01-x.edi' || fail 'the program in C does not find the two the same'
    rm "$program"
    echo 'installed.sh: the command, the manual and a program in C do as they should'
else
    echo 'installed.sh: the command does as it should; there is no C compiler'
fi

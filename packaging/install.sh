#!/bin/sh
# Installs Hverolda: ./install.sh [PREFIX], where PREFIX is /usr/local unless it is said. LIBDIR is the libraries' folder,
# PREFIX/lib unless it is said, and DESTDIR stands before every name. ./install.sh --list [PREFIX] only says which files those are,
# which is also what to remove to be rid of them.
set -eu
list=
if [ "${1:-}" = --list ]; then list=yes; shift; fi
prefix=${1:-/usr/local}
lib=${LIBDIR:-$prefix/lib}
from=$(cd "$(dirname "$0")" && pwd)

put() { # MODE FILE NAME
    if [ -n "$list" ]; then echo "${DESTDIR:-}$3"; return; fi
    install -D -m "$1" "$from/$2" "${DESTDIR:-}$3"
}
tree() { # FOLDER NAME: all files of a folder
    (cd "$from/$1" && find . -type f | sort) | while read -r file; do put 644 "$1/$file" "$2/${file#./}"; done
}

put 755 bin/hverolda "$prefix/bin/hverolda"
put 644 include/hverolda.h "$prefix/include/hverolda.h"
put 644 lib/libhverolda.a "$lib/libhverolda.a"
put 644 lib/libhverolda.so.1 "$lib/libhverolda.so.1"
put 644 lib/hverolda.pc "$lib/pkgconfig/hverolda.pc"
tree share "$prefix/share"
if [ -n "$list" ]; then echo "${DESTDIR:-}$lib/libhverolda.so"; exit; fi
ln -sf libhverolda.so.1 "${DESTDIR:-}$lib/libhverolda.so"
sed -i "s|@PREFIX@|$prefix|; s|@LIBDIR@|$lib|" "${DESTDIR:-}$lib/pkgconfig/hverolda.pc"
# programs find a new shared library once the loader's list has it, where root installs into a folder of that list
if [ -z "${DESTDIR:-}" ] && [ "$(id -u)" = 0 ] && command -v ldconfig >/dev/null; then ldconfig; fi

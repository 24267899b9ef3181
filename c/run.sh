#!/bin/sh
# Builds the library for C and the programs of this folder, runs them, and compares what they print with what is stored. Checks
# also that an installed library is found by pkg-config. It needs `rt`, `make` and `cc`. ARCHIVE=FILE tests another build of the
# library in place of the proved one.
set -e
here=$(cd "$(dirname "$0")" && pwd)
room=$(mktemp -d)
trap 'rm -rf "$room"' EXIT
if [ -z "$ARCHIVE" ]; then
    ARCHIVE=$here/../crates/regress_c/out/libregress_c.a
    (cd "$here/../crates/regress_c" && rt lib >"$room/log" 2>&1) || { cat "$room/log"; exit 1; }
fi
make -s -C "$here" ARCHIVE="$ARCHIVE" OUT="$room/out" "$@" check
make -s -C "$here" ARCHIVE="$ARCHIVE" OUT="$room/out" DESTDIR="$room/root" PREFIX=/usr install
grep -qx 'prefix=/usr' "$room/root/usr/lib/pkgconfig/regress_c.pc" # and not the prefix that `make` had
if make -s -C "$here" ARCHIVE="$room/none.a" OUT="$room/none" 2>"$room/told"; then exit 1; fi
grep -q 'Run `rt lib`' "$room/told"
cc=${CC:-cc}
PKG_CONFIG_PATH=$room/root/usr/lib/pkgconfig
export PKG_CONFIG_PATH
if command -v pkg-config >/dev/null; then
    $cc -o "$room/dates" "$here/dates.c" $(pkg-config --define-variable=prefix="$room/root/usr" --cflags --libs regress_c)
    LD_LIBRARY_PATH=$room/root/usr/lib "$room/dates" | diff - "$here/dates.out"
fi
if command -v valgrind >/dev/null; then
    $cc -g -o "$room/calls" "$here/calls.c" "$room/out/libregress_c.a"
    valgrind -q --error-exitcode=9 --leak-check=full "$room/calls" >"$room/printed"
    diff "$room/printed" "$here/calls.out"
fi
echo "C: as expected"

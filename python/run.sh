#!/bin/sh
# Builds the shared library for C and runs the tests of the Python module. It needs `rt`, `make`, `cc` and `python3`.
# ARCHIVE=FILE tests another build of the library.
set -e
here=$(cd "$(dirname "$0")" && pwd)
room=$(mktemp -d)
trap 'rm -rf "$room"' EXIT
if [ -z "$ARCHIVE" ]; then
    ARCHIVE=$here/../crates/regress_c/out/libregress_c.a
    (cd "$here/../crates/regress_c" && rt lib >"$room/log" 2>&1) || { cat "$room/log"; exit 1; }
fi
make -s -C "$here/../c" ARCHIVE="$ARCHIVE" OUT="$room/c" all
export REGRESS_C_LIB="$room/c" PYTHONPATH="$here" PYTHONDONTWRITEBYTECODE=1
python3 -W error -m unittest discover -q -s "$here/tests"
echo "Python: as expected"

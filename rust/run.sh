#!/bin/sh
# Builds the library for C and runs the tests of the crate: each function, the cases with the results of V8, and a program that uses
# the name `regress`. It needs `rt`, `make`, `cc` and `cargo`. ARCHIVE=FILE tests another build of the library.
set -e
here=$(cd "$(dirname "$0")" && pwd)
room=$(mktemp -d)
trap 'rm -rf "$room"' EXIT
if [ -z "$ARCHIVE" ]; then
    ARCHIVE=$here/../crates/regress_c/out/libregress_c.a
    (cd "$here/../crates/regress_c" && rt lib >"$room/log" 2>&1) || { cat "$room/log"; exit 1; }
fi
make -s -C "$here/../c" ARCHIVE="$ARCHIVE" OUT="$room/c" "$room/c/libregress_c.a"
export CARGO_TARGET_DIR="${CARGO_TARGET_DIR:-$room/target}" REGRESS_C_LIB="$room/c"
cargo test --quiet --offline --manifest-path "$here/Cargo.toml"
cargo test --quiet --offline --manifest-path "$here/as_regress/Cargo.toml"
cargo build --quiet --offline --release --manifest-path "$here/Cargo.toml"
# Without the library, the build has to stop with a line that says what to do.
if REGRESS_C_LIB=$room cargo build --quiet --offline --manifest-path "$here/Cargo.toml" 2>"$room/refused"; then
    echo "the crate was built without the library"
    exit 1
fi
grep -q 'run `make -C c`.*set REGRESS_C_LIB' "$room/refused" || { cat "$room/refused"; exit 1; }
echo "Rust: as expected"

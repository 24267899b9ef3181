#!/bin/sh
# Builds the static library and the Rust program, and runs it. It needs `rt`, `rustc` and binutils, and no registry.
# On some processors a loop takes up to twice the time where a branch crosses 32 bytes of code. So the functions of both
# sides begin at multiples of 64, and no side has the luck of the linker. Within a function it may still happen: with
# SHIFT=9 ours begin nine bytes later, and what a ratio changes by is where the code stands and not what it does.
set -e
shift_by=${SHIFT:-0}
top=$(cd "$(dirname "$0")/.." && pwd)
kit=$(dirname "$(dirname "$(readlink -f "$(command -v rt)")")")
name=bench_inputs
room=$(mktemp -d)
trap 'rm -rf "$room"' EXIT
(cd "$top/crates/$name" && rt lib >"$room/log" 2>&1) || { cat "$room/log"; exit 1; }
cd "$room"
ar x "$top/crates/$name/out/lib$name.a"
{
    echo 'SECTIONS { .text : ALIGN(64) SUBALIGN(1) {'
    objdump -h "$name.o" |
        awk '$2 ~ /^\.text\.'$name'_/ { print ". = ALIGN(64) + '"$shift_by"'; *(" $2 ")" }'
    echo '} }'
} >aligned.ld
ld -r -T aligned.ld -o aligned.o "$name.o"
ar rcs "lib$name.a" aligned.o
rustc --edition 2024 -C opt-level=3 -C codegen-units=1 -C target-cpu=x86-64-v2 -C llvm-args=-align-all-functions=6 \
    -L native=. -L "native=$kit/c" -o inputs "$top/bench/inputs.rs"
./inputs

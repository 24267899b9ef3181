#!/bin/sh
# refusals/run.sh [--every N] [PROGRAM]: refuses each request for memory of `test_trials hostile` in turn, the first, the second
# and so on until a run meets no refusal, and compares what is printed with what is printed with ample memory. With --every N
# only one request in N is refused. It needs `rt`, unless a build of the program is named, and a C compiler and the GNU C library
# for what refuses.
set -e
step=1
if [ "$1" = --every ]; then
    step=$2
    shift 2
fi
top=$(cd "$(dirname "$0")/.." && pwd)
crate=$top/crates/test_trials
program=${1:-$crate/out/test_trials} # another build of it may be named
room=$(mktemp -d)
trap 'rm -rf "$room"' EXIT
${CC:-cc} -shared -fPIC -O2 -o "$room/refuse.so" "$top/refusals/refuse.c"
[ $# -gt 0 ] || (cd "$crate" && rt run >"$room/log" 2>&1) || { cat "$room/log"; exit 1; }
sed -n '/^searches: /,$p' "$crate/stdout" >"$room/wanted" # what the odd rows print stands last
number=1
tried=0
while :; do
    status=0
    REFUSED=$number LD_PRELOAD=$room/refuse.so "$program" hostile >"$room/printed" 2>"$room/told" || status=$?
    if [ $status -ne 0 ] || ! cmp -s "$room/printed" "$room/wanted"; then
        echo "request $number is refused: status $status"
        cat "$room/printed" "$room/told"
        exit 1
    fi
    grep -q refused "$room/told" || break
    number=$((number + step))
    tried=$((tried + 1))
done
echo "$tried requests for memory refused in turn"

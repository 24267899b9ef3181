#!/bin/sh
# Fails if code of the engine constructs an allocation error itself, and prints the lines: such an error must come from an
# allocation that failed, by `?`. No contract can say that.
#
# `impl From<..>` blocks, by which `?` converts one such error into another, patterns, tests (`test_*`), measurements
# (`bench_*`), programs that use the engine (`use_*`) and the files below are left out. Each of these files passes on a
# failure that it met.
set -eu
cd "$(dirname "$0")/.."

# An allocation failed while the program's file was read.
# A search stopped, and not because of its steps: then an allocation failed.
# A search has too few steps left, which its counter stores.
# A search has too little work left for a skip, which its executor stores.
# A failed allocation of a search is passed on as an error of another type.
# A search in a lookaround stopped, which is passed on.
# A bounded search stopped: whether the work was used up is stored beside, since this error is of memory alone; or it would
# need more memory than there can be.
# An error of the parser is passed on as an error of another type.
# An error of a regex is passed on to C as a code.
allowed='crates/regress_tool/src/main.rt
crates/regress_backtrack/src/attempts.rt
crates/regress_backtrack/src/interpreter.rt
crates/regress_backtrack/src/work_limited.rt
crates/regress_bounded/src/memoizing_executor.rt
crates/regress_search/src/exec/work_matches.rt
crates/regress_backtrack/src/step_and_work_budgets.rt
crates/regex_parser/src/parse.rt
crates/regress_c/src/refusal.rt'

# The errors, and where one is used as a value.
errors='(AllocError|SearchStoppedWithoutResult|([A-Za-z]*Error|Failure|Fault|Refusal|[A-Za-z]*Reason)::Memory)'
values="(Err\\(|ok_or\\(|[|] |=> |return |^ *)$errors( *[,;)}]|\$)"

made=$(find crates -path '*/src/*.rt' | sort |
    grep -vE '^crates/(test|bench|use)_[a-z_]*/' |
    grep -vxF "$allowed" |
    while read -r file; do
        awk -v file="$file" -v values="$values" '
            /^ *\/\// { next }
            /^#\[cfg\(test\)\]/ { exit }
            /^impl.* From<.*> for / { inside = 1 }
            inside { if ($0 ~ /^}/) inside = 0; next }
            {
                line = $0
                gsub(/Err\([A-Za-z:]*\) *=>/, "=>", line)
                gsub(/let Err\([A-Za-z:]*\)/, "let", line)
                gsub(/matches!\(.*\)/, "", line)
                if (line ~ values) print file ":" FNR ": " $0
            }
        ' "$file"
    done)
[ -z "$made" ] || {
    echo "$made"
    exit 1
}
echo "no allocation error is constructed by hand"

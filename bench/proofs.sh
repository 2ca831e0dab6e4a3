#!/bin/sh
# Proves leaves in a tree of 1048576 leaves in memory: one leaf, all leaves, and any range. Prints the median time of 10000
# proofs of each, and fails where that of all leaves takes more than twice the time of one, or any range more than four times.
set -eu
top=$(cd -- "$(dirname -- "$0")/.." && pwd -P)
. "$top/bench/shared.sh"
built bench_proofs

"$program" 1048576 | awk '
    { print; time[$1] = $(NF - 1) }
    END { exit !(time["all"] <= 2 * time["one"] && time["any"] <= 4 * time["one"]) }'

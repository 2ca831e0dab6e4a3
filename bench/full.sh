#!/bin/sh
# Appends to a tree in a volume in memory, in batches of ten, each flushed, against the same appends to a tree in memory alone.
# Prints the processor time of each in microseconds for a leaf, their ratio, and the ratio of a stored leaf's time to that at the
# fewest leaves, at growing sizes. Each size is run as often as makes 200000 leaves, the start of the program is taken off, and of
# five rounds the best counts.
set -eu
top=$(cd -- "$(dirname -- "$0")/.." && pwd -P)
. "$top/bench/shared.sh"
built bench_full

beside 200000 leaves '' 'in memory alone' memory 1000 10000 100000

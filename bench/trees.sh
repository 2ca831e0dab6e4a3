#!/bin/sh
# Appends to a tree in memory, in batches of ten with a root for each, against the same hash calls alone: as many, over as
# many bytes, by the same SHA-256, the folds of the roots included. Prints the processor time of each in microseconds for an
# append, their ratio, and that of the first to the one at the fewest, at growing sizes. Each size is run as often as makes
# 200000 appends, the start of the program is taken off, and of five rounds the best counts. Then the instructions of both at
# each size, where valgrind is there to count them.
set -eu
top=$(cd -- "$(dirname -- "$0")/.." && pwd -P)
. "$top/bench/shared.sh"
built bench_trees

beside 200000 appends '' 'hash calls alone' hashes 1000 10000 100000
counted_beside 200000 appends '' 'hash calls alone' hashes 1000 10000 100000

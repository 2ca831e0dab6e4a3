#!/bin/sh
# Seals and applies batches of four values to a full database in memory, against the same hash calls alone: as many, over as many
# blocks, by the same SHA-256, the folds of the roots included. Prints the processor time of each in microseconds for a batch, their
# ratio, and the ratio of a batch's time to that at the fewest batches, at growing numbers: the second says whether a batch costs
# more at the end than at the start. Each number is run as often as makes 20000 batches, the start of the program and of the
# database is taken off, and of five rounds the best counts.
set -eu
top=$(cd -- "$(dirname -- "$0")/.." && pwd -P)
. "$top/bench/shared.sh"
built bench_keyless

beside 20000 batches '' 'hash calls alone' hashes 100 1000 10000

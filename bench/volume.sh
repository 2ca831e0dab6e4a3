#!/bin/sh
# Appends to a log in memory, with a sync behind each hundred. Prints the processor time in microseconds for an append, and
# its ratio to that of the shortest log, at growing sizes: the cost of a call is flat where the ratios stay near 1. Each size
# is run as often as makes 1000000 appends, the start of the program is taken off, and of five rounds the best counts.
set -eu
top=$(cd -- "$(dirname -- "$0")/.." && pwd -P)
. "$top/bench/shared.sh"
built bench_volume

first=
for appends in 10000 100000 1000000; do
    append=$(cost 1000000 "$appends" "$program")
    first=${first:-$append}
    awk -v n="$appends" -v e="$append" -v f="$first" 'BEGIN { printf "%d appends: %.2f us each, ratio %.2f\n", n, e, e / f }'
done

#!/bin/sh
# Keeps witnesses in stores in memory, each committed, and looks them up by their sizes. Prints, at growing numbers of kept
# witnesses, how many calls of the volume the longest look-up makes, and the processor time in microseconds of a look-up and of
# an append with its commit, with their ratios to those at the fewest: the second follows that of the calls, the third stays near
# 1. Of 200000 appends, in as many stores as they fill, and of 200000 look-ups, one witness after another in one store, with the
# opening and the appends taken off, the best of five rounds counts.
set -eu
top=$(cd -- "$(dirname -- "$0")/.." && pwd -P)
. "$top/bench/shared.sh"
built bench_stores

first=
for kept in 10 1000 100000; do
    stores=$((200000 / kept - 1))
    calls=$("$program" "$kept" 0 0 | cut -d ' ' -f 1)
    opened=$(least 1 "$program" 0 "$stores" 0)
    appended=$(least 1 "$program" "$kept" "$stores" 0)
    kept_once=$(least 1 "$program" "$kept" 0 0)
    found=$(least 1 "$program" "$kept" 0 200000)
    each=$(awk -v o="$opened" -v a="$appended" -v k="$kept_once" -v f="$found" \
        'BEGIN { printf "%.4f %.4f", (f - k) * 5, (a - o) * 5 }')
    if [ -z "$first" ]; then first="$calls $each"; fi
    echo "$kept $calls $each $first" | awk '{
        printf "%d witnesses: a look-up makes %d calls, ratio %.2f, and takes %.2f us, ratio %.2f; ", $1, $2, $2 / $5, $3, $3 / $6
        printf "an append takes %.2f us, ratio %.2f\n", $4, $4 / $7 }'
done

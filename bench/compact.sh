#!/bin/sh
# Prunes compact databases of 100000 states in memory, in batches of one value, each committed, to the witnesses of the
# last 10, 1000 and 100000 states. Prints how many are kept, by a look-up of each state's, before the applies and behind
# them; how many calls of the volume a served state makes; and the processor time in microseconds of a served state, of
# a look-up and of an apply with its commit, with their ratios to those beside the fewest. The trees are of one size, so
# the applies make the same hash calls: their ratio says what the number of kept witnesses costs an apply. The others
# grow as its logarithm. Of 50000 applies, with a prune behind each ten that keeps as many as before, of 100000 served
# states and of as many look-ups, with the making of the database and as many prunes alone taken off, the best of five
# rounds counts.
# Then the same of an apply in databases of growing size, against the same hash calls alone: as many, over as many
# blocks, by the same SHA-256, the folds of its root included. Each size is run as often as makes 200000 batches,
# the start of the program is taken off, and of five rounds the best counts.
set -eu
top=$(cd -- "$(dirname -- "$0")/.." && pwd -P)
. "$top/bench/shared.sh"
built bench_compact

first=
for kept in 10 1000 100000; do
    before=$("$program" count "$kept" 0)
    behind=$("$program" count "$kept" 5000)
    case $before/$behind in
        "$kept of 100000 "*"/$kept of 150000 "*) ;;
        *) echo "$before are kept, then $behind" >&2; exit 1 ;;
    esac
    made=$(least 1 "$program" prune "$kept" 0)
    pruned=$(least 1 "$program" prune "$kept" 5000)
    applied=$(least 1 "$program" apply "$kept" 5000)
    served=$(least 1 "$program" serve "$kept" 100000)
    found=$(least 1 "$program" find "$kept" 100000)
    each=$(awk -v m="$made" -v p="$pruned" -v a="$applied" -v s="$served" -v f="$found" \
        'BEGIN { printf "%.4f %.4f %.4f", (s - m) * 10, (f - m) * 10, (a - p) * 20 }')
    calls=${before#*, }
    calls=${calls% calls}
    if [ -z "$first" ]; then first="$calls $each"; fi
    echo "${before%,*} kept, and ${behind%,*} behind the applies:"
    echo "$calls $each $first" | awk '{
        printf "  a served state makes %d calls, ratio %.2f, and takes %.2f us, ratio %.2f; ", $1, $1 / $5, $2, $2 / $6
        printf "a look-up takes %.2f us, ratio %.2f; an apply takes %.2f us, ratio %.2f\n", $3, $3 / $7, $4, $4 / $8 }'
done

beside 200000 batches grow 'hash calls alone' hash 1000 10000 100000

#!/bin/sh
# A log of items of 100 bytes in a folder, beside plain work on its file. Prints the processor time of an append, of a read and of
# the opening as ratios to that of plain writes with the same syncs, of plain seeks and reads, and of reading the file, at growing
# numbers of items. Each number is run as often as makes 100000 appends or reads, or once; what a run of none takes is taken off, and of
# five rounds the best counts.
set -eu
top=$(cd -- "$(dirname -- "$0")/.." && pwd -P)
. "$top/bench/shared.sh"
built bench_folder
folder=$(mktemp -d)
trap 'rm -rf -- "$folder"' EXIT

# The time of work done so many times, of which each begins with no log, without that of none.
fresh() {
    printf 'rm -f -- "$3/log.log"; exec "$1" "$2" "$3" "$4"\n' >"$folder/fresh"
    none=$(least "$1" sh "$folder/fresh" "$program" "$2" "$folder" 0)
    all=$(least "$1" sh "$folder/fresh" "$program" "$2" "$folder" "$3")
    awk -v n="$none" -v a="$all" 'BEGIN { print a - n }'
}

# The same of work on the log that is there.
there() {
    none=$(least "$1" "$program" "$2" "$folder" 0)
    all=$(least "$1" "$program" "$2" "$folder" "$3")
    awk -v n="$none" -v a="$all" 'BEGIN { print a - n }'
}

for items in 1000 10000 100000 1000000; do
    runs=$((items < 100000 ? 100000 / items : 1))
    plain_writes=$(fresh "$runs" write "$items")
    appends=$(fresh "$runs" append "$items")
    reads=$(there "$runs" read "$items")
    plain_reads=$(there "$runs" seek "$items")
    opening=$(there 1 open 10)
    plain_load=$(there 1 load 10)
    calls=$((runs * items))
    awk -v n="$items" -v d="$calls" -v a="$appends" -v w="$plain_writes" -v r="$reads" -v s="$plain_reads" -v o="$opening" -v l="$plain_load" 'BEGIN {
        printf "%d items: an append %.2f us, %.2f times a plain write; ", n, a / d * 1000000, a / w
        printf "a read %.2f us, %.2f times a plain seek and read; ", r / d * 1000000, r / s
        if (l > 0.01) printf "the opening %.2f ms, %.2f times the reading of its file\n", o * 100, o / l
        else printf "the opening %.2f ms\n", o * 100
    }'
done

# What the benchmarks share, which read this file with the folder of the checkout in `top`. It needs bash, whose `time` counts
# thousandths of a second.

# Proves and builds a program, and names it in `program`.
built() {
    command -v rt >/dev/null 2>&1 || { echo 'rt is not on the path' >&2; exit 1; }
    (cd -- "$top/crates/$1" && rt run >/dev/null 2>&1) || { echo "$1 is not proved" >&2; exit 1; }
    program=$top/crates/$1/out/$1
}

# The processor time, user's and system's, of so many runs of a program, in seconds.
seconds() {
    bash -c '
        TIMEFORMAT="%3U %3S"
        left=$1
        shift
        time while [ "$left" -gt 0 ]; do
            "$@" >/dev/null 2>&1
            left=$((left - 1))
        done' seconds "$@" 2>&1 | awk '{ print $1 + $2 }'
}

# The least of five rounds.
least() {
    for _ in 1 2 3 4 5; do seconds "$@"; done | sort -n | head -n 1
}

# The microseconds of one of so many things, of which a program makes the number behind its words in a run, without what a run
# that makes none takes.
cost() {
    total=$1
    number=$2
    shift 2
    runs=$((total / number))
    none=$(least "$runs" "$@" 0)
    all=$(least "$runs" "$@" "$number")
    awk -v n="$none" -v a="$all" -v t="$total" 'BEGIN { printf "%.4f", (a - n) * 1000000 / t }'
}

# A line for each of the growing numbers behind the first five words: what one thing takes, what it takes alone, their ratio, and
# that of the first to the one at the fewest. The words are how many things are made in all, their name, the word behind which
# the program makes them, how it does alone, and the word for that.
beside() {
    made=$1
    name=$2
    word=$3
    how=$4
    alone=$5
    shift 5
    first=
    for count in "$@"; do
        one=$(cost "$made" "$count" "$program" ${word:+"$word"})
        bare=$(cost "$made" "$count" "$program" "$alone")
        first=${first:-$one}
        awk -v c="$count $name" -v o="$one" -v h="$how" -v b="$bare" -v f="$first" \
            'BEGIN { printf "%s: %.2f us each, %s %.2f us, ratio %.2f; to that of the fewest %.2f\n", c, o, h, b, o / b, o / f }'
    done
}

# The instructions of a run, as valgrind counts them.
instructions() {
    valgrind --tool=callgrind --callgrind-out-file=/dev/null "$@" 2>&1 >/dev/null | awk '/Collected/ { print $4 }'
}

# A line for each of the numbers behind the first five words, which are those of `beside`: the instructions of all, beside those of
# how it does alone, which no other work on the machine changes. None where valgrind isn't there.
counted_beside() {
    command -v valgrind >/dev/null 2>&1 || { echo 'skipped: no valgrind, so no instructions are counted' >&2; return 0; }
    name=$2
    word=$3
    how=$4
    alone=$5
    shift 5
    for count in "$@"; do
        one=$(($(instructions "$program" ${word:+"$word"} "$count") - $(instructions "$program" ${word:+"$word"} 0)))
        bare=$(($(instructions "$program" "$alone" "$count") - $(instructions "$program" "$alone" 0)))
        awk -v c="$count $name" -v o="$one" -v h="$how" -v b="$bare" \
            'BEGIN { printf "%s: %.3f times the instructions of %s\n", c, o / b, h }'
    done
}

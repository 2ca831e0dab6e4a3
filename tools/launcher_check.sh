#!/bin/sh
# Checks the launcher `twins`: on a made-up checkout, with an rt that proves nothing, when it builds, when it doesn't,
# and what it answers where it can't. Then, where the program of the checkout that this file stands in is current, it
# checks the program's ends through the launcher: the stored run, from another folder, through a link, with input passed
# on, also between comments and empty lines; a second run on what it left; generated commands; the longest input, also as
# line ends alone in little memory; and each other status that can be had from outside, with its message. It never proves
# or builds the program.
set -u
top=$(cd "$(dirname "$0")/.." && pwd -P)
. "$top/tools/current.sh"
scratch=$(mktemp -d) || exit 1
trap 'rm -rf "$scratch"' EXIT
failed=0

expect() {      # a name, and then a test
    name=$1
    shift
    if ! "$@"; then
        echo "launcher: $name: failed"
        failed=1
    fi
}

# A made-up checkout, whose program tells its words and its input and ends with 5, and an rt that writes that program
# and counts its calls. In the mode `fails` it is refused, in the mode `none` it writes no program all the same, and in
# the mode `slow` a source changes before it ends.
copy=$scratch/copy
mkdir -p "$copy/tools" "$copy/crates/twins/src" "$copy/crates/low/src" "$scratch/bin" "$scratch/none"
cp "$top/twins" "$copy/twins"
cp "$top/tools/current.sh" "$copy/tools/current.sh"
: >"$copy/crates.txt"
: >"$copy/crates/twins/src/main.rt"
: >"$copy/crates/low/src/lib.rt"
: >"$copy/crates/low/src/Lib.antt"
cat >"$scratch/bin/rt" <<'END'
#!/bin/sh
echo "$*" >>"$CALLS"
[ "$MODE" = fails ] && echo 'not proved' && exit 1
[ "$MODE" = none ] && echo 'not proved' && exit 0
[ "$MODE" = slow ] && touch -t 209901010000 src/main.rt
mkdir "$3"
printf '%s\n' '#!/bin/sh' 'echo "$@"' cat 'exit 5' >out/twins
chmod +x out/twins
END
chmod +x "$scratch/bin/rt"
for tool in sh dirname readlink find head mkdir touch cat rm; do
    ln -s "$(command -v "$tool")" "$scratch/none/$tool"
done
CALLS=$scratch/calls
MODE=builds
export CALLS MODE

launched() {    # a name, the calls of rt that it has to make, and its status; what it says is in `answers` and `errors`
    : >"$CALLS"
    echo input | PATH=$scratch/bin:$PATH "$copy/twins" 'a  word' b >"$scratch/answers" 2>"$scratch/errors"
    expect "$1: status" [ $? -eq "$3" ]
    expect "$1: calls of rt" [ "$(grep -c '^run -- .*/tried$' "$CALLS")" -eq "$2" ]
}

ran() {         # a name: the program had its words and its input
    expect "$1: output" [ "$(cat "$scratch/answers")" = "$(printf 'a  word b\ninput')" ]
}

built_anew() {  # a name, and the last message
    launched "$1" 1 5
    ran "$1"
    expect "$1: first message" grep -q '^twins: proving and building' "$scratch/errors"
    expect "$1: last message" [ "$(tail -n 1 "$scratch/errors")" = 'twins: built' ]
    expect "$1: the folder of the first run is gone" [ ! -e "$copy/crates/twins/out/tried" ]
}

current() {     # a name
    launched "$1" 0 5
    ran "$1"
    expect "$1: no message" [ ! -s "$scratch/errors" ]
}

refused() {     # a name
    launched "$1" 1 126
    expect "$1: no output" [ ! -s "$scratch/answers" ]
    expect "$1: message" grep -q 'the program is not proved or not built' "$scratch/errors"
    expect "$1: log" [ "$(cat "$copy/crates/twins/out/build.log")" = 'not proved' ]
}

old=200001010000
PATH=$scratch/none "$copy/twins" </dev/null >"$scratch/answers" 2>"$scratch/errors"
expect 'status without rt' [ $? -eq 127 ]
expect 'message without rt' grep -q 'the command rt' "$scratch/errors"
MODE=fails
refused 'a build that fails'
MODE=none
refused 'a build that leaves no program'
MODE=builds
built_anew 'no program'
current 'a program that was built'
rm "$copy/crates/twins/out/twins"
built_anew 'a stamp without program'
touch -t "$old" "$copy/crates/twins/out/built.stamp"
built_anew 'newer sources'
current 'a program that was built anew'
for source in crates.txt crates/low/src/lib.rt crates/low/src/Lib.antt crates/twins/src/main.rt; do
    find "$copy/crates.txt" "$copy/crates" -type f -exec touch -t "$old" {} +
    current "old sources, before $source"
    touch "$copy/$source"
    built_anew "newer $source"
done
MODE=slow
touch -t "$old" "$copy/crates/twins/out/built.stamp"
built_anew 'a source that changes meanwhile'
MODE=builds
built_anew 'a source that changed meanwhile'
MODE=fails
refused 'a build that fails beside an older program'
MODE=builds

# What .ci/run does after the gate, on the same checkout.
marked() {      # a file of the time at which the gate began
    (top=$copy && . "$copy/tools/current.sh" && mark_current "$1")
}
find "$copy/crates.txt" "$copy/crates" -type f -exec touch -t "$old" {} +
rm "$copy/crates/twins/out/built.stamp"
: >"$scratch/begun"
expect 'a program of the gate is marked' marked "$scratch/begun"
later=$(find "$copy/crates/twins/out/built.stamp" -newer "$scratch/begun")
expect 'the mark is of the time at which the gate began' [ -z "$later" ]
current 'a program that the gate built'
rm "$copy/crates/twins/out/built.stamp"
touch -t 209901010000 "$copy/crates/low/src/lib.rt"
marked "$scratch/begun"
expect 'a source changed while the gate ran' [ $? -ne 0 ]
expect 'it is not marked' [ ! -e "$copy/crates/twins/out/built.stamp" ]
touch -t "$old" "$copy/crates/low/src/lib.rt"
rm "$copy/crates/twins/out/twins"
marked "$scratch/begun"
expect 'a gate that left no program' [ $? -ne 0 ]

ends_now() {
    [ "$failed" -eq 0 ] && echo 'launcher: as it should be'
    exit "$failed"
}
if ! is_current; then
    echo 'skipped: the program is not current, so its ends are not checked through the launcher'
    ends_now
fi

# From here on a call of rt is a failure.
MODE=fails
PATH=$scratch/bin:$PATH
: >"$CALLS"
ln -s "$top/twins" "$scratch/link"
ln -s link "$scratch/link-to-link"
(cd "$scratch" && ./link-to-link <"$top/crates/twins/stdin" >answers)
expect 'status of the stored run' [ $? -eq 0 ]
expect 'output of the stored run' cmp -s "$scratch/answers" "$top/crates/twins/stdout"
expect 'the folder where no word names one' [ -f "$scratch/twins-data/log.log" ]
tail -n 1 "$top/crates/twins/stdout" | sed 's/^.* size=/opened start=0 size=/' >"$scratch/opened-again"
(cd "$scratch" && ./link twins-data </dev/null >answers)
expect 'status of a second run' [ $? -eq 0 ]
expect 'output of a second run' cmp -s "$scratch/answers" "$scratch/opened-again"

ends() {        # a status, its message, the input, and words; nothing is written
    status=$1
    message=$2
    input=$3
    shift 3
    (cd "$scratch" && ./link "$@" <"$input" >answers 2>errors)
    expect "status $status" [ $? -eq "$status" ]
    expect "message of status $status" [ "$(cat "$scratch/errors")" = "$message" ]
    expect "no output with status $status" [ ! -s "$scratch/answers" ]
}

usage='twins: usage: twins [FOLDER] [--gen NUMBER COUNT]'
printf 'size\n\nsizes\n' >"$scratch/bad-line"
head -c 16777217 /dev/zero | tr '\0' '#' >"$scratch/too-long"
ends 2 "$usage" /dev/null unmade word
ends 2 "$usage" /dev/null ''
ends 2 "$usage" /dev/null --help
ends 2 "$usage" /dev/null unmade --gen 1
ends 2 "$usage" /dev/null unmade --gen 1 10001
ends 2 "$usage" /dev/null unmade --gen 01 1
ends 2 "$usage" /dev/null "$(printf '\377')"
ends 3 'twins: line 3: not a command' "$scratch/bad-line" unmade
ends 4 'twins: cannot read input' "$scratch" unmade
ends 9 'twins: input longer than 16777216 bytes' "$scratch/too-long" unmade
expect 'no folder is made with statuses 2, 3, 4 and 9' [ ! -e "$scratch/unmade" ]
: >"$scratch/no-folder"
ends 6 'twins: volume failed' /dev/null no-folder
mkdir "$scratch/damaged"
printf '\0\0\0\0\0\0\0\1' >"$scratch/damaged/log.log"
ends 7 'twins: volume holds no valid state' /dev/null damaged

(cd "$scratch" && ./link made/within --gen 1 1 <"$scratch" >answers)
expect 'status of a generated run, whose input is not read' [ $? -eq 0 ]
expect 'output of a generated run' [ "$(sed 's/^root .*/root/' "$scratch/answers")" = "$(printf 'rounds 1\nsize 9\nrefused 0\nroot')" ]
(cd "$scratch" && ./link made/within </dev/null >answers)
expect 'what a generated run left' grep -q '^opened start=0 size=9 ' "$scratch/answers"

awk '{ print "# line " NR; print ""; print }' "$top/crates/twins/stdin" >"$scratch/commented"
(cd "$scratch" && ./link commented-run <commented >answers)
expect 'output of the stored run between comments' cmp -s "$scratch/answers" "$top/crates/twins/stdout"
head -c 16777216 "$scratch/too-long" >"$scratch/longest"
head -n 1 "$top/crates/twins/stdout" >"$scratch/opened"
(cd "$scratch" && ./link longest-run <longest >answers)
expect 'status of the longest input' [ $? -eq 0 ]
expect 'output of the longest input' cmp -s "$scratch/answers" "$scratch/opened"
tr '#' '\n' <"$scratch/longest" >"$scratch/line-ends"
(cd "$scratch" && ulimit -v 200000 && ./link line-ends-run <line-ends >answers)
expect 'status of line ends alone, in 200 MB of memory' [ $? -eq 0 ]
expect 'output of line ends alone' cmp -s "$scratch/answers" "$scratch/opened"
if [ -w /dev/full ]; then
    (cd "$scratch" && ./link full-run </dev/null >/dev/full 2>errors)
    expect 'status 5' [ $? -eq 5 ]
    expect 'message of status 5' [ "$(cat "$scratch/errors")" = 'twins: cannot write output' ]
fi

expect 'rt is not called for a current program' [ ! -s "$CALLS" ]
ends_now

#!/bin/sh
# The program twins over folders on tmpfs and on disk: generated rounds by their time, that of as many blocks of SHA-256
# alone, their memory, and the bytes on disk beside the least that the format asks for; a plain program in Python that
# leaves the same files; the instructions, and the bytes that each batch of a chain takes, where valgrind is there to
# count them; and inputs of long batches, of batches on batches and of comments. See bench/twins.py. The first word may
# name a folder on the disk that is to be measured.
set -eu
top=$(cd -- "$(dirname -- "$0")/.." && pwd -P)
command -v python3 >/dev/null 2>&1 || { echo 'skipped: no python3, which drives the benchmark' >&2; exit 0; }
scratch=$(mktemp -d)
trap 'rm -rf -- "$scratch"' EXIT
"$top/twins" "$scratch/first" </dev/null >/dev/null
. "$top/bench/shared.sh"
built bench_keyless
python3 "$top/bench/twins.py" "$top/crates/twins/out/twins" "$program" "${1:-$scratch}"

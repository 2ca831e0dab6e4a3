#!/usr/bin/env python3
"""Lets the program twins and a plain program in Python (bench/plain.py) keep the log of the same generated rounds.

usage: tools/generated_runs.py PROGRAM [NUMBER COUNT]

Both print the same four lines and leave the same files, byte for byte. Without a number and a count it is several runs, one of them
long.
"""
import filecmp
import os
import subprocess
import sys
import tempfile

from runs import SECONDS

PLAIN = os.path.join(os.path.dirname(os.path.abspath(__file__)), "..", "bench", "plain.py")
RUNS = (("1", "0"), ("0", "1"), ("18446744073709551615", "33"), ("7", "2000"))


def differs(program, number, count):
    """What is different where both keep the log of these rounds, or nothing."""
    with tempfile.TemporaryDirectory() as top:
        ours, theirs = f"{top}/ours", f"{top}/theirs"
        said = subprocess.run([program, ours, "--gen", number, count], stdin=subprocess.DEVNULL, capture_output=True, timeout=SECONDS)
        plain = subprocess.run([sys.executable, PLAIN, theirs, number, count], capture_output=True, timeout=SECONDS, check=True)
        if (said.returncode, said.stderr, said.stdout) != (0, b"", plain.stdout):
            return f"prints {said.stdout!r} and ends with {said.returncode}, where the plain program prints {plain.stdout!r}"
        if sorted(os.listdir(ours)) != sorted(os.listdir(theirs)):
            return "leaves other files than the plain program"
        _, other, unread = filecmp.cmpfiles(ours, theirs, os.listdir(ours), shallow=False)
        return f"leaves other bytes than the plain program in {', '.join(other + unread)}" if other + unread else None


def main(words):
    if len(words) not in (1, 3):
        print(__doc__, file=sys.stderr)
        return 2
    runs = [tuple(words[1:])] if words[1:] else RUNS
    for number, count in runs:
        told = differs(words[0], number, count)
        if told:
            print(f"generated_runs: --gen {number} {count} {told}")
            return 1
    print(f"generated_runs: {len(runs)} runs of generated rounds print what a plain program prints, and leave the same files")
    return 0


if __name__ == "__main__":
    sys.exit(main(sys.argv[1:]))

#!/usr/bin/env python3
"""Lets each allocation of one call on a folder fail in turn: where the call wants memory, no file has changed.

usage: tools/folder_alloc.py PROGRAM

PROGRAM is folder_calls. Each call that writes is made alone, on a folder that is there and on one that isn't. Where it answers
that there is no memory, or the program ends before it is made, logs and maps are those of before; else it is done, and they
are those of a run in which no allocation fails. One allocation fails by fail_alloc.c, which the C compiler `cc` makes and the
loader puts before the C library.
"""
import os
import shutil
import subprocess
import sys
from pathlib import Path

import faults

BEFORE = b"append log one . three\nsync log\nreplace map k v\n"
CALLS = ["append log four five", "append new one", "sync log", "cut log 1", "prune log 2", "clear log 7", "clear new 7",
         "remove log", "replace map k other", "replace new k v", "take map"]


def files(folder):
    """The logs and maps of a folder that hold something, and nothing where it isn't there."""
    found = {path.name: path.read_bytes() for path in Path(folder).glob("*") if path.suffix in (".log", ".map")}
    return {name: data for name, data in found.items() if data}


class Calls:
    """The program, with a library before the C library's by which one allocation fails."""

    def __init__(self, path, scratch):
        self.path, self.scratch, self.told = path, Path(scratch), f"{scratch}/told"
        self.library = faults.library_in(scratch, "fail_alloc")

    def run(self, script, failing=None):
        settings = dict(os.environ)
        if failing is not None:
            settings |= {"LD_PRELOAD": self.library, "FAIL_ALLOC": str(failing), "FAIL_ALLOC_TOLD": self.told}
        ended = subprocess.run([self.path, str(self.scratch / "folder")], input=script, stdout=subprocess.PIPE,
                               stderr=subprocess.DEVNULL, env=settings, timeout=60)
        return ended.stdout

    def made(self, call, is_there, failing):
        """What a call answers and leaves, and what was there before it."""
        shutil.rmtree(self.scratch / "folder", ignore_errors=True)
        if is_there:
            self.run(BEFORE)
        before = files(self.scratch / "folder")
        answer = self.run(call.encode() + b"\n", failing)
        return answer, files(self.scratch / "folder"), before

    def allocations(self):
        return int(Path(self.told).read_text())


def faults_of(calls, call, is_there):
    """How many allocations a call made, and what was wrong."""
    whole, after, before = calls.made(call, is_there, 0)
    count, wrong = calls.allocations(), []
    for number in range(1, count + 1):
        answer, left, _ = calls.made(call, is_there, number)
        fits = left == before if answer in (b"no memory\n", b"") else (answer, left) == (whole, after)
        if not fits:
            wrong.append(f"{call}: allocation {number} of {count}: {answer.decode().strip()}, and other files")
    return count, wrong


def check(path, scratch):
    calls = Calls(path, scratch)
    results = [faults_of(calls, call, is_there) for call in CALLS for is_there in (True, False)]
    count, wrong = sum(count for count, _ in results), [line for _, lines in results for line in lines]
    return f"{count} failing allocations in {len(results)} calls on a folder", wrong


if __name__ == "__main__":
    sys.exit(faults.main(sys.argv[1:], __doc__, check))

#!/usr/bin/env python3
"""Lets each call that the program twins makes on its files fail in turn, and opens again what is left.

usage: tools/fail_files.py PROGRAM

A first run makes a folder. A second one, on a copy of it for each failing call, applies, commits, prunes what moves the starts of
both logs, and proves. It ends with status 6, its message and the replies to a first part of its lines; or, where the call wasn't
needed, as if it hadn't failed. The files then stand for one of its states, and the next run opens and answers as the list machine
does from there. One call fails by fail_calls.c, as in tools/folder_fails.py.
"""
import os
import random
import shutil
import subprocess
import sys
from pathlib import Path

import faults
from kill_runs import opened_again, told_of
from machine import Machine, run
from runs import Failed, text_of
from scripts import Script

FAILED, DONE = (6, b"twins: volume failed\n"), (0, b"")
SMALL = 66                      # how many small batches the first run applies, so that a prune gives up a blob of witnesses


def first_lines():
    small = [line for b in range(SMALL) for line in ("new", f"append {b} {b:02x}", f"seal {b} - {2 * b + 1}", f"apply {b}")]
    return small + ["sync"]


def second_lines():
    """What moves both starts; the lists are those behind the first lines."""
    size = 1 + 2 * SMALL
    return ["get 5", "new", "append 0 61", f"seal 0 - {size}", "apply 0", f"proof {size} 3 2", "commit-proof 7", "commit", "new",
            f"seal 1 6d {size + 1}", "apply 1", "start-sync", f"prune {size}", "new", f"seal 2 - {size + 3}", "apply 2", "sync",
            f"proof {size + 4} {size} 4", "metadata"]


class Program:
    """The program, with a library before the C library's by which one call on its files fails, and folders to run it on."""

    def __init__(self, path, top):
        self.path, self.top, self.library = path, top, faults.library_in(top, "fail_calls")
        self.first, self.folder, self.told = f"{top}/first", f"{top}/folder", f"{top}/told"
        subprocess.run([path, self.first], input=text_of(first_lines()), stdout=subprocess.DEVNULL, check=True)

    def run(self, failing):
        """The ending and the output of a second run."""
        shutil.rmtree(self.folder, ignore_errors=True)
        shutil.copytree(self.first, self.folder)
        settings = dict(os.environ, LD_PRELOAD=self.library, FAIL_CALL=str(failing), FAIL_CALL_TOLD=self.told)
        ended = subprocess.run([self.path, self.folder], input=text_of(second_lines()), capture_output=True, env=settings, timeout=600)
        return (ended.returncode, ended.stderr), ended.stdout

    def calls(self):
        """How many calls the last run made on its files."""
        numbers = [line.split(" ")[0] for line in Path(self.told).read_text().splitlines()]
        return max(int(number) for number in numbers if number.isdigit())


def begun_machine():
    machine = Machine()
    run(first_lines(), machine)
    return machine


def check(path, top):
    machine, wrong, stopped = begun_machine(), [], 0
    whole = run(second_lines(), machine).encode()
    program = Program(path, top)
    if program.run(0) != (DONE, whole):
        wrong.append("not answered where no call fails")
    count = program.calls()
    for failing in range(1, count + 1):
        ending, output = program.run(failing)
        stopped += ending == FAILED
        if (ending, output) != (DONE, whole) and (ending != FAILED or output not in faults.fronts(whole) | {b""}):
            wrong.append(f"call {failing} of {count}: {ending}, {len(output)} bytes written")
        machine = begun_machine()
        try:
            states, _ = told_of(machine, second_lines())
            opened_again(program.path, program.folder, machine, Script(random.Random(failing), machine), states, ending == DONE)
        except Failed as failed:
            wrong.append(f"call {failing} of {count}: {failed}")
    return f"{count} failing calls on the files of a run, {count - stopped} of them not needed", wrong


if __name__ == "__main__":
    sys.exit(faults.main(sys.argv[1:], __doc__, check))

#!/usr/bin/env python3
"""Lets each allocation of the program fail in turn, on each single run over a fresh volume of crates/run_calls/stdin, at the
program's own configuration; of a run that makes many, some all over it. Each run has a folder of its own.

usage: tools/fail_alloc.py PROGRAM

The program has to end with status 8, the message of status 8, and the replies to a first part of the commands on its
output, as expected.py computes them; or, where the allocation wasn't needed, as if it hadn't failed. The later the
allocation, the more replies there are, up to all those before the last command that takes memory; and where the output
takes nothing, the status is 8 all the same. One allocation fails by fail_alloc.c, which the C compiler `cc` makes and the
loader puts before the C library.
"""
import os
import shutil
import subprocess
import sys
from pathlib import Path

import expected
import faults
from machine import Machine
from runs import text_of
from standing import Found

NO_MEMORY = (8, b"twins: out of memory\n")
DONE = (0, b"")
NO_OUTPUT = (5, b"twins: cannot write output\n")
FULL = "/dev/full"              # what takes nothing
TRIED = 300                     # how many allocations of a run are made to fail, at most
OPENED = 10                     # of how many of these what is left is opened again once


class Program:
    """The program, with a library before the C library's by which one allocation fails, and a folder to run it on."""

    def __init__(self, path, scratch):
        self.path, self.told, self.folder = path, f"{scratch}/told", f"{scratch}/folder"
        self.library = faults.library_in(scratch, "fail_alloc")

    def run(self, text, failing=0, output=subprocess.PIPE):
        """The ending and the output of a run on a folder that isn't there."""
        shutil.rmtree(self.folder, ignore_errors=True)
        settings = dict(os.environ, LD_PRELOAD=self.library, FAIL_ALLOC=str(failing), FAIL_ALLOC_TOLD=self.told)
        ended = subprocess.run([self.path, self.folder], input=text, stdout=output, stderr=subprocess.PIPE, env=settings, timeout=60)
        return (ended.returncode, ended.stderr), ended.stdout

    def opens(self, lines):
        """Whether what the last run, of these lines, left is opened as it should."""
        machine, found = Machine(), Found(self.folder)
        expected.run(lines, machine)
        ended = subprocess.run([self.path, self.folder], input=b"", capture_output=True, timeout=60)
        return (ended.returncode, ended.stdout.decode()) == (0, machine.opened(found.left()))

    def allocations(self):
        return int(Path(self.told).read_text())


def told_at_last(lines, whole):
    """How many bytes of replies have to be there where the last allocation fails: those before the last command that takes memory."""
    replies = whole.splitlines(keepends=True)
    takers = [at for at, (line, reply) in enumerate(zip(lines, replies[1:])) if takes_memory(line, reply)]
    return len(b"".join(replies[: takers[-1] + 1])) if takers else 0


def takes_memory(line, reply):
    """Whether this command is sure to: a seal, and an append of some bytes, that were answered."""
    return reply.startswith(b"sealed ") or line.startswith("append ") and reply.startswith(b"ok ") and not line.endswith(" .")


def tried(count):
    """The numbers of the allocations that are made to fail, of so many: the first, the last, and others between them."""
    return range(1, count + 1) if count <= TRIED else [1 + at * (count - 1) // (TRIED - 1) for at in range(TRIED)]


def faults_of(program, name, lines):
    """How many allocations of a run were made to fail, how many of them weren't needed, and what was wrong."""
    text = text_of(lines)
    whole = expected.run(lines).encode()
    ending, output = program.run(text)
    if (ending, output) != (DONE, whole):
        return 0, 0, [f"{name}: not answered where no allocation fails"]
    count, spared, told, wrong = program.allocations(), 0, 0, []
    for number in tried(count):
        ending, output = program.run(text, number)
        if (ending, output) == (DONE, whole):
            spared += 1
        elif ending != NO_MEMORY or output not in faults.fronts(whole):
            wrong.append(f"{name}: allocation {number} of {count}: {ending}, {len(output)} bytes written")
        elif len(output) < told:
            wrong.append(f"{name}: allocation {number} of {count}: fewer replies than where an earlier one fails")
        else:
            told = len(output)
        if number % OPENED == 0 and not program.opens(lines):
            wrong.append(f"{name}: allocation {number} of {count}: what is left isn't opened as it should")
    if told < told_at_last(lines, whole):
        wrong.append(f"{name}: where the last allocation fails, replies before it are not there")
    return len(tried(count)), spared, wrong


def faults_without_output(program, name, lines):
    """What is wrong where nothing can be written either: want of memory goes before a write fault, where the allocation is needed."""
    text = text_of(lines)
    with open(FULL, "wb") as full:
        program.run(text, 0, full)
        endings = [(number, program.run(text, number, full)[0]) for number in tried(program.allocations())]
    return [f"{name}: allocation {number}, and nothing can be written: {ending}"
            for number, ending in endings if ending != NO_MEMORY and not (ending == NO_OUTPUT and program.run(text, number)[0] == DONE)]


def check(path, scratch):
    program, runs = Program(path, scratch), list(expected.runs())
    results = [faults_of(program, name, lines) for name, lines in runs]
    unwritten = faults_without_output(program, *runs[1]) if os.path.exists(FULL) else []
    wrong = [line for _, _, lines in results for line in lines] + unwritten
    count, spared = (sum(result[at] for result in results) for at in (0, 1))
    return f"{count} failing allocations in {len(runs)} runs, {spared} of them not needed", wrong


if __name__ == "__main__":
    sys.exit(faults.main(sys.argv[1:], __doc__, check))

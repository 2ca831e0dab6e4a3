#!/usr/bin/env python3
"""Kills long runs of the program twins at random moments, and opens again what they leave in their folder.

usage: tools/kill_runs.py PROGRAM [COUNT] [SEED] [PLACE]

A long run over a folder, of batches with commits, syncs and prunes among them, is ended from outside at a random moment, by SIGKILL.
So many runs are killed, ten after one another on one folder, which is made in PLACE, or where the system has such files. After each

- the run has written nothing, or, where it was done with its last line, a front of its replies;
- the files stand for a state of the killed run, one behind some step of it or that before its opening;
- the next run opens at an applied size of the killed run that isn't below the durable size of the last run that ended, the greatest
  one that the log of operations reaches and whose witness is kept;
- its replies to a random script are those of the list machine from there, byte for byte.
"""
import os
import random
import shutil
import signal
import subprocess
import sys
import tempfile
import time

from machine import Machine
from runs import Failed, compare_replies, text_of
from scripts import Script
from standing import Found, why_not

COUNT = 200
ON_ONE_FOLDER = 10              # how many runs are killed before the next folder begins
BATCHES = range(100, 300)       # how many batches a long run has
NEXT_LINES = 30                 # how many lines the run behind it has, at most


def long_lines(chance, machine):
    """The lines of a long run: batches, some applied with the next one that stands on them, and what makes durable or prunes."""
    floor, size, waits, lines = machine.floor(), len(machine.whole), False, []
    for b in range(chance.choice(BATCHES)):
        appends = chance.randint(0, 9)
        floor = chance.choice([floor, chance.randint(floor, size)])
        lines += [f"new {b - 1}" if waits else "new"]
        lines += [f"append {b} {chance.randbytes(chance.randint(1, 40)).hex()}" for _ in range(appends)]
        lines.append(f"seal {b} - {floor}")
        size, waits = size + appends + 1, chance.random() < 0.2
        if not waits:
            lines += [f"apply {b}", f"release {b}"]
            if chance.random() < 0.3:
                lines.append(chance.choice(["commit", "sync", "start-sync", f"prune {chance.randint(0, floor)}"]))
    return lines


def told_of(machine, lines):
    """The states of a run, before its opening, behind it, and behind each line, and the text of its replies."""
    before = machine.marks()
    replies = [machine.opened()]
    states = [before, machine.marks()]
    for line in lines:
        replies.append(machine.answer(line))
        if replies[-1].startswith("refused"):
            raise Failed(f"refuses a line of a long run: {line}: {replies[-1]}")
        states.append(machine.marks())
    return states, "".join(replies).encode()


def seconds_a_line(program, top):
    """How long a line takes of a long run on a fresh folder."""
    lines = long_lines(random.Random(0), Machine())
    before = time.perf_counter()
    subprocess.run([program, f"{top}/timed"], input=text_of(lines), stdout=subprocess.DEVNULL, check=True)
    shutil.rmtree(f"{top}/timed")
    return (time.perf_counter() - before) / len(lines)


def kill(program, folder, lines, seconds):
    """Begins a run, and kills it after this time; says whether it was still running, and what it has written."""
    run = subprocess.Popen([program, folder], stdin=subprocess.PIPE, stdout=subprocess.PIPE)
    try:
        written, _ = run.communicate(text_of(lines), timeout=seconds)
    except subprocess.TimeoutExpired:
        run.send_signal(signal.SIGKILL)
        written, _ = run.communicate()
    return run.returncode == -signal.SIGKILL, written


def check_written(was_killed, written, replies):
    """Refuses what a run has written that isn't its replies, or, where it was killed, a front of these."""
    if written != replies and not (was_killed and replies.startswith(written)):
        end, at = "is killed" if was_killed else "ends", len(os.path.commonprefix([written, replies]))
        raise Failed(f"{end}, and has written what aren't its replies, from byte {at} on: {written[at:at + 80]!r}")


def opened_again(program, folder, machine, script, states, has_written):
    """Compares what is left with the killed run's states, and the next run with the machine's; answers the size at which it opens. Where
    the run has written a reply, that is its last size."""
    found = Found(folder)
    why = why_not(found, machine.whole, machine.sizes, states)
    if why:
        raise Failed(f"leaves {why}")
    machine.prune = [state.prune for state in states if found.is_within(machine.sizes, state)][-1]
    opened = machine.opened(found.left())
    size = len(machine.whole)
    if size < states[0].durable:
        raise Failed(f"opens at {size}, below the durable size {states[0].durable}")
    if has_written and size < states[-1].size:
        raise Failed(f"has written replies, and opens at {size}, below its last size {states[-1].size}")
    lines, answers = script.run(NEXT_LINES)
    try:
        compare_replies(program, folder, lines, [opened] + answers)
    except Failed as failed:
        raise Failed(f"is left so that the next {failed}") from None
    return size


class Tally:
    """What came of the runs so far."""

    def __init__(self):
        self.runs, self.killed, self.written, self.between = 0, 0, 0, 0

    def go(self, program, folder, machine, chance, line_seconds):
        """One long run, which is killed, and the next."""
        lines = long_lines(chance, machine)
        states, replies = told_of(machine, lines)
        self.runs += 1
        was_killed, written = kill(program, folder, lines, chance.random() * line_seconds * len(lines))
        check_written(was_killed, written, replies)
        self.killed += was_killed
        self.written += was_killed and written != b""
        size = opened_again(program, folder, machine, Script(chance, machine), states, written != b"")
        self.between += states[1].size < size < states[-1].size


def main(words):
    if not 1 <= len(words) <= 4:
        print(__doc__, file=sys.stderr)
        return 2
    program, count, seed = words[0], int(words[1]) if words[1:] else COUNT, int(words[2]) if words[2:] else 1
    tally = Tally()
    with tempfile.TemporaryDirectory(dir=words[3] if words[3:] else None) as top:
        line_seconds = seconds_a_line(program, top)
        while tally.killed < count:
            if tally.runs % ON_ONE_FOLDER == 0:
                folder, machine = f"{top}/{tally.runs}", Machine()
            chance = random.Random(f"{seed} {tally.runs}")
            try:
                tally.go(program, folder, machine, chance, line_seconds)
            except Failed as failed:
                print(f"kill_runs: run {tally.runs} of seed {seed} {failed}")
                return 1
    print(f"kill_runs: {tally.killed} of {tally.runs} runs were killed, {tally.written} of these when they had begun to write behind their "
          f"last line, and the others had written nothing; {tally.between} opened again between their first and their last size; "
          "each opens where it should, and is answered as the list machine does from there")
    return 0


if __name__ == "__main__":
    sys.exit(main(sys.argv[1:]))

#!/usr/bin/env python3
"""Runs random scripts through the program twins, each on a folder of its own and cut into up to four runs, and compares the replies.

usage: tools/folder_runs.py PROGRAM [COUNT] [SEED]

The list machine of tools/machine.py goes on from one run to the next, and each run has to write the replies that it gives, byte
for byte. Behind each run the files of the folder have to stand for the machine's state.
"""
import random
import shutil
import sys
import tempfile

from machine import Machine
from runs import Failed, compare_replies, text_of
from scripts import Script, reason
from standing import Found, why_not

COUNT, RUNS = 10000, [1, 2, 2, 2, 3, 4]


def run(program, folder, script):
    """One run on a folder: its replies, and its lines."""
    opened = script.machine.opened()
    lines, answers = script.run()
    compare_replies(program, folder, lines, [opened] + answers)
    why = why_not(Found(folder), script.machine.whole, script.machine.sizes, [script.machine.marks()])
    if why:
        raise Failed(f"leaves {why}; its lines are\n{text_of(lines).decode()}")
    return [opened] + answers


def main(words):
    if not 1 <= len(words) <= 3:
        print(__doc__, file=sys.stderr)
        return 2
    program, count, seed = words[0], int(words[1]) if words[1:] else COUNT, int(words[2]) if words[2:] else 1
    came, runs = {}, 0
    with tempfile.TemporaryDirectory() as top:
        for number in range(count):
            chance = random.Random(f"{seed} {number}")
            script, folder = Script(chance, Machine()), f"{top}/{number}"
            for at in range(chance.choice(RUNS)):
                try:
                    replies = run(program, folder, script)
                except Failed as failed:
                    print(f"folder_runs: run {at} of script {number} of seed {seed} {failed}")
                    return 1
                runs += 1
                for reply in replies:
                    came[reason(reply.rstrip())] = came.get(reason(reply.rstrip()), 0) + 1
            shutil.rmtree(folder)
    print(f"folder_runs: {count} scripts in {runs} runs are answered as the list machine does: "
          + ", ".join(f"{n} {name}" for name, n in sorted(came.items())))
    return 0


if __name__ == "__main__":
    sys.exit(main(sys.argv[1:]))

#!/usr/bin/env python3
"""Measures the program twins, whose path it is given, and that of bench_keyless, which makes hash calls alone, and a folder on a disk.

Times are medians of several runs, each on a folder that isn't there but for the one that is opened again. What the same hash calls
would take is the time of as many blocks of SHA-256 by bench_keyless: for each operation a leaf, its nodes, and at each seal the
folds and the root, in both databases.
The peak memory of a child can't be told where it is below this program's own, from which the child is made; then that is shown as a
bound. A seal that copied the operations of its ancestors would show in the memory of a chain that isn't applied: the same bytes in
more batches would take more. Where valgrind is there it counts the instructions of generated rounds, and weighs the batches of a
chain and their pairs. A plain program in Python beside, bench/plain.py, keeps the same log: once with hash calls, once its
writes and syncs alone.
"""
import filecmp
import os
import re
import resource
import shutil
import statistics
import subprocess
import sys
import tempfile
import time

sys.path.insert(0, os.path.join(os.path.dirname(os.path.abspath(__file__)), "..", "tools"))
from expected import generated  # noqa: E402
from machine import append, bytes_of, commit, varint  # noqa: E402
from trees import Mmr  # noqa: E402

RUNS, NUMBER, COUNTS = 3, 7, (100, 1000, 10000)
COUNTED = (1000, 10000)         # the rounds whose instructions are counted
CHAINS = (250, 500, 1000)       # the batches of the chains that are weighed
TMPFS = "/dev/shm"
PLAIN = os.path.join(os.path.dirname(os.path.abspath(__file__)), "plain.py")
HEAD, PART = 8, 4               # bytes before the items of a log's file, and before each item
PIN, BOUNDARY = 9 + 32 + 2 * PART, 9 + 8 + 2 * PART


class Measured:
    """Medians of the seconds and of the processor's seconds of a command, and its peak memory in KiB."""

    def __init__(self, command, given="/dev/null", folder=None):
        self.command, self.given, self.folder, self.peak = command, given, folder, 0
        runs = [self.run() for _ in range(RUNS)]
        self.seconds, self.used = (statistics.median(run[at] for run in runs) for at in (0, 1))

    def run(self):
        if self.folder:
            shutil.rmtree(self.folder, ignore_errors=True)
        with open(self.given, "rb") as source, open(os.devnull, "wb") as sink:
            before = time.perf_counter()
            child = subprocess.Popen(self.command, stdin=source, stdout=sink, env={**os.environ, "LC_ALL": "C"})
            _, status, usage = os.wait4(child.pid, 0)
            seconds = time.perf_counter() - before
        if status != 0:
            sys.exit(f"{' '.join(self.command)} ended with status {status}")
        self.peak = max(self.peak, usage.ru_maxrss)
        return seconds, usage.ru_utime + usage.ru_stime

    def memory(self):
        own = resource.getrusage(resource.RUSAGE_SELF).ru_maxrss
        return f"{self.peak} KiB" if self.peak > own else f"at most {own} KiB"


# ---- what is hashed

def blocks_of(sizes):
    """The blocks that are hashed of a list that is sealed at these sizes: one of a leaf and of a root, two of a node and of a fold."""
    nodes = Mmr.size(sizes[-1]) - sizes[-1]
    folds = sum(bin(size).count("1") - 1 for size in sizes)
    return sizes[-1] + 2 * nodes + 2 * folds + len(sizes)


def a_block(hashes, batches, measured):
    """What a block takes by the program of hash calls: those of so many batches of four values on the first commit."""
    blocks = blocks_of([1 + 5 * (batch + 1) for batch in range(batches)])
    return (measured([hashes, "hashes", str(batches)]) - measured([hashes, "hashes", "0"])) / blocks


def seconds_a_block(hashes):
    """The processor's time of a block."""
    return a_block(hashes, 20000, lambda command: Measured(command).used)


def instructions(command):
    """How many a run takes, as valgrind counts them."""
    counted = ["valgrind", "--tool=callgrind", "--callgrind-out-file=/dev/null", *command]
    done = subprocess.run(counted, stdin=subprocess.DEVNULL, capture_output=True, text=True, check=True)
    return int(re.search(r"Collected : (\d+)", done.stderr)[1])


def count_instructions(program, hashes, scratch):
    """The lines on the instructions of generated rounds beside those of their hash calls, which no other work on the machine changes."""
    def of(rounds):
        return instructions([program, f"{scratch}/{rounds}", "--gen", str(NUMBER), str(rounds)])

    none, block = of(0), a_block(hashes, 1000, instructions)
    for count in COUNTED:
        ratio = (of(count) - none) / (2 * blocks_of(Rounds(count).sizes) * block)
        print(f"{count} rounds: {ratio:.3f} times the instructions of the hash calls")


# ---- what is generated, and the bytes that its files need

class Rounds:
    """Generated rounds: their operations, the size behind each, and the location of the last prune."""

    def __init__(self, count):
        self.operations, self.sizes, self.pruned, self.written = [commit(None, 0)], [1], 0, 1
        for line in generated(NUMBER, count):
            name, *words = line.split(" ")
            if name == "append":
                self.operations.append(append(bytes_of(words[1])))
            elif name == "seal":
                self.operations.append(commit(None, int(words[2])))
                self.sizes.append(len(self.operations))
            elif name in ("commit", "prune"):
                self.written = len(self.operations)
                self.pruned = int(words[0]) if words else self.pruned

    def floor(self):
        """A lower bound of the bytes that the format asks for, as if a prune kept nothing before its location: the operations from there on,
        the nodes from that location's position on as far as they are written, its pins and the boundary, and the witnesses of the
        sizes that aren't below it. What is kept besides, from the start of the blob on, counts against the program."""
        kept = sum(PART + len(operation.text) for operation in self.operations[self.pruned:])
        nodes = Mmr.size(self.written) - Mmr.size(self.pruned)
        witnesses = sum(PART + self.witness(size) for size in self.sizes if size >= self.pruned)
        pins = PIN * bin(self.pruned).count("1") + BOUNDARY if self.pruned else 0
        return 3 * HEAD + kept + (PART + 32) * nodes + witnesses + pins

    def witness(self, size):
        text = self.operations[size - 1].text
        return len(varint(len(text))) + len(text) + len(varint(size)) + 1 + 32 * bin(size - 1).count("1")


def bytes_in(folder):
    return sum(entry.stat().st_size for entry in os.scandir(folder))


def plainly(folder, count, *alone):
    """The command by which a plain program in Python keeps the log of so many rounds in a folder."""
    return [sys.executable, PLAIN, folder, str(NUMBER), str(count), *alone]


def writes_alone(folder, count):
    """The seconds of the writes and syncs of so many rounds, which are the program's."""
    seconds = []
    for _ in range(RUNS):
        shutil.rmtree(folder, ignore_errors=True)
        done = subprocess.run(plainly(folder, count, "writes"), capture_output=True, check=True)
        seconds.append(float(done.stdout))
    return statistics.median(seconds)


def beside(count, there, start):
    """The seconds of a plain program in Python that keeps the same log, and of its writes and syncs alone, each without those of its
    start. Its files must be the program's, which stand in the folder `there`."""
    folder = there + "-plain"
    plain = Measured(plainly(folder, count), folder=folder).seconds - start
    if plain <= 0:
        plain = None            # the start takes longer at times than all the rest
    if filecmp.cmpfiles(there, folder, os.listdir(there), shallow=False)[0] != os.listdir(there):
        sys.exit(f"the files of {count} rounds aren't those of the plain program")
    return plain, writes_alone(folder, count) - writes_alone(folder, 0)


def measure_rounds(program, place, block):
    """The lines on generated rounds in a folder in this place."""
    title, folder, first = ("tmpfs" if place == TMPFS else "disk"), tempfile.mkdtemp(dir=place) + "/folder", None
    start, empty = Measured([program, folder], folder=folder), Measured(plainly(folder, 0), folder=folder).seconds
    for count in COUNTS:
        rounds = Rounds(count)
        ours = Measured([program, folder, "--gen", str(NUMBER), str(count)], folder=folder)
        there, hashed = bytes_in(folder), 2 * blocks_of(rounds.sizes) * block
        plain, writes = beside(count, folder, empty)
        again = Measured([program, folder])
        each = (ours.seconds - start.seconds) / count
        first = first or each
        python = f"{(ours.seconds - start.seconds) / plain:.3f} times a plain program in Python; " if plain else ""
        print(f"{count} rounds on {title}, size {rounds.sizes[-1]}: {ours.seconds * 1000:.0f} ms, {each * 1000000:.0f} us a round, "
              f"{each / first:.2f} times that of the fewest; "
              f"of the processor {(ours.used - start.used) / hashed:.2f} times the hash calls; {ours.memory()}; {there} bytes on disk, {there / rounds.floor():.3f} times the least that the format asks for; "
              f"opened again in {again.seconds * 1000:.0f} ms; {python}{(ours.seconds - start.seconds) / writes:.2f} times the same writes and syncs alone")
    shutil.rmtree(os.path.dirname(folder))


# ---- other inputs

def batch(appends):
    return ["new"] + [f"append 0 {i:016x}" for i in range(appends)] + ["seal 0 - 0", "apply 0"]


def nested(batches):
    """2 MiB of values in a chain of batches of four appends, each batch on the one before, and none applied."""
    value, lines = "61" * (2097152 // (4 * batches)), []
    for b in range(batches):
        lines += [f"new {b - 1}" if b else "new"] + [f"append {b} {value}"] * 4 + [f"seal {b} - 0"]
    return lines


def chain(batches):
    """A chain of batches of one value each, each batch on the one before, and none applied."""
    return [line for b in range(batches) for line in (f"new {b - 1}" if b else "new", f"append {b} {b:016x}", f"seal {b} - 0")]


def heap(command, given):
    """The greatest number of bytes that a run that refuses nothing has allocated at once, as valgrind counts them."""
    with open(given, "rb") as source:
        counted = ["valgrind", "--tool=dhat", "--dhat-out-file=/dev/null", *command]
        done = subprocess.run(counted, stdin=source, capture_output=True, text=True, check=True)
    if any(line.startswith("refused") for line in done.stdout.splitlines()):
        sys.exit(f"a command of {given} is refused")
    return int(re.search(r"At t-gmax: +([0-9,]+) bytes", done.stderr)[1].replace(",", ""))


def weigh_chain(program, scratch):
    """The line on the bytes of a chain: those for each batch, and those for each pair of a batch and one before it."""
    def bytes_of_chain(batches):
        given, folder = f"{scratch}/chain", f"{scratch}/chained"
        with open(given, "w", encoding="ascii") as out:
            out.write("\n".join(chain(batches)) + "\n")
        shutil.rmtree(folder, ignore_errors=True)
        return heap([program, folder], given)

    few, more, most = (bytes_of_chain(batches) for batches in CHAINS)
    n, m, k = CHAINS
    each = [(more - few) / (m - n), (most - more) / (k - m)]        # a batch + a pair * (n + m - 1) / 2, and so on
    pair = (each[1] - each[0]) / ((k - n) / 2)
    batch_alone = each[0] - pair * (n + m - 1) / 2
    print(f"a chain of {k} batches of one value each, none applied: {most} bytes; {batch_alone:.0f} for each batch, and {pair:.1f} for "
          f"each pair of a batch and one before it")


def measure_inputs(program, scratch, block, start):
    """The lines on other inputs, over a folder on tmpfs where there is one."""
    folder, given = f"{scratch}/folder", f"{scratch}/given"

    def measured(text):
        with open(given, "w", encoding="ascii") as out:
            out.write(text)
        return Measured([program, folder], given, folder)

    for size in (100, 1000, 10000):
        ours, hashed = measured("\n".join(batch(size)) + "\n"), 2 * blocks_of([1, size + 2]) * block
        print(f"one batch of {size} appends: {ours.seconds * 1000:.1f} ms, {ours.memory()}, "
              f"of the processor {(ours.used - start.used) / hashed:.2f} times the hash calls")
    for size in (10, 100, 1000):
        ours = measured("\n".join(nested(size)) + "\n")
        print(f"2 MiB of values in a chain of {size} batches: {ours.seconds * 1000:.1f} ms, {ours.memory()}")
    ours = measured(("#" + "c" * 62 + "\n") * (16777216 // 64))
    plain = Measured(["wc"], given).seconds + Measured(["cat"], given).seconds
    print(f"16 MiB of comments: {ours.seconds * 1000:.1f} ms, {ours.memory()}, {ours.seconds / plain:.2f} times wc and cat together")


def main(program, hashes, disk):
    block = seconds_a_block(hashes)
    memory = TMPFS if os.path.isdir(TMPFS) else disk
    with tempfile.TemporaryDirectory(dir=memory) as scratch:
        start = Measured([program, f"{scratch}/folder"], folder=f"{scratch}/folder")
        print(f"start-up on a folder that isn't there: {start.seconds * 1000:.1f} ms, {start.memory()}; "
              f"a block of SHA-256 {block * 1000000:.3f} us")
        for place in dict.fromkeys([memory, disk]):
            measure_rounds(program, place, block)
        measure_inputs(program, scratch, block, start)
        if shutil.which("valgrind"):
            count_instructions(program, hashes, scratch)
            weigh_chain(program, scratch)


if __name__ == "__main__":
    main(*sys.argv[1:])

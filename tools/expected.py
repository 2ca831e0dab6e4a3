#!/usr/bin/env python3
"""Computes, apart from the product, what its tests and stored outputs compare with.

usage: tools/expected.py roots          the roots of the example elements, for each inactive count and bagging
       tools/expected.py run [FILE ..]  reads command lines, writes the reply lines of a run on a fresh volume; of several
                                        files, each is a run on what the one before left
       tools/expected.py gen NUMBER COUNT       the command lines that the program generates
       tools/expected.py script         reads a script of crates/run_calls, writes what its cases answer
       tools/expected.py check          compares the stored files of the repository with what is computed here

Everything is made from hashlib's SHA-256 and the rules in docs/MODEL.md. Nothing is taken from the product's output.
"""
import re
import sys
from functools import partial
from pathlib import Path

import machine
import proofs
import trees
from machine import Left, Machine, inactive_peaks, is_skipped, run, varint
from trees import Grown, Mmb, Mmr, digest, node, peaks


# ---- the tree

def root(elements, inactive=0, forward=True):
    return trees.root(Mmr, elements, inactive, forward)


def appended_root(elements, inactive, forward):
    """The same root by appending leaf after leaf, and with it each node, with which the recursion from the leaves is compared."""
    tree = Grown()
    for element in elements:
        tree.append(element)
    assert len(tree.nodes) == Mmr.size(len(elements))
    for height in range(len(elements).bit_length()):
        for first in range(0, len(elements) - 2**height + 1, 2**height):
            assert tree.nodes[Mmr.position(first, height)] == node(Mmr, elements, first, height)
    return trees.root_over([one for _, one in tree.tops], len(elements), inactive, forward)


# ---- generated commands

def drawn(x):
    return (x * 6364136223846793005 + 1442695040888963407) % 2**64


def generated(x, count):
    """The lines of so many rounds, from this number on: a batch of some appends each, and now and then a commit or a prune."""
    lines, size = [], 1
    for r in range(count):
        x, floor = drawn(x), size - 1
        appends = 1 + (x >> 60)
        lines.append("new")
        for _ in range(appends):
            x = drawn(x)
            lines.append(f"append {r} {x:016x}")
        lines += [f"seal {r} - {floor}", f"apply {r}", f"release {r}"]
        size += appends + 1
        lines += ["commit"] * ((r + 1) % 8 == 0) + [f"prune {floor}"] * ((r + 1) % 32 == 0)
    return lines


def summary(count, replies):
    """The four lines that stand for the replies to generated commands; none where there is no reply."""
    if not replies:
        return ""
    size, full = re.search(r" size=(\d+) full=(\w+) ", replies[-1]).groups()
    refused = sum(1 for reply in replies if reply.startswith("refused "))
    return f"rounds {count}\nsize {size}\nrefused {refused}\nroot {full}\n"


# ---- the cases of a script

SCRIPT = Path(__file__).resolve().parent.parent / "crates" / "run_calls" / "stdin"
NUMBER, COUNT, BYTES = "(0|[1-9][0-9]*)", "[1-9][0-9]*", r"(\.|([0-9a-fA-F][0-9a-fA-F])+)"
COMMAND = re.compile(f"new( {NUMBER})?|append {NUMBER} {BYTES}|seal {NUMBER} (-|{BYTES}) {NUMBER}"
                     f"|(apply|hold|release|get|commit-proof|prune) {NUMBER}|batch-get {NUMBER} {NUMBER}"
                     f"|(get-many|batch-get-many {NUMBER})( {NUMBER})*|proof {NUMBER} {NUMBER} {COUNT}"
                     "|snapshot|size|metadata|commit|sync|start-sync")
LOG_BLOB, NODE_BLOB, WITNESS_BLOB = 7, 11, 3    # of the runs that aren't under the program's configuration
OPENING_CALLS = 16 + 6          # calls of the volume with which the full and the compact database are opened on a fresh one
STATUSES = {0: "", 2: "twins: usage: twins [FOLDER] [--gen NUMBER COUNT]", 3: "twins: line {}: not a command",
            4: "twins: cannot read input", 5: "twins: cannot write output", 6: "twins: volume failed", 7: "twins: volume holds no valid state"}
# What opening finds where one log is empty from 1 on. A node log that begins past 0 is cleared where no boundary is stored.
DAMAGED = {"log": "Corrupt(Full(Journal(ItemPruned(0))))", "witness": "Corrupt(Compact(DataCorrupted(NoTip)))"}


def is_command(line):
    name, *words = line.split(" ")
    numbers = words[0::2] if name == "seal" else words[:1] if name == "append" else words
    return COMMAND.fullmatch(line) is not None and all(int(word) < 2**64 for word in numbers)


def first_bad(lines):
    """The first line that is no command, counted from 1, and none where each is one or is skipped."""
    return next((at for at, line in enumerate(lines, 1) if line and line[0] != "#" and not is_command(line)), None)


def said(data):
    """What an input alone says."""
    lines = data.decode("latin-1").split("\n")
    bad = first_bad(lines)
    return f"bad line {bad}" if bad else f"{sum(1 for line in lines if line and line[0] != '#')} commands"


def cases(text):
    """The comments between the cases of a script, each alone, and the cases: kind, settings and lines."""
    lines = iter(text.split("\n")[:-1])
    for line in lines:
        if line.startswith("#"):
            yield line, {}, []
        else:
            kind, *words = line.split(" ")
            yield kind, dict(zip(words[::2], words[1::2])), list(iter(lambda: next(lines), "end"))


def commands(lines):
    return [line for line in lines if line and line[0] != "#"]


def machine_of(settings):
    if settings.get("config") == "standard":
        return Machine()
    return Machine(int(settings["limit"]), int(settings.get("blob", LOG_BLOB)), WITNESS_BLOB)


def calls_volume(machine, line, reply, start, size):
    """Whether a command, answered so on a list of this start and size, has called the volume. A refusal is known without it, but
    for that of a proof at a size that is kept, or of a commit's witness that isn't found; that of the whole list is in memory. Of
    batches this tells only of those made on the list itself."""
    name, *words = line.split(" ")
    if name == "proof":
        return start < int(words[0]) <= size
    if name == "commit-proof":
        return 0 < int(words[0]) < size
    if reply.startswith("refused "):
        return False
    if name == "apply":
        return size < len(machine.whole)
    if name in ("batch-get", "batch-get-many"):
        return any(int(word) < machine.batches[int(words[0])].base for word in words[1:])
    return name in ("get", "commit", "sync", "start-sync", "prune") or name == "get-many" and words != []


class Log:
    """A log of the volume: where it begins and ends, where it may begin behind a crash, at first, and where it may end, at least."""

    def __init__(self):
        self.first = self.start = self.least = self.end = 0

    def extend(self, end):
        self.end = end

    def sync(self):
        self.first, self.least = self.start, self.end

    def prune(self, start):
        assert self.least == self.end   # all is durable before
        self.start = max(self.start, start)

    def parts(self):
        """The bounds of each part that a crash may leave, those of the whole log last. What begins before the log does ends where it ended
        at the prune."""
        earlier = [(start, self.least) for start in range(self.first, self.start)]
        return earlier + [(self.start, end) for end in range(self.least, self.end + 1)]


class Stops:
    """Where a run stops with each call of the volume failing in turn: after how many replies, what no crash undoes then, and which parts of
    the three logs one may leave. The full database writes first, and what it does is durable before the compact one begins."""

    def __init__(self, lines, machine):
        self.machine, self.found, self.durable = machine, [], 0
        self.log, self.nodes, self.witnesses = self.logs = Log(), Log(), Log()
        machine.opened()
        first = [step for one in self.logs for step in (partial(one.extend, 1), one.sync)]
        self.calls(0, *first)
        for count, line in enumerate(commands(lines), 1):
            self.durable, start, size = machine.durable, machine.start, len(machine.whole)
            if calls_volume(machine, line, machine.answer(line), start, size):
                self.calls(count, *self.steps(line.split(" ")[0]))
        self.durable = machine.durable
        self.at(None)

    def at(self, count):
        self.found.append((count, self.durable, *(one.parts() for one in self.logs)))

    def calls(self, count, *steps):
        """Where the run stops before each of these steps, which are then made."""
        for step in steps:
            self.at(count)
            step()

    def steps(self, name):
        """What a command makes of the logs, step by step; of one that reads, nothing."""
        size, applied = len(self.machine.whole), len(self.machine.sizes)
        items, witnesses = partial(self.log.extend, size), partial(self.witnesses.extend, applied)
        written = [self.log.sync, partial(self.nodes.extend, Mmr.size(size))]
        commit, sync = written + [self.witnesses.sync], written + [self.nodes.sync]
        start, wstart = self.machine.start, self.machine.wstart
        nodes = partial(self.nodes.prune, Mmr.size(start) // NODE_BLOB * NODE_BLOB)
        prune = [partial(self.log.prune, start), self.log.sync, nodes, partial(self.witnesses.prune, wstart), self.witnesses.sync]
        synced = sync + [self.witnesses.sync]
        made = {"apply": [items, witnesses], "commit": commit, "sync": synced, "start-sync": synced, "prune": commit + sync + prune}
        return made.get(name, [lambda: None])

    def ends(self, durable, log, nodes, witnesses):
        """The bounds of what is left of the logs, and at which size it is opened, and each image that a crash may leave. No image is opened
        below what no crash undoes."""
        sizes = sorted({self.machine.opens_at(Left(*one, *other)) for one in log for other in witnesses})
        assert sizes[0] >= durable
        left = [f"{name} {parts[-1][0]} to {parts[-1][1]}" for name, parts in
                (("log", log), ("nodes", nodes), ("witnesses", witnesses))]
        opens, images = self.machine.opens_at(Left(*log[-1], *witnesses[-1])), len(log) * len(nodes) * len(witnesses)
        return f"{', '.join(left)}; opens at {opens}, {images} images at {' '.join(map(str, sizes))}\n"

    def text(self):
        """A line for each stop, of those alike and one after another for the first alone, and one for the end."""
        told = [f"stopped Volume after {count} replies, {self.ends(*at)}" for count, *at in self.found[:-1]]
        told.append(f"done, {self.ends(*self.found[-1][1:])}")
        return "".join(one for one, before in zip(told, [None] + told) if one != before)


def failing(settings, lines):
    """The run, and where it stops with each call of the volume failing in turn; then where it ends."""
    return run(lines, machine_of(settings)) + Stops(lines, machine_of(settings)).text()


def ended(settings, lines, made):
    """The replies of a run on a machine that is made so, and the fault that has stopped it, if any. Of the calls behind the opening
    only the first one may fail."""
    call = int(settings.get("call", 0))
    assert call <= OPENING_CALLS + 1
    if 1 <= call <= OPENING_CALLS:
        return "", "Volume"
    if settings.get("log") in DAMAGED:
        return "", DAMAGED[settings["log"]]
    replies = run(lines, made()).splitlines(keepends=True)
    stopped = [count for count, *_ in Stops(lines, made()).found if count]
    if call and stopped:
        return "".join(replies[: stopped[0]]), "Volume"
    return "".join(replies), None


# ---- runs one after another

def crashed(machine, words):
    """What a crash leaves of these parts of logs: no less than is durable, and no more than is there."""
    parts = {words[at]: int(words[at + 2]) for at in range(0, len(words), 3)}
    left, wend = machine.left(), machine.first_at_least(machine.durable) + 1
    return left._replace(end=min(max(parts.get("log", left.end), machine.durable), left.end),
                         wend=min(max(parts.get("witness", left.wend), wend), left.wend))


def witness_fault(machine, size, text):
    """What the opening finds where the witness of a size is another, with this text behind its commit and its size; or nothing."""
    operation = machine.whole.operations[size - 1].text
    head = varint(len(operation)) + operation + varint(size)
    assert text.startswith(head)
    pins = [text[at:at + 32] for at in range(len(head) + 1, len(text), 32)]
    names = peaks(Mmr, size - 1)
    if len(pins) != len(names):
        return "Corrupt(Compact(DataCorrupted(Witness)))"
    tree = Grown()
    tree.nodes, tree.tops = [None] * Mmr.size(size - 1), [(height, pin) for (_, height), pin in zip(names, pins)]
    tree.append(operation)
    compact = tree.root(size, inactive_peaks(size, machine.whole.operations[size - 1].floor))
    full = bytes.fromhex(machine.whole.root)
    shown = [f"Sha256Digest {{ bytes: {list(one)} }}" for one in (full, compact)]
    return None if compact == full else f"Corrupt(Roots({shown[0]}, {shown[1]}))"


def history(settings, lines):
    """The runs of a case, one after another on one volume."""
    machine, out, begun, left, fault = machine_of(settings), [], [], None, None
    for line in [*lines, None]:
        if line is not None and not line.startswith("/"):
            begun.append(line)
            continue
        if fault is None:
            out += [machine.opened(left)] + [machine.answer(one) for one in begun if not is_skipped(one)]
        else:
            out.append(f"stopped {fault}\n")
        if line is not None:
            name, *words = line.split(" ")
            if name == "/start":
                assert words[0] == "log" and machine.start <= int(words[1]) <= machine.floor()
                machine.start = int(words[1])
            begun, fault, left = [], None, crashed(machine, words) if name == "/crash" else machine.left()
            if name == "/put":
                assert words[0] == "witness" and len(words) - 1 == len(machine.sizes)
                fault = witness_fault(machine, machine.sizes[-1], bytes.fromhex(words[-1]))
    return "".join(out)


# ---- the top call

def task_of(settings):
    """What the words say: nothing where they have no form, `input` where no commands are generated, or their number and count."""
    words = settings["words"].split(",") if "words" in settings else []
    if words and words[0] and words[0][0] != "-":
        words = words[1:]
    if not words:
        return "input"
    if len(words) != 3 or words[0] != "--gen" or not all(re.fullmatch(NUMBER, word) for word in words[1:]):
        return None
    number_word, count = map(int, words[1:])
    return (number_word, count) if number_word < 2**64 and count <= 10000 else None


def top_call(settings, lines):
    """What is written, the status, and the line that isn't one."""
    task = task_of(settings)
    if task is None:
        return "", 2, None
    if task == "input":
        if settings.get("read") in ("1", "2"):
            return "", 4, None
        if first_bad(lines):
            return "", 3, first_bad(lines)
    else:
        lines = generated(*task)
    whole, fault = ended(settings, lines, Machine)
    if task != "input":
        whole = summary(task[1], whole.splitlines(keepends=True))
    room = 0 if settings.get("write") == "1" else int(settings["room"])
    status = {None: 0, "Volume": 6}.get(fault, 7)
    return whole[:room], status or (5 if len(whole) > room or settings.get("write") == "2" else 0), None


def configured(settings):
    """Whether a configuration is taken, or why it is refused."""
    names = [settings[name] for name in ("log", "nodes", "metadata", "witness")]
    sizes = [int(settings[name]) for name in ("log_blob", "node_blob", "witness_blob")]
    if settings.get("memory") == "none":
        return "out of memory"
    if 0 in sizes:
        return "zero blob size"
    if int(settings["apply"]) == 0:
        return "zero apply batch"
    if len(set(names)) < 4:
        return "two equal names"
    return f"value limit {settings['limit']} above 16777216" if int(settings["limit"]) > 16777216 else "taken"


def answered(kind, settings, lines):
    if kind.startswith("#"):
        return kind + "\n"
    if kind == "config":
        return configured(settings) + "\n"
    if kind == "run" and not settings.keys() & {"log", "map", "call"}:
        return history(settings, lines)
    if kind == "run":
        replies, fault = ended(settings, lines, lambda: machine_of(settings))
        return replies + (f"stopped {fault}\n" if fault else "")
    if kind == "failing":
        return failing(settings, lines)
    if kind == "main":
        written, status, bad = top_call(settings, lines)
        return f"{written}/ status {status} {STATUSES[status].format(bad)}\n"
    inputs = {"lines": lambda line: line.encode(), "hex": bytes.fromhex}[kind]
    return "".join(said(inputs(line)) + "\n" for line in lines)


def script(text):
    return "".join(answered(*case) for case in cases(text))


def runs():
    """The names and commands of the single runs on fresh volumes, those among them whose calls are to fail in turn."""
    name = ""
    for kind, settings, lines in cases(SCRIPT.read_text(encoding="utf-8")):
        is_single = not settings.keys() & {"log", "map", "call"} and not any(line.startswith("/") for line in lines)
        if kind in ("run", "failing") and is_single:
            yield name, commands(lines)
        name = kind.removeprefix("# ")


# ---- what the tests compare with

# The elements whose roots the tests of the trees compare with.
ELEMENTS = [bytes.fromhex(text) for text in ("000000", "010161", "010162", "000000", "0101ff", "01020304", "00")]


# The floors of the lists of commits without metadata whose roots the tests of lists compare with.
FLOORS = [[], [0], [7, 7, 3], [7, 7, 2], [1, 2, 3, 4, 5]]


def example_roots():
    """Name and root of each example."""
    for leaves in range(len(ELEMENTS) + 1):
        for inactive in range(len(Mmr.heights(leaves)) + 1):
            for forward in (True, False):
                elements = ELEMENTS[:leaves]
                one = root(elements, inactive, forward)
                assert one == appended_root(elements, inactive, forward)
                yield f"{leaves} leaves, {inactive} inactive, {'forward' if forward else 'backward'}", one.hex()


def known_digests():
    """Every digest that a test may name."""
    known = {one for _, one in example_roots()}
    known.update(digest(text).hex() for text in (b"", b"abc"))
    for leaves in range(len(ELEMENTS)):
        for first, height in peaks(Mmr, leaves + 1):
            known.add(node(Mmr, ELEMENTS, first, height).hex())
        known.add(node(Mmr, ELEMENTS, leaves, 0).hex())
    known.update(one for _, one in proofs.rows())
    for family in (Mmr, Mmb):
        for leaves in (1, 2, 8, 11):
            known.add(trees.root(family, [bytes([leaf]) for leaf in range(leaves)], 0, True).hex())
    for floors in FLOORS:
        known.add(machine.root([machine.commit(None, floor) for floor in floors]) if floors else root([]).hex())
    return known


def told_runs(text):
    """The runs that a document tells, one after another on one folder: their input, their replies, and the replies that are right."""
    machine_now = Machine()
    for given, told in re.findall("```input\n(.*?)```\n\n```replies\n(.*?)```", text, re.DOTALL):
        yield given, told, run(given.splitlines(), machine_now)


def check(top):
    """Compares the stored files with what is computed here; answers what differs."""
    wrong = []
    for given, told, right in told_runs((top / "docs" / "TWINS.md").read_text(encoding="utf-8")):
        if told != right:
            wrong.append(f"docs/TWINS.md: not the replies to the run that begins with {given.splitlines()[0]}")
    for program, replies in (("twins", lambda text: run(text.splitlines())), ("run_calls", script)):
        home = top / "crates" / program
        stdin, stdout = home / "stdin", home / "stdout"
        if stdin.exists() and stdout.exists():
            if stdout.read_text(encoding="ascii") != replies(stdin.read_text(encoding="ascii")):
                wrong.append(f"{stdout.relative_to(top)}: not the replies to {stdin.relative_to(top)}")
    known = known_digests()
    for path in sorted((top / "crates").glob("*/src/**/*.rt")):
        for one in re.findall(r"\b[0-9a-f]{64}\b", path.read_text(encoding="utf-8")):
            if one not in known:
                wrong.append(f"{path.relative_to(top)}: the digest {one} is none that is computed here")
    return wrong


def main(words):
    if words == ["roots"]:
        for name, one in example_roots():
            print(f"{one}  {name}")
    elif words[:1] == ["run"]:
        machine_now = Machine()
        for text in [Path(word).read_text(encoding="ascii") for word in words[1:]] or [sys.stdin.read()]:
            sys.stdout.write(run(text.splitlines(), machine_now))
    elif words[:1] == ["gen"] and len(words) == 3:
        print("\n".join(generated(int(words[1]), int(words[2]))))
    elif words == ["script"]:
        sys.stdout.write(script(sys.stdin.read()))
    elif words == ["check"]:
        wrong = check(Path(__file__).resolve().parent.parent)
        for line in wrong:
            print(line)
        print("expected: " + ("what is stored is what is computed" if not wrong else f"{len(wrong)} differ"))
        return 1 if wrong else 0
    else:
        print(__doc__, file=sys.stderr)
        return 2
    return 0


if __name__ == "__main__":
    sys.exit(main(sys.argv[1:]))

"""The list machine apart from the product: what each command answers, and what it makes of the state, over one run after another.

The state is the list of operations, the applied sizes, what no crash undoes of operations and of nodes, the greatest
accepted prune location, the starts of both logs, and the batches by number. Everything is made from hashlib's SHA-256
and the rules in docs/MODEL.md; nothing is taken from the product's output.
"""
from collections import namedtuple

import trees
from proofs import cover
from trees import Grown, Mmr, peaks

MAX_LEAVES = 2**62

# What is appended or set, or a commit's metadata (or none), a commit's floor (or none), and the operation's bytes.
Operation = namedtuple("Operation", "value floor text")


class Refused(Exception):
    """A command is refused, for this reason, and changes nothing."""


# ---- operations

def varint(n):
    out = []
    while n >= 128:
        out.append(128 + n % 128)
        n //= 128
    return bytes(out + [n])


def append(value):
    return Operation(value, None, b"\1" + varint(len(value)) + value)


def commit(metadata, floor):
    option = b"\0" if metadata is None else b"\1" + varint(len(metadata)) + metadata
    return Operation(metadata, floor, b"\0" + option + varint(floor))


# ---- lists, their roots and proofs

def inactive_peaks(leaves, floor):
    """How many leading peaks end at or below the floor."""
    return sum(1 for first, height in peaks(Mmr, leaves) if first + (1 << height) <= floor)


def root(operations):
    """The root of operations that a commit ends, by the recursion from the leaves, in hexadecimal."""
    texts = [operation.text for operation in operations]
    return trees.root(Mmr, texts, inactive_peaks(len(texts), operations[-1].floor), True).hex()


def joined(texts):
    return ",".join(text.hex() for text in texts) or "-"


class Whole:
    """A list of operations that a commit ends, with its tree. It isn't changed."""

    def __init__(self, operations, before=None):
        self.operations, self.tree = (before.operations if before else []) + operations, Grown(before and before.tree)
        for operation in operations:
            self.tree.append(operation.text)
        self.root = self.tree.root(len(self), inactive_peaks(len(self), self.floor())).hex()

    def __len__(self):
        return len(self.operations)

    def floor(self):
        return self.operations[-1].floor

    def first(self, size):
        """The first operations, which a commit ends."""
        return self if size == len(self) else Whole(self.operations[:size])

    def begins(self, other, size):
        """Whether it is this front of another list."""
        return len(self) == size and self.operations == other.operations[:size]

    def peak_nodes(self, leaves):
        """The nodes at the peaks of so many leaves."""
        return [self.tree.nodes[Mmr.position(*peak)] for peak in peaks(Mmr, leaves)]

    def proof(self, size, start, end):
        """The answer of a proof of these operations in the tree of the first so many, which a commit ends."""
        names = cover(Mmr, size, lambda leaf: start <= leaf < end)
        digests = [self.tree.nodes[Mmr.position(*name)] for name in names]
        inactive = inactive_peaks(size, self.operations[size - 1].floor)
        texts = [operation.text for operation in self.operations[start:end]]
        return f"proof leaves={size} inactive={inactive} start={start} ops={joined(texts)} digests={joined(digests)}"

    def witness(self, size):
        """The bytes of the witness of the first so many, which a commit ends."""
        text, pins = self.operations[size - 1].text, self.peak_nodes(size - 1)
        return varint(len(text)) + text + varint(size) + varint(len(pins)) + b"".join(pins)


def shown(value):
    """A value, or none, as a reply has it."""
    return "-" if value is None else value.hex() or "."


# ---- the machine

class Batch:
    """A batch by its phase: unsealed, sealed or gone. A mark is a length of its own list: its boundary, or an ancestor's tip."""

    def __init__(self, phase, whole, parent=None):
        self.phase, self.whole, self.base, self.parent = phase, whole, len(whole), parent
        self.pending, self.boundary, self.tips, self.floor, self.holds = [], len(whole), [], 0, 0

    def marks(self):
        return [self.boundary] + self.tips


def is_unsealed(batch):
    return batch.phase == "unsealed"


def is_held(batch):
    return batch.phase == "sealed" and batch.holds > 0


# The bounds of the log of operations and of the log of witnesses.
Left = namedtuple("Left", "start end wstart wend")
# How far a state is: its size, how many sizes were applied, what no crash undoes, the prune location and both starts.
Marks = namedtuple("Marks", "size applied durable node_durable prune start wstart")


class Machine:
    """Runs over a state; `limit` is the longest value in bytes, the blobs are in items."""

    def __init__(self, limit=1048576, log_blob=64, witness_blob=64):
        self.limit, self.log_blob, self.witness_blob = limit, log_blob, witness_blob
        self.whole, self.sizes = Whole([commit(None, 0)]), [1]
        self.durable = self.node_durable = self.prune = self.start = self.wstart = 0
        self.batches = []       # by number

    # -- the list

    def floor(self):
        return self.whole.floor()

    def is_at(self, whole, sizes):
        """Whether the list is one of these fronts of another."""
        return any(self.whole.begins(whole, size) for size in sizes)

    def first_at_least(self, size):
        return next((i for i, one in enumerate(self.sizes) if one >= size), len(self.sizes))

    def marks(self):
        return Marks(len(self.whole), len(self.sizes), self.durable, self.node_durable, self.prune, self.start, self.wstart)

    # -- openings

    def left(self):
        """The bounds of both logs behind a step."""
        return Left(self.start, len(self.whole), self.wstart, len(self.sizes))

    def opens_at(self, left):
        """The greatest applied size that the log of operations reaches and whose witness is kept; 1 where there is none."""
        kept = [size for i, size in enumerate(self.sizes) if size <= left.end and left.wstart <= i < left.wend]
        return kept[-1] if kept else 1

    def opened(self, left=None):
        """The reply of an opening where the logs have these bounds, or those that the last step left; batches are gone."""
        left = left or self.left()
        size = self.opens_at(left)
        self.whole, self.sizes = self.whole.first(size), [one for one in self.sizes if one <= size]
        self.durable = self.node_durable = size
        self.start, self.wstart, self.batches = left.start, left.wstart, []
        return self.reply(f"opened start={self.start}")

    # -- batches

    def made(self, batch):
        self.batches.append(batch)
        return f"batch {len(self.batches) - 1}"

    def batch(self, b, *allowed):
        if b >= len(self.batches) or not any(test(self.batches[b]) for test in allowed):
            raise Refused(f"NoBatch {b}")
        return self.batches[b]

    def is_alive(self, b):
        return is_held(self.batches[b]) or any(is_unsealed(child) and child.parent == b for child in self.batches)

    def reach(self, batch):
        reached, link = [], batch.parent
        while link is not None and self.is_alive(link):
            reached.append(self.batches[link])
            link = self.batches[link].parent
        return reached

    def floor_under(self, batch):
        """The floor that an unsealed batch is built on."""
        return self.floor() if batch.parent is None else self.batches[batch.parent].floor

    def new(self, parent=None):
        if parent is None:
            return self.made(Batch("unsealed", self.whole))
        return self.made(Batch("unsealed", self.batch(parent, is_held).whole, parent))

    def append(self, b, value):
        batch = self.batch(b, is_unsealed)
        if len(value) > self.limit:
            raise Refused(f"ValueTooLong {len(value)}")
        if batch.base + len(batch.pending) >= MAX_LEAVES:
            raise Refused(f"LocationOverflow {batch.base + len(batch.pending) + 1}")
        batch.pending.append(append(value))
        return "ok"

    def seal(self, b, metadata, floor):
        batch = self.batch(b, is_unsealed)
        if len(metadata or b"") > self.limit:
            raise Refused(f"ValueTooLong {len(metadata)}")
        reached = self.reach(batch)
        boundary = batch.base if batch.parent is None else self.batches[batch.parent].boundary
        if reached:
            boundary = max(boundary, reached[-1].base)
        tips, location = [len(ancestor.whole) for ancestor in reached], batch.base + len(batch.pending)
        below = self.floor_under(batch)
        batch.phase = "gone"
        if not self.is_at(batch.whole, [boundary] + tips):
            raise Refused("StaleBatch")
        if location + 1 > MAX_LEAVES:
            raise Refused(f"LocationOverflow {location + 1}")
        if floor < below:
            raise Refused(f"FloorRegressed {floor} {below}")
        if floor > location:
            raise Refused(f"FloorBeyondSize {floor} {location}")
        batch.phase, batch.holds, batch.floor, batch.boundary, batch.tips = "sealed", 1, floor, boundary, tips
        batch.whole = Whole(batch.pending + [commit(metadata, floor)], batch.whole)
        return f"sealed {len(batch.whole)} {batch.whole.root}"

    def apply(self, b):
        batch = self.batch(b, is_held)
        if not self.is_at(batch.whole, batch.marks()):
            raise Refused("StaleBatch")
        if len(self.whole) < len(batch.whole):
            self.sizes.append(len(batch.whole))
        self.whole = batch.whole
        return "applied"

    def snapshot(self):
        batch = Batch("sealed", self.whole)
        batch.holds, batch.floor = 1, self.floor()
        return self.made(batch)

    def hold(self, b):
        self.batch(b, is_held).holds += 1
        return "ok"

    def release(self, b):
        batch = self.batch(b, is_unsealed, is_held)
        if is_unsealed(batch):
            batch.phase = "gone"
        else:
            batch.holds -= 1
        return "ok"

    # -- reads

    def is_readable(self, batch):
        """Whether a sealed batch may be read: the list is at one of its marks, or is the batch's."""
        return self.is_at(batch.whole, batch.marks() + [len(batch.whole)])

    def reading(self, b):
        """The operations that a batch reads, and its floor. An unsealed one is judged by its parent, and without one by its own base."""
        batch = self.batch(b, is_unsealed, is_held)
        if is_held(batch):
            readable, operations, floor = self.is_readable(batch), batch.whole.operations, batch.floor
        else:
            parent = None if batch.parent is None else self.batches[batch.parent]
            readable = self.is_at(batch.whole, [batch.base]) if parent is None else self.is_readable(parent)
            operations, floor = batch.whole.operations + batch.pending, self.floor_under(batch)
        if not readable:
            raise Refused("StaleRead")
        return operations, floor

    @staticmethod
    def in_order(locations, size):
        for before, after in zip(locations, locations[1:]):
            if after <= before:
                raise Refused(f"LocationOutOfOrder {before} {after}")
        if locations and locations[-1] >= size:
            raise Refused(f"LocationOutOfBounds {locations[-1]} {size}")

    def get_many(self, *locations):
        self.in_order(locations, len(self.whole))
        if locations and locations[0] < self.start:
            raise Refused(f"ItemPruned {locations[0]}")
        return "".join(["values"] + [" " + shown(self.whole.operations[at].value) for at in locations])

    def get(self, location):
        return "value " + self.get_many(location).split(" ")[1]

    def batch_get_many(self, b, *locations):
        operations, floor = self.reading(b)
        self.in_order(locations, len(operations))
        if locations and locations[0] < floor:
            raise Refused(f"BelowInactivityFloor {locations[0]}")
        return "".join(["values"] + [" " + shown(operations[at].value) for at in locations])

    def batch_get(self, b, location):
        return "value " + self.batch_get_many(b, location).split(" ")[1]

    def size(self):
        return f"size {len(self.whole)} start {self.start} floor {self.floor()}"

    def metadata(self):
        return f"metadata {shown(self.whole.operations[-1].value)}"

    def proof(self, size, start, count):
        if size == 0 or size > len(self.whole):
            raise Refused(f"RangeOutOfBounds {size}")
        if size - 1 < self.start:
            raise Refused(f"ItemPruned {size - 1}")
        if self.whole.operations[size - 1].floor is None:
            raise Refused(f"HistoricalFloorPruned {size}")
        if start >= size:
            raise Refused(f"RangeOutOfBounds {start}")
        if start < self.start:
            raise Refused(f"ItemPruned {start}")
        return self.whole.proof(size, start, min(size, start + count))

    def commit_proof(self, size):
        if size == 0 or size > len(self.whole):
            raise Refused(f"RangeOutOfBounds {size}")
        if size not in self.sizes[self.wstart:]:
            raise Refused(f"ItemPruned {size - 1}")
        return self.whole.proof(size, size - 1, size)

    # -- what is durable

    def commit(self):
        self.durable = len(self.whole)
        return "committed"

    def sync(self):
        self.durable = self.node_durable = len(self.whole)
        return "synced"

    def start_sync(self):
        self.sync()
        return "sync-started"

    def prune_to(self, location):
        if location > self.floor():
            raise Refused(f"PruneBeyondMinRequired {location} {self.floor()}")
        self.sync()
        first = self.first_at_least(location)
        self.prune = max(self.prune, location)
        self.start = max(self.start, location // self.log_blob * self.log_blob)
        self.wstart = max(self.wstart, first // self.witness_blob * self.witness_blob)
        return f"pruned {self.start}"

    # -- lines

    LINES = {
        "new": "new", "append": "append", "seal": "seal", "apply": "apply", "hold": "hold", "release": "release", "snapshot": "snapshot",
        "get": "get", "get-many": "get_many", "batch-get": "batch_get", "batch-get-many": "batch_get_many", "size": "size",
        "metadata": "metadata", "proof": "proof", "commit-proof": "commit_proof", "commit": "commit", "sync": "sync",
        "start-sync": "start_sync", "prune": "prune_to",
    }

    def step(self, words):
        """What a line answers, by its words."""
        name, *rest = words
        if name == "append":
            rest = [int(rest[0]), bytes_of(rest[1])]
        elif name == "seal":
            rest = [int(rest[0]), None if rest[1] == "-" else bytes_of(rest[1]), int(rest[2])]
        else:
            rest = [int(word) for word in rest]
        return getattr(self, self.LINES[name])(*rest)

    def reply(self, answer):
        return f"{answer} size={len(self.whole)} full={self.whole.root} compact={self.whole.root}\n"

    def answer(self, line):
        """The reply to a line."""
        try:
            return self.reply(self.step(line.split(" ")))
        except Refused as refusal:
            return self.reply(f"refused {refusal}")


def bytes_of(word):
    return b"" if word == "." else bytes.fromhex(word)


def is_skipped(line):
    return line == "" or line.startswith("#")


def run(lines, machine=None):
    """The reply lines of a run, on a fresh volume or on what a machine's runs left that ended by themselves."""
    machine = machine or Machine()
    return "".join([machine.opened()] + [machine.answer(line) for line in lines if not is_skipped(line)])

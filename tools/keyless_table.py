"""What full databases answer, in both families and both encodings.

Computed by trees.py and proofs.py and from these rules alone.

A database begins with a commit of floor 0, and a batch is some values and a commit behind them, which may have one
more value as metadata. A variable operation is its tag, its byte list with its length in front, and of a commit an
option byte, the metadata if there is some, and the floor as varint; a fixed one has numbers of eight bytes, zeros for
metadata that isn't there, and zeros up to one width. Tags: 0 a commit and 1 an append. The value of a number is one
byte, by 96 greater than it, or the number.

A read answers a value, of a commit its metadata, unless the place is at or past the size or below the start. Of several
places, they have to rise. A proof of a size that a commit ends has the operations from a place on, at most so many,
and the digests beside them, with as many inactive peaks as end at or below the floor. The pins of a place are the
peaks of as many leaves; a follower is given operations as by such a proof, or one with the pins of its place. A prune
at or below the floor lets go whole blobs of seven operations. A batch stands on one list, and is read and proved where
the database has that list's front at the batch's base, or where it has the batch, at its floor or above it; it is
sealed and applied at its base, or at an equal state. Its floor is no less than the database's, and at most its commit's
place. A snapshot is a batch of nothing, and a batch that isn't sealed has its values behind the list that it is on. A
cap opens the greatest size within it that a commit ends, and 0 none. The compact database of the same list has the
same root.

Where calls of the volume fail in turn, each step has a call that fails; each image opens at a state of the history
that is no older than the durable one, and each state is opened.
"""
from proofs import cover
from trees import Mmb, Mmr, node, number, peaks, root

BLOB = 7
CAPS = list(range(15)) + [100]


class Refused(Exception):
    """A call is refused, for this reason."""


class Variable:
    """Values are byte lists."""

    name = "variable values"

    @staticmethod
    def value(n):
        return bytes([n + 96])

    @classmethod
    def append(cls, n):
        return bytes([1, 1]) + cls.value(n)

    @classmethod
    def commit(cls, floor, metadata=None):
        value = bytes([0]) if metadata is None else bytes([1, 1]) + cls.value(metadata)
        return bytes([0]) + value + bytes([floor])


class Fixed:
    """Values are numbers."""

    name = "fixed values"

    @staticmethod
    def value(n):
        return number(n)

    @classmethod
    def append(cls, n):
        return b"\1" + cls.value(n) + bytes(9)

    @classmethod
    def commit(cls, floor, metadata=None):
        value = bytes(9) if metadata is None else bytes([1]) + cls.value(metadata)
        return bytes([0]) + value + number(floor)


def joined(texts):
    return "".join(" " + str(text) for text in texts)


class Log:
    """The values and operations of a list, and the floor of each of its sizes."""

    def __init__(self, values, operations, floors):
        self.values, self.operations, self.floors = values, operations, floors

    def longer(self, encoding, numbers, floor, metadata=None):
        told = None if metadata is None else encoding.value(metadata)
        values = self.values + [encoding.value(n) for n in numbers] + [told]
        operations = self.operations + [encoding.append(n) for n in numbers] + [encoding.commit(floor, metadata)]
        return Log(values, operations, {**self.floors, len(operations): floor})

    def size(self):
        return len(self.operations)

    def floor(self):
        return self.floors[self.size()]

    def front(self, size):
        floors = {n: floor for n, floor in self.floors.items() if n <= size}
        return Log(self.values[:size], self.operations[:size], floors)

    def inactive(self, family):
        return sum(1 for first, height in peaks(family, self.size()) if first + 2**height <= self.floor())

    def root(self, family):
        return root(family, self.operations, self.inactive(family), True)

    def value(self, place):
        return "-" if self.values[place] is None else self.values[place].hex()

    def proof(self, family, start, end):
        names = cover(family, self.size(), lambda leaf: start <= leaf < end)
        digests = joined(node(family, self.operations, *name).hex() for name in names)
        return f" in {self.size()} leaves, {self.inactive(family)} inactive:{digests}"

    def pins(self, family, leaves):
        return joined(node(family, self.operations, *peak).hex() for peak in peaks(family, leaves))


def check_rising(places, size):
    for one, next_one in zip(places, places[1:]):
        if one >= next_one:
            raise Refused(f"{one} is out of order before {next_one}")
    if places and places[-1] >= size:
        raise Refused(f"{places[-1]} is out of bounds {size}")


class Batch:
    """A sealed batch: its list, its base, and the lists at which it may be applied."""

    def __init__(self, log, base, before):
        self.log, self.base, self.before = log, base, before

    def is_at(self, operations):
        return any(operations == log.operations for log in self.before)

    def read(self, database):
        if not self.is_at(database.log.operations) and database.log.operations != self.log.operations:
            raise Refused("stale read")
        return self.log


class Database:
    """A list, the first operation that is kept, and the batches that were sealed."""

    def __init__(self, family, encoding):
        self.family, self.encoding, self.start, self.batches = family, encoding, 0, []
        self.log = Log([None], [encoding.commit(0)], {1: 0})

    def state(self):
        log = self.log
        return f" start {self.start} size {log.size()} floor {log.floor()} root {log.root(self.family).hex()}"

    def seal(self, parent, first, last, floor, metadata=None):
        below = self.batches[parent].log if parent is not None else self.log
        before = self.batches[parent].before + [below] if parent is not None else [below]
        made = Batch(below.longer(self.encoding, range(first, last), floor, metadata), below.size(), before)
        if not made.is_at(self.log.operations):
            raise Refused("stale batch")
        if floor < below.floor():
            raise Refused(f"floor {floor} is below {below.floor()}")
        if floor >= made.log.size():
            raise Refused(f"floor {floor} is past {made.log.size() - 1}")
        self.batches.append(made)
        return f" {made.log.size()} {made.log.root(self.family).hex()}"

    def batch(self, first, last, floor):
        self.seal(None, first, last, floor)
        return self.apply(-1)

    def apply(self, number):
        if not self.batches[number].is_at(self.log.operations):
            raise Refused("stale batch")
        self.log = self.batches[number].log
        return self.state()

    def sync(self):
        return self.state()

    commit = start_sync = sync

    def prune(self, place):
        if place > self.log.floor():
            raise Refused(f"{place} is above the floor {self.log.floor()}")
        self.start = max(self.start, place // BLOB * BLOB)
        return self.state()

    def open(self, cap):
        kept = [size for size in self.log.floors if size <= cap]
        if not kept:
            raise Refused("invalid bound")
        self.log = self.log.front(max(kept))
        return self.state()

    def get_many(self, places):
        check_rising(places, self.log.size())
        if places and places[0] < self.start:
            raise Refused(f"{places[0]} is pruned")
        return joined(self.log.value(place) for place in places)

    def get(self, place):
        return self.get_many([place])

    def proof(self, size, start, most):
        if size - 1 < self.start:
            raise Refused(f"{size - 1} is pruned")
        if size not in self.log.floors:
            raise Refused(f"no commit ends at {size}")
        if start >= size:
            raise Refused(f"{start} is out of range")
        if start < self.start:
            raise Refused(f"{start} is pruned")
        end = min(size, start + most)
        shown = joined(operation.hex() for operation in self.log.operations[start:end])
        return f"{shown}\n   {self.log.front(size).proof(self.family, start, end)}"

    def pins(self, place):
        return self.log.pins(self.family, place)

    def boundary(self):
        return f" {self.log.floor()}"

    def present(self, start, most):
        return self.proof(self.log.size(), start, most)

    serve = proof

    def serve_boundary(self, size, start):
        return f"{self.proof(size, start, 1)}\n    behind{self.pins(start)}"

    def destroy(self):
        self.__init__(self.family, self.encoding)
        return self.state()

    def batch_get_many(self, number, places):
        log = self.batches[number].read(self)
        check_rising(places, log.size())
        if places and places[0] < log.floor():
            raise Refused(f"{places[0]} is below the floor")
        return joined(log.value(place) for place in places)

    def batch_get(self, number, place):
        return self.batch_get_many(number, [place])

    def batch_proof(self, number):
        batch = self.batches[number]
        return batch.read(self).proof(self.family, batch.base, batch.log.size())

    def batch_pins(self, number):
        batch = self.batches[number]
        return batch.read(self).pins(self.family, batch.base)


FIRST = [
    ("seal 1 3 0", "seal", None, 1, 3, 0),
    ("apply 0", "apply", 0),
    ("get 1", "get", 1),
    ("get 3", "get", 3),
    ("get 4", "get", 4),
    ("get many", "get_many", []),
    ("get many 1 2 3", "get_many", [1, 2, 3]),
    ("get many 3 2", "get_many", [3, 2]),
    ("get many 2 99", "get_many", [2, 99]),
    ("proof 4 0 9", "proof", 4, 0, 9),
    ("apply 0", "apply", 0),
]

CHAIN = [
    ("seal 1 2 0", "seal", None, 1, 2, 0),
    ("seal on 0 2 3 0", "seal", 0, 2, 3, 0),
    ("apply 1", "apply", 1),
    ("proof 3 1 2", "proof", 3, 1, 2),
    ("proof 4 1 1", "proof", 4, 1, 1),
    ("proof 5 0 9", "proof", 5, 0, 9),
]

SIBLINGS = [
    ("seal 1 2 0", "seal", None, 1, 2, 0),
    ("seal 2 3 0", "seal", None, 2, 3, 0),
    ("apply 0", "apply", 0),
    ("batch 0 get 1", "batch_get", 0, 1),
    ("batch 1 get 1", "batch_get", 1, 1),
    ("batch 0 get many 1 2", "batch_get_many", 0, [1, 2]),
    ("batch 1 get many", "batch_get_many", 1, []),
    ("batch 0 proof", "batch_proof", 0),
    ("batch 1 proof", "batch_proof", 1),
    ("batch 0 pins", "batch_pins", 0),
    ("batch 1 pins", "batch_pins", 1),
    ("apply 1", "apply", 1),
]

EQUAL = [
    ("seal 1 2 0", "seal", None, 1, 2, 0),
    ("seal 1 2 0", "seal", None, 1, 2, 0),
    ("apply 0", "apply", 0),
    ("seal on 1 2 3 0", "seal", 1, 2, 3, 0),
    ("apply 2", "apply", 2),
]

FLOORS = [
    ("seal 1 3 4", "seal", None, 1, 3, 4),
    ("batch 1 3 3", "batch", 1, 3, 3),
    ("seal 3 3 2", "seal", None, 3, 3, 2),
    ("batch 0 get 2", "batch_get", 0, 2),
    ("batch 0 get 3", "batch_get", 0, 3),
]

PRUNED = [(f"batch {n} {n + 3} {n // 3 * 4 + 4}", "batch", n, n + 3, n // 3 * 4 + 4) for n in range(0, 45, 3)] + [
    ("prune 8", "prune", 8),
    ("get 6", "get", 6),
    ("get 7", "get", 7),
    ("proof 8 7 5", "proof", 8, 7, 5),
    ("proof 5 4 1", "proof", 5, 4, 1),
    ("proof 9 8 1", "proof", 9, 8, 1),
    ("proof 61 7 54", "proof", 61, 7, 54),
    ("pins 8", "pins", 8),
]

ABOVE = [
    ("batch 1 4 4", "batch", 1, 4, 4),
    ("sync", "sync"),
    ("prune 5", "prune", 5),
    ("prune 4", "prune", 4),
]

REPLACED = [
    ("batch 1 7 0", "batch", 1, 7, 0),
    ("sync", "sync"),
    ("seal 7 8 0", "seal", None, 7, 8, 0),
    ("open at most 1", "open", 1),
    ("batch 11 17 0", "batch", 11, 17, 0),
    ("batch 1 get 8", "batch_get", 1, 8),
    ("batch 1 proof", "batch_proof", 1),
    ("batch 1 pins", "batch_pins", 1),
    ("seal on 1 8 9 0", "seal", 1, 8, 9, 0),
]

FOLLOWED = [
    ("sync boundary", "boundary"),
    ("batch 1 6 0", "batch", 1, 6, 0),
    ("batch 6 9 7", "batch", 6, 9, 7),
    ("sync boundary", "boundary"),
    ("proof 6 3", "present", 6, 3),
    ("proof 11 1", "present", 11, 1),
    ("serve 7 5 9", "serve", 7, 5, 9),
    ("serve 8 5 9", "serve", 8, 5, 9),
    ("serve boundary 11 7", "serve_boundary", 11, 7),
    ("serve boundary 7 0", "serve_boundary", 7, 0),
    ("prune 7", "prune", 7),
    ("serve boundary 11 6", "serve_boundary", 11, 6),
    ("destroy", "destroy"),
    ("batch 1 3 0", "batch", 1, 3, 0),
]

HISTORY = [
    ("batch 0 1 0", "batch", 0, 1, 0),
    ("proof 3 1 9", "proof", 3, 1, 9),
    ("pins 1", "pins", 1),
    ("batch 1 4 2", "batch", 1, 4, 2),
    ("proof 7 3 9", "proof", 7, 3, 9),
    ("pins 3", "pins", 3),
    ("batch 4 9 3", "batch", 4, 9, 3),
    ("proof 13 7 9", "proof", 13, 7, 9),
    ("pins 7", "pins", 7),
    ("commit", "commit"),
]

HISTORIES = [
    ("one batch", FIRST),
    ("a batch on a batch", CHAIN),
    ("two batches on one database", SIBLINGS),
    ("two equal batches on one database", EQUAL),
    ("refused floors, and a read below one", FLOORS),
    ("fifteen batches, pruned", PRUNED),
    ("a prune above the floor", ABOVE),
    ("a batch after another history", REPLACED),
    ("followed, and taken away", FOLLOWED),
    ("three batches, opened under caps", HISTORY),
]

# Each with a call behind it, so two steps.
BATCHES = [(0, 2), (2, 3), (3, 7), (7, 7), (7, 9), (9, 10), (10, 13)]


def answer(call, *given):
    try:
        return call(*given)
    except Refused as why:
        return f" {why}"


def may(batch, database):
    return "may be applied" if batch.is_at(database.log.operations) else "may not be applied"


def print_calls(family, encoding):
    """A batch with metadata, which is applied; and of the database then a snapshot, the first batch of a pool, with a
    batch on it that is read and given up. A batch is held once, and once more for each batch on it."""
    database = Database(family, encoding)
    print(" a batch with metadata, and a snapshot")
    database.seal(None, 1, 3, 0, 9)
    sealed = database.batches[0]
    log, base = sealed.log, sealed.base
    print(f"  operations from {base}:{joined(operation.hex() for operation in log.operations[base:])}")
    states = f"from {base} to {log.size()}, begun at {sealed.before[0].size()}, on {len(sealed.before) - 1}"
    print(f"  {states}, floor {log.floor()}")
    print(f"  it {may(sealed, database)}")
    database.apply(0)
    print(f"  once more it {may(sealed, database)}")
    print(f"  applied {log.size()} {log.root(family).hex()}")
    print(f"  metadata: {log.value(log.size() - 1)}")
    print(f"  a snapshot {may(Batch(log, log.size(), [log]), database)}")
    values = log.values + [encoding.value(n) for n in (3, 4)]
    print(f"  a batch at {len(values)} on 0")
    for place in (2, 5):
        print(f"  get {place}: {values[place].hex()}")
    print(f"  get many 1 3 4:{joined(values[place].hex() for place in (1, 3, 4))}")
    print("  with a batch on it it is held 2\n  without, 1")


def print_kind(family, encoding):
    print(encoding.name)
    first = Log([None], [encoding.commit(0)], {1: 0}).longer(encoding, [1, 2], 0)
    print(f" one batch of the compact database: root {first.root(family).hex()}")
    begun = Log([None], [encoding.commit(0)], {1: 0})
    print(f" the first commit: root {begun.root(family).hex()}")
    for name, steps in HISTORIES:
        print(f" {name}")
        database = Database(family, encoding)
        for label, call, *given in steps:
            print(f"  {label}:{answer(getattr(database, call), *given)}")
        if steps is FOLLOWED:
            print_calls(family, encoding)
    whole = database.log
    for cap in CAPS:
        database.log = whole
        print(f"  cap {cap}:{answer(database.open, cap)}")


def print_failing(family):
    sizes = [1]
    for first, last in BATCHES:
        sizes.append(sizes[-1] + last - first + 1)
    print(f"{family.name}, calls of the volume fail in steps{joined(range(2 * len(BATCHES) + 1))}")
    print(f"  images open at{joined(sizes)}, and 0 otherwise")


def main():
    for family in Mmr, Mmb:
        print(family.name)
        for encoding in Variable, Fixed:
            print_kind(family, encoding)
    for family in Mmr, Mmb:
        print_failing(family)


if __name__ == "__main__":
    main()

"""What compact databases answer, of both kinds of operations, both encodings and both families.

Computed by trees.py and proofs.py and from these rules alone.

A database begins with a commit of floor 0, and a batch is some numbers and a commit behind them; no commit has
metadata. Without keys each number is appended. With keys a number gives its key a value; of a key that is set again the
later value stays, and the operations stand in the order of keys. A variable operation is its tag, then its byte lists
with their length in front, or of a commit a zero for no metadata and the floor as varint. A fixed one is its tag and
its numbers, each of eight bytes, or of a commit nine zeros and the floor, and then zeros up to one width. Tags: 0 a
commit and 1 an append; with keys 0 a set and 1 a commit.

A state is a size that a commit ends and that was applied, with the root of its tree over as many inactive peaks as end
at or below its floor. A batch's proof is that of its own operations in its tree with these inactive peaks, and its pins
are the peaks before them. It goes from the state that it is on to its own, its chain began at the database's, and it is
on as many batches as lie between; the next operation of one that isn't sealed goes behind those that it has. A batch
may be applied at the state where its chain began, and at the own state of one that it is on.

A cap opens the greatest state within it, and where there is none, nothing. What is served of a state that is kept is
its commit, with the proof of it in the state's tree, and beside these the peaks before it unless it is asked for as an
operation; of another size nothing is served. What is imported of it is that state alone: nothing is pruned before it is
written, and then it is opened, goes on as any other, and serves that state still. An append is no commit: where it is to be imported, the answer
is where it stands.
"""
from proofs import cover
from trees import Mmb, Mmr, node, number, peaks, root

BATCHES = [(range(0, 1), 0), (range(1, 4), 2), (range(4, 9), 3)]
CAPS = list(range(15)) + [100]
LATER = range(9, 11), 3


def key_of(n):
    return n % 64 * 3 % 8


def listed(*texts):
    return bytes([len(texts)]) + bytes(texts)


class Variable:
    """Keys and values are byte lists."""

    @staticmethod
    def append(n):
        return b"\1" + listed(ord("a"), n)

    @staticmethod
    def set(key, n):
        return b"\0" + listed(ord("k"), key) + listed(ord("a"), n)

    @staticmethod
    def commit(tag, floor):
        return bytes([tag, 0, floor])


class Fixed:
    """Keys and values are numbers."""

    @staticmethod
    def append(n):
        return b"\1" + number(n) + bytes(9)

    @staticmethod
    def set(key, n):
        return (b"\0" + number(key) + number(n)).ljust(18, b"\0")

    @staticmethod
    def commit(tag, floor):
        return bytes([tag, 0]) + bytes(8) + number(floor)


def keyless(encoding, numbers, floor):
    return [encoding.append(n) for n in numbers] + [encoding.commit(0, floor)]


def sets(encoding, pairs, floor):
    latest = dict(pairs)
    return [encoding.set(key, latest[key]) for key in sorted(latest)] + [encoding.commit(1, floor)]


def keyed(encoding, numbers, floor):
    return sets(encoding, [(key_of(n), n) for n in numbers], floor)


def inactive(family, leaves, floor):
    return sum(1 for first, height in peaks(family, leaves) if first + 2**height <= floor)


def joined(texts):
    return "".join(" " + text.hex() for text in texts)


class Database:
    """The operations of a history, and the floor of each of its sizes."""

    def __init__(self, family, operations, floors):
        self.family, self.operations, self.floors = family, operations, floors

    def root(self, size):
        count = inactive(self.family, size, self.floors[size])
        return root(self.family, self.operations[:size], count, True).hex()

    def state(self, size):
        return f"size {size} floor {self.floors[size]} root {self.root(size)}"

    def proof(self, start, size):
        count = inactive(self.family, size, self.floors[size])
        names = cover(self.family, size, lambda leaf: start <= leaf < size)
        digests = [node(self.family, self.operations[:size], *name) for name in names]
        return f"    proof of {size} leaves, {count} inactive:{joined(digests)}"

    def pins(self, leaves):
        return f"    pins:{joined(node(self.family, self.operations, *peak) for peak in peaks(self.family, leaves))}"

    def print_batch(self, own, floor, begun=None, below=0):
        """A batch on as many others as lie below it, whose chain began at a size, or at its own base."""
        base = len(self.operations)
        self.operations = self.operations + own
        size = len(self.operations)
        self.floors = {**self.floors, size: floor}
        begun = base if begun is None else begun
        states = f"from {base} to {size}, begun at {begun}, on {below}, floor {floor}"
        print(f"  operations from {base}:{joined(own)}")
        print(f"    {states} root {self.root(size)}")
        print(self.proof(base, size))
        print(self.pins(base))
        print(f"  {self.state(size)}")

    def print_opened(self, cap):
        kept = [size for size in self.floors if size <= cap]
        print(f"  cap {cap}: {self.state(max(kept)) if kept else 'invalid bound'}")

    def print_imported(self, made, encoding, size):
        if size not in self.floors:
            print(f"  nothing served at {size}\n" * 2, end="")
            return
        commit = joined([self.operations[size - 1]])
        served = f"  served at {size}:{commit}\n{self.proof(size - 1, size)}\n{self.pins(size - 1)}\n"
        print(served * 2, end="")
        print("  a prune is refused: import not applied")
        other = Database(self.family, self.operations[:size], {size: self.floors[size]})
        print(f"  imported: {other.state(size)}")
        print(f"  opened: {other.state(size)}")
        other.print_batch(made(encoding, *LATER), LATER[1])
        print(served, end="")

    def print_places(self, first):
        """Where witnesses stand from a place on: they stand in the order of the states."""
        places = list(enumerate(sorted(self.floors)))[first:]
        print("  witnesses:" + "".join(f" {size} at {place}" for place, size in places))
        for size in (7, 10):
            if size in [kept for _, kept in places]:
                print(f"  asked at {size}:{joined([self.operations[size - 1]])}\n{self.proof(size - 1, size)}")
            else:
                print(f"  asked at {size}: nothing")


def print_calls(family, made, encoding):
    """A snapshot, which is the pool's first batch, and a batch on it that is given up; a batch on a batch, both applied
    by one call, so that no witness is written between them; two more batches; and what is kept before a prune and
    behind it. Two witnesses stand in a blob, and a prune lets go whole blobs below the first witness whose size is at
    or past its place. A snapshot and a batch are held once, and once more for each batch on them."""
    database = Database(family, made(encoding, [], 0), {1: 0})
    print("  a snapshot may be applied")
    print(f"  a batch at {len(made(encoding, range(0, 3), 0))} on 0")
    print("  with a batch on it it is held 2\n  without, 1")
    print("  a batch on a batch may be applied")
    database.operations = database.operations + made(encoding, range(0, 2), 1)
    database.print_batch(made(encoding, range(2, 4), 2), 2, 1, 1)
    print("  the batch below it may not be applied\n  no metadata")
    size = len(database.operations)
    print(f"  applied {size} {database.root(size)}")
    print(f"  target {size} {database.root(size)}")
    database.print_batch(made(encoding, range(4, 6), 3), 3)
    database.print_batch(made(encoding, range(6, 9), 9), 9)
    database.print_places(0)
    past = next(place for place, size in enumerate(sorted(database.floors)) if size >= 10)
    database.print_places(past // 2 * 2)
    print(f"  taken away: {database.state(1)}")


def print_kind(name, family, made, encoding):
    print(name)
    database = Database(family, made(encoding, [], 0), {1: 0})
    print(f"  {database.state(1)}")
    for numbers, floor in BATCHES:
        database.print_batch(made(encoding, numbers, floor), floor)
    for cap in CAPS:
        database.print_opened(cap)
    for size in range(16):
        database.print_imported(made, encoding, size)
    print_calls(family, made, encoding)


def print_keyed(name, family, encoding):
    print(f"{name}, a repeated key")
    database = Database(family, keyed(encoding, [], 0), {1: 0})
    database.print_batch(sets(encoding, [(2, 1), (1, 2), (2, 3)], 0), 0)
    print_kind(name, family, keyed, encoding)


def main():
    for family in (Mmr, Mmb):
        print(family.name)
        print_kind("variable values", family, keyless, Variable)
        print_kind("fixed values", family, keyless, Fixed)
        print_keyed("variable keys and values", family, Variable)
        print_keyed("fixed keys and values", family, Fixed)
    print("an append is imported: unexpected data at 3")


if __name__ == "__main__":
    main()

"""What a tree in a volume keeps, and how what a crash leaves of it is opened again. Leaf i is the one byte i; blobs have three nodes.

Computed by trees.py and from these rules alone.

First, for each family, the tree of twenty leaves, of which fourteen are synced, pruned at each number of leaves. At 0 nothing
changes. Elsewhere all are synced, and the node log then begins at the blob of the boundary's position. The tree keeps leaves, nodes
and root. Under a cap below the boundary no tree is opened; under any other the tree of as many leaves as the cap allows. Of each tree
of first leaves each range from the boundary on has the proof that memory has.

Then a history of a tree: the opening, and steps that add leaves and call something. Each call of the volume fails in turn, and once
none does. A failed call changes nothing. What a crash then leaves of the node log is counted: a version since the last sync, of which
an append makes one with each item, here the two newest; and of that the part between two positions, the end at least the least end of
all versions, the start at most the greatest start. All of these open as the program reckons, and with what is durable.

Then a tree begins in a sync at each number of leaves, over a tree of none and of fourteen, up to four leaves more. With a pin less
than the start has peaks it is refused. Without pins each peak of the start comes from the log, and the first that the log doesn't have
is missing. A log that has a leaf past the start is kept up to the end, from the blob of the start's position on; else it is cleared.
"""
from histories import images, print_failing
from trees import Mmb, Mmr, peaks, root

LEAVES, SYNCED, BLOB = 20, 14, 3
MOST_START, STORED, KEPT = 16, 14, 4
STEPS = [(5, "flush"), (8, "sync"), (10, "flush"), (11, 6), (13, "flush"), (14, "sync"), (15, "flush"), (15, 15)]


def elements(n):
    return [bytes([i]) for i in range(n)]


def blob_start(position):
    return position // BLOB * BLOB


def tree(family, start, leaves):
    return f"{start} {leaves} {family.size(leaves)} {root(family, elements(leaves), 0, True).hex()}"


def print_pruned(family, boundary):
    written = LEAVES if boundary else SYNCED
    start, end = blob_start(family.size(boundary)), family.size(written)
    print(f"{family.name} pruned at {boundary}, nodes {start} to {end}: {tree(family, boundary, LEAVES)}")
    proofs = sum(end - boundary for leaves in range(boundary, LEAVES + 1) for end in range(boundary, leaves + 1))
    print(f"  {proofs} of {proofs} proofs are those of memory")
    for cap in range(LEAVES + 2):
        if cap < boundary:
            print(f"  cap {cap}: element pruned {family.size(cap)}")
        else:
            print(f"  cap {cap}: {tree(family, boundary, min(cap, written))}")


class History:
    """The calls of the volume that a history makes: for each its step, and what it changes of the node log."""

    def __init__(self, family):
        self.family, self.calls, self.step, self.start, self.written = family, [], 0, 0, 0
        self.call(None, 4)
        self.call(("sync",), 2)
        leaves, boundary = 0, 0
        for self.step, (leaves, call) in enumerate(STEPS, 1):
            self.flush(leaves)
            if call == "flush":
                continue
            self.call(("sync",))
            if call != "sync":
                self.prune(leaves, boundary, call)
                boundary = call

    def call(self, change, times=1):
        self.calls += [(self.step, change)] * times

    def flush(self, leaves):
        """The bounds are asked for, and the nodes appended that the log lacks, where there are any."""
        size = self.family.size(leaves)
        if self.written < size:
            self.call(None)
            self.call(("append", size - self.written))
            self.written = size

    def prune(self, leaves, before, boundary):
        """Each peak of the boundary that memory doesn't have is read; the map is read and replaced; then the log is pruned."""
        kept = peaks(self.family, leaves) + peaks(self.family, before)
        self.call(None, sum(peak not in kept for peak in peaks(self.family, boundary)))
        self.call(None, 3)
        start = blob_start(self.family.size(boundary))
        if self.start < start:
            self.call(("prune", start))
            self.start = start


def print_images(history, changes):
    """A step that isn't a flush makes its leaves durable where it ends."""
    done = len(changes)
    durable = 0
    for step, (leaves, call) in enumerate(STEPS, 1):
        if call != "flush" and all(place < done for place, (at, _) in enumerate(history.calls) if at == step):
            durable = leaves
    count = images([change for change in changes if change])
    print(f"{count} of {count} images open as reckoned, {durable} leaves durable")


def begun(family, stored, start):
    leaves = min(start + KEPT, stored)
    if leaves <= start:
        position = family.size(start)
        return f"nodes {position} to {position}: {tree(family, start, start)}"
    return f"nodes {blob_start(family.size(start))} to {family.size(leaves)}: {tree(family, start, leaves)}"


def print_syncs(family):
    for start in range(MOST_START + 1):
        print(f"{family.name} begun at {start}")
        for stored in (0, STORED):
            over = f"  over {stored} leaves,"
            positions = [family.position(*peak) for peak in peaks(family, start)]
            if positions:
                print(f"{over} a pin less: invalid pinned nodes")
            print(f"{over} with pins: {begun(family, stored, start)}")
            missing = [position for position in positions if family.size(stored) <= position]
            print(f"{over} without: {f'missing node {missing[0]}' if missing else begun(family, stored, start)}")


def main():
    for family in (Mmr, Mmb):
        for boundary in range(LEAVES + 1):
            print_pruned(family, boundary)
    for family in (Mmr, Mmb):
        print_failing(family.name, History(family), print_images)
    for family in (Mmr, Mmb):
        print_syncs(family)


if __name__ == "__main__":
    main()

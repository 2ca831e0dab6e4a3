"""At which end a journal is opened, and how what a crash leaves of one is opened again. Logs have two items a blob, and node logs three.

Computed by trees.py and from these rules alone.

A journal is opened behind its last item that matches, or at 0 where none does; an empty log keeps its place. A size may be given, past
which it doesn't end. A size below the log's start is refused as pruned, and so is that start, where it is above 0 and none of the items
at or behind it matches. Of what is left the tree is made again, with its root. A tree of more leaves than there are items is refused as
corrupt, at its number of leaves; any other is brought to the number of items.

As any log of items a journal gives items their places, and is pruned by whole blobs; a proof of items has as many leaves as there are
items.

Then a history of a journal of which every third item matches: the opening, and steps that add items and call something. Each call of the
volume fails in turn, and once none does. A failed call changes nothing. What a crash then leaves of a log is counted: a version since the
last sync, of which an append makes one with each item, here the two newest; and of that the part between two positions, the end at least
the least end of all versions, the start at most the greatest start. Each image of the log of items is opened beside each of the node log.
All of these open as the program reckons, and with what is durable.
"""
from histories import images, print_failing
from proofs import cover
from trees import Mmb, Mmr, node, peaks, root

ITEMS, BLOB, NODE_BLOB = 5, 2, 3
STEPS = [
    (5, "commit"),
    (6, "open"),
    (6, "sync"),
    (8, "open at most", 5),
    (7, "start"),
    (8, "prune", 3),
    (9, "commit"),
    (10, "open"),
    (11, "prune", 7),
]
MATCHES = 585


def matches(mask, item):
    return mask >> item & 1


class Fixed:
    name = "fixed"

    @staticmethod
    def spelled(item, mask):
        return (2 * item + matches(mask, item)).to_bytes(8, "big")


class Variable:
    name = "variable"

    @staticmethod
    def spelled(item, mask):
        return bytes([item + 1, matches(mask, item)] + [item] * item)


def named(family, kind):
    return f"{family.name} {kind.name}"


def opened(family, kind, mask, size):
    return f"{size} {root(family, [kind.spelled(i, mask) for i in range(size)], 0, True).hex()}"


def end(mask, start, size, most=None):
    """Where a journal is opened whose log has these bounds, or why it isn't."""
    if most is None and start == size:
        return size
    if most is not None and most < start:
        return f"Journal(ItemPruned({most}))"
    top = size if most is None else min(size, most)
    for item in reversed(range(start, top)):
        if matches(mask, item):
            return item + 1
    return 0 if start == 0 else f"Journal(ItemPruned({start}))"


def answer(family, kind, mask, start, size, most=None):
    at = end(mask, start, size, most)
    return at if isinstance(at, str) else opened(family, kind, mask, at)


def print_rows(family, kind):
    name = named(family, kind)
    print(f"{name} of five, 0 and 3 match: {answer(family, kind, 9, 0, ITEMS)}")
    print(f"  then at most 3: {end(9, 0, end(9, 0, ITEMS), 3)}, and of nothing: Journal(EmptyAppend)")
    print(f"{name} of three, pruned to 2, where 0 and 1 match: {answer(family, kind, 3, 2, 3)}")
    for mask in (0, 1, 4, 8, 9, 20, 31):
        for start in (0, 2, 4):
            print(f"{name} matches {mask}, pruned to {start}: {answer(family, kind, mask, start, ITEMS)}")
            for most in range(ITEMS + 2):
                print(f"  at most {most}: {answer(family, kind, mask, start, ITEMS, most)}")
    for leaves in range(5):
        for count in range(5):
            joined = f"Journal(Corruption({leaves}))" if count < leaves else opened(family, kind, 0, count)
            print(f"{name} of {leaves} leaves and {count} items: {joined}")


def ready(start, to):
    """The bounds of a log of all items that is made ready for those from a start up to an end. One that begins there, or
    before it and ends past it, is cut to the end and loses whole blobs below the start; any other is empty at the start."""
    if not (start == 0 or start < ITEMS):
        return start, start
    last = min(ITEMS, to)
    return min(start, last) // BLOB * BLOB, last


def print_calls(family, kind):
    spelled = [kind.spelled(i, 31) for i in range(ITEMS)]
    print(f"{named(family, kind)} as a log\n  an item at 0, more up to {ITEMS - 1}\n  pruned below 3, moved true: 2 to {ITEMS}")
    print(f"  {ITEMS} items, root {root(family, spelled, 0, True).hex()}")
    for start in (2, 4):
        last = min(ITEMS, start + 2)
        digests = [node(family, spelled, *name) for name in cover(family, ITEMS, lambda leaf: start <= leaf < last)]
        texts = "".join(" " + text.hex() for text in spelled[start:last])
        print(f"  items from {start}:{texts} in {ITEMS} leaves:" + "".join(" " + digest.hex() for digest in digests))
    print("  taken away: 0 to 0")
    for start, to in ((0, 3), (3, 4), (4, 9), (5, 6), (7, 9)):
        print("  ready for {} to {}: {} to {}".format(start, to, *ready(start, to)))


class History:
    """The calls of the volume that a history makes: for each its step, the log that it changes, and how; and after each step how many
    items no crash undoes."""

    def __init__(self, family):
        self.family, self.calls, self.step, self.least = family, [], 0, 0
        self.start, self.size, self.node_start, self.written, self.boundary = 0, 0, 0, 0, None
        self.leasts = []
        self.open(None)
        for self.step, (count, *call) in enumerate(STEPS, 1):
            self.leasts.append((len(self.calls), self.least))
            if self.size < count:
                self.call()
                self.call("items", "append", count - self.size)
                self.size = count
            if call[0] == "commit":
                self.call("items", "sync")
                self.flush()
            elif call[0] == "prune":
                self.prune(call[1])
            elif call[0] in ("sync", "start"):
                self.sync()
            else:
                self.open(*call[1:])
            self.least = self.size
        self.leasts.append((len(self.calls), self.least))

    def call(self, *change, times=1):
        self.calls += [(self.step, change)] * times

    def flush(self):
        """The bounds are asked for, and the nodes appended that the log lacks, where there are any."""
        size = self.family.size(self.size)
        if self.written < size:
            self.call()
            self.call("nodes", "append", size - self.written)
            self.written = size

    def sync(self):
        self.call("items", "sync")
        self.flush()
        self.call("nodes", "sync")

    def cut(self, log, size, to):
        if to < size:
            self.call(log, "cut", to)

    def open(self, most=None):
        """Behind the match nothing need be left. The bounds of the log of items, and its items from the last down to the match."""
        to = end(MATCHES, self.start, self.size, most)
        self.least = min(self.least, to)
        self.leasts.append((len(self.calls), self.least))
        self.call()
        self.call(times=min(self.size, self.size if most is None else most) - to + 1 if self.start < self.size else 0)
        # The map and the bounds of the node log; each peak of the complete leaves and of the pruned, where the map lacks it; an orphan.
        complete = max(n for n in range(to + 1) if self.family.size(n) <= self.written)
        first = min(n for n in range(to + 1) if self.node_start <= self.family.size(n))
        pruned = max(self.boundary or 0, first)
        pinned = peaks(self.family, self.boundary or 0)
        lacked = [peak for n in (complete, pruned) for peak in peaks(self.family, n) if peak not in pinned]
        orphan = complete < to and self.family.size(complete) < self.written
        self.call(times=2 + len(lacked) + orphan)
        # The log of items is cut and synced; the node log is cut, and synced twice, the second time with an orphan's nodes.
        self.call()
        self.cut("items", self.size, to)
        self.call("items", "sync")
        self.call()
        whole = self.family.size(complete)
        self.cut("nodes", self.written, whole)
        self.written = min(self.written, whole)
        self.size = complete + orphan
        if self.node_start < self.family.size(self.boundary or 0) // NODE_BLOB * NODE_BLOB:
            raise NotImplementedError
        self.call()
        self.call("nodes", "sync")
        self.flush()
        self.call("nodes", "sync")
        # What the tree lacks is read, and the tree is synced.
        self.call(times=to - self.size)
        self.size = to
        self.flush()
        self.call("nodes", "sync")

    def prune(self, place):
        self.sync()
        # The log of items is pruned by whole blobs and synced, and the tree is pruned to where it then begins.
        start = place // BLOB * BLOB
        self.call()
        if self.start < start:
            self.call("items", "prune", start)
            self.start = start
        self.call("items", "sync")
        if self.start <= (self.boundary or 0):
            return
        self.flush()
        self.call("nodes", "sync")
        kept = peaks(self.family, self.size) + peaks(self.family, self.boundary or 0)
        self.call(times=sum(peak not in kept for peak in peaks(self.family, self.start)))
        self.call(times=3)
        self.boundary = self.start
        start = self.family.size(self.boundary) // NODE_BLOB * NODE_BLOB
        if self.node_start < start:
            self.call("nodes", "prune", start)
            self.node_start = start


def images_of(log, changes):
    return images([change[1:] for change in changes if change[:1] == (log,)])


def print_images(history, changes):
    least = [least for place, least in history.leasts if place <= len(changes)]
    count = images_of("items", changes) * images_of("nodes", changes)
    print(f"{count} of {count} images open as reckoned, {least[-1] if least else 0} items durable")


def main():
    pairs = [(family, kind) for family in (Mmr, Mmb) for kind in (Fixed, Variable)]
    for pair in pairs:
        print_rows(*pair)
    for pair in pairs:
        print_calls(*pair)
    for family, kind in pairs:
        print_failing(named(family, kind), History(family), print_images)


if __name__ == "__main__":
    main()

"""What two lists of elements and the roots of their trees show, under SHA-256 and under a hash of one byte.

Computed by trees.py, which records each input that is hashed. Of two lists with one root it takes the first two inputs that
differ on the way from the root down: the root's, then the folds' from the outermost in, then those of the nodes over the first
element that differs, from its peak down to its leaf. It checks of them that they differ, that they have one digest, and that one
was hashed for the first list and the other for the second.

The hash of one byte begins with 0, and takes in a byte b by s -> (3 s + b + 7)^2 / 16 mod 256.

Prints first what the lists of 61 and 61, and of 61 and 62, show under SHA-256. Then for each family, and for each way to fold,
the first two inputs of each kind that clash, how often each answer comes, and SHA-256 over the answers in order: a byte 00 for
equal lists; 01 and the roots; 02 and two inputs, each behind its length in 8 bytes. The pairs are, for each n from 0 to 12, and
each value from 0 to 95: for each place below n the list of the bytes from 0 to n - 1 and the same with the value at that place,
with as many inactive peaks as the place says, up to all; then the list with the value at the first place and such a list with an
element less, without inactive peaks; then the list with the value at the first place twice, with all peaks inactive and none.
"""
import functools
import hashlib

import trees
from trees import Mmb, Mmr, number, peaks

LEAVES, VALUES = 12, 96
KINDS = ("leaf", "node", "fold", "root")


@functools.lru_cache(maxsize=None)
def byte_hash(message):
    state = 0
    for byte in message:
        state = (state * 3 + byte + 7) ** 2 // 16 % 256
    return bytes([state])


class Hashed:
    """A root, and the inputs that were hashed for it, in order."""

    def __init__(self, family, elements, inactive, forward):
        self.inputs = []
        trees.digest = self.digest
        self.root = trees.root(family, elements, inactive, forward)

    def digest(self, *parts):
        self.inputs.append(b"".join(parts))
        return byte_hash(self.inputs[-1])

    def root_and_folds(self):
        return [text for text in reversed(self.inputs) if text[0] >= 2]

    def at(self, family, x, h):
        """The input of the leaf or node here: no other has its tag and position."""
        head = (b"\1" if h else b"\0") + number(family.position(x, h))
        (text,) = {text for text in self.inputs if text.startswith(head)}
        return text


def way_down(family, n, place):
    """First leaf and height of each node over a leaf, from its peak down."""
    x, h = next(peak for peak in peaks(family, n) if peak[0] <= place < peak[0] + 2 ** peak[1])
    while True:
        yield x, h
        if h == 0:
            return
        h -= 1
        if place >= x + 2**h:
            x += 2**h


def on_the_way(family, one, other, a, b):
    """Pairs of inputs, one of each tree, from the root down."""
    yield from zip(one.root_and_folds(), other.root_and_folds())
    place = next(i for i, (x, y) in enumerate(zip(a, b)) if x != y)
    for x, h in way_down(family, len(a), place):
        yield one.at(family, x, h), other.at(family, x, h)


def clash(family, one, other, a, b):
    x, y = next((x, y) for x, y in on_the_way(family, one, other, a, b) if x != y)
    assert x != y and byte_hash(x) == byte_hash(y)
    assert x in one.inputs and y in other.inputs
    return x, y


def pairs(family):
    """Lists in pairs, with the inactive peaks of each."""
    for n in range(LEAVES + 1):
        tops, fewer = len(family.heights(n)), max(n - 1, 0)
        for value in range(VALUES):
            plain = [bytes([i]) for i in range(n)]

            def changed(count, place):
                return [bytes([value]) if i == place else plain[i] for i in range(count)]

            for place in range(n):
                inactive = min(place, tops)
                yield plain, changed(n, place), inactive, inactive
            yield changed(n, 0), changed(fewer, 0), 0, 0
            yield changed(n, 0), changed(n, 0), min(n, tops), 0


def table(family, forward):
    title = f"{family.name} {'forward' if forward else 'backward'}"
    answers, equal, differ, counts = hashlib.sha256(), 0, 0, [0] * 4
    for a, b, j, k in pairs(family):
        if a == b and j == k:
            answers.update(b"\0")
            equal += 1
            continue
        one, other = Hashed(family, a, j, forward), Hashed(family, b, k, forward)
        if one.root != other.root:
            answers.update(b"\1" + one.root + other.root)
            differ += 1
            continue
        x, y = clash(family, one, other, a, b)
        answers.update(b"\2" + number(len(x)) + x + number(len(y)) + y)
        kind = x[0]
        if counts[kind] == 0:
            print(title, KINDS[kind], x.hex(), y.hex())
        counts[kind] += 1
    print(title, "equal", equal, "roots differ", differ)
    for kind, count in zip(KINDS, counts):
        print(title, kind, "clashes", count)
    print(title, "answers", answers.hexdigest())


def rows():
    roots = [trees.root(Mmr, [bytes([value])], 0, True).hex() for value in (0x61, 0x62)]
    print("61 61 equal")
    print("61 62 roots differ", *roots)


def main():
    rows()
    for family in (Mmr, Mmb):
        for forward in (True, False):
            table(family, forward)


if __name__ == "__main__":
    main()

#!/usr/bin/env python3
"""Computes, apart from the product, the covers and roots that the tests of proofs compare with.

Everything is made from hashlib's SHA-256 and the rules of the trees. The elements are the letters from a on.
Prints for each row the range, the nodes of its cover with their digests, the peaks before the range, and the root.
"""
from trees import Mmb, Mmr, halves, node, peaks, root


def cover(family, n, met):
    """The nodes under which no leaf is met, from the left."""

    def inside(first, height):
        if not any(met(leaf) for leaf in range(first, first + (1 << height))):
            return [(first, height)]
        if height == 0:
            return []
        return [name for half in halves(first, height) for name in inside(*half)]

    return [name for peak in peaks(family, n) for name in inside(*peak)]


ROWS = [(Mmr, 3, 1, 3, 0, True), (Mmr, 3, 1, 2, 0, True), (Mmb, 5, 3, 5, 1, False), (Mmb, 5, 4, 5, 1, False), (Mmr, 7, 2, 3, 2, False)]


def rows():
    """The lines of each row, the digest last."""
    for family, n, start, end, inactive, forward in ROWS:
        elements = [bytes([97 + i]) for i in range(n)]
        title = f"{family.__name__} of {n} leaves, {start} to {end}, {inactive} inactive, {'forward' if forward else 'backward'}"
        for name in cover(family, n, lambda leaf: start <= leaf < end):
            yield f"{title}, cover node {name}", node(family, elements, *name).hex()
        for name in peaks(family, start):
            yield f"{title}, pin {name}", node(family, elements, *name).hex()
        yield f"{title}, root", root(family, elements, inactive, forward).hex()


if __name__ == "__main__":
    for name, one in rows():
        print(f"{one}  {name}")

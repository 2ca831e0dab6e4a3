"""The first thousand sizes, peaks and positions of both families of trees, and digests over nodes and roots.

Computed by trees.py, from the table of both families alone.

Prints, for each family and each n below 1000, the family, n, its size, each peak from the left as HEIGHT@POSITION, a colon,
and each node that the append of leaf n makes, in the order of positions, as FIRST/HEIGHT@POSITION. Then, for each family,
one digest over all nodes of the tree of 70 leaves in the order of positions, and one over roots: for each n from 0 to 70,
for the bagging from the left and then that from the right, for each number of inactive peaks from 0 to that of all peaks.
Leaf i has as its element the number i in 8 bytes, the high one first.
"""
from trees import Mmb, Mmr, digest, halves, node, number, peaks, root

LINES, LEAVES = 1000, 70


def made(family, n):
    """The nodes that n + 1 leaves have and n leaves don't, in the order of positions."""
    old = peaks(family, n)
    left = [peak for peak in peaks(family, n + 1) if peak not in old]
    new = []
    while left:
        x, h = left.pop()
        new.append((x, h))
        if h:
            left += [half for half in halves(x, h) if half not in old]
    new.sort(key=lambda one: family.position(*one))
    assert [family.position(*one) for one in new] == list(range(family.size(n), family.size(n + 1)))
    return new


def main():
    elements = [number(i) for i in range(LEAVES)]
    for family in (Mmr, Mmb):
        for n in range(LINES):
            tops = " ".join(f"{h}@{family.position(x, h)}" for x, h in peaks(family, n))
            new = " ".join(f"{x}/{h}@{family.position(x, h)}" for x, h in made(family, n))
            print(" ".join(part for part in (family.name, str(n), str(family.size(n)), tops, ":", new) if part))
    for family in (Mmr, Mmb):
        nodes = [node(family, elements, x, h) for n in range(LEAVES) for x, h in made(family, n)]
        print(family.name, "nodes", digest(*nodes).hex())
        roots = [
            root(family, elements[:n], inactive, forward)
            for n in range(LEAVES + 1)
            for forward in (True, False)
            for inactive in range(len(family.heights(n)) + 1)
        ]
        print(family.name, "roots", digest(*roots).hex())


main()

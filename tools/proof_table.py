"""The number of digests of the proof of each range of each tree of up to twenty leaves, and digests over the proofs.

Computed by trees.py and proofs.py, from the table of both families alone.

Leaf i has as its element the number i in 8 bytes, the high one first. Prints, for each family and each n from 1 to 20, the
family, n, and for each start from 0 on a colon and the numbers of digests of the proofs of the ranges from it, the shortest
first. The proof of a range has as many inactive peaks as its start says, up to all. Then, for each family, one digest over
these proofs in this order: of each the leaves, the inactive peaks and the number of digests, in 8 bytes each, and the
digests; the same for the tree of twenty leaves, of which each smaller tree is a part; how many proofs are accepted; and how
many of their damaged copies are refused: one with the middle digest changed, where there is one, one with the middle element
changed, one with an element less, one with an element more, one from the next leaf on, and one with a leaf more in the proof.

Then one digest over the pins before each of these proofs, in the same order: the number of the peaks of the leaves before its
range, in 8 bytes, and these peaks, the oldest first; how many proofs are accepted with them; and how many are refused with
damaged copies of them: one with a pin more, and where there are any, one without the last and one with the middle one changed.
"""
from proofs import cover
from trees import Mmb, Mmr, digest, node, number, peaks

LEAVES = 20


def main():
    elements = [number(i) for i in range(LEAVES)]
    for family in (Mmr, Mmb):
        parts, proofs, damaged = [], 0, 0
        pins, unpinned = [], 0
        for n in range(1, LEAVES + 1):
            line = f"{family.name} {n}"
            for start in range(n):
                line += " :"
                for end in range(start + 1, n + 1):
                    names = cover(family, n, lambda leaf: start <= leaf < end)
                    inactive = min(start, len(family.heights(n)))
                    parts += [number(n), number(inactive), number(len(names))]
                    parts += [node(family, elements[:n], *name) for name in names]
                    proofs += 1
                    damaged += 6 if names else 5
                    tops = peaks(family, start)
                    pins += [number(len(tops))]
                    pins += [node(family, elements[:n], *name) for name in tops]
                    unpinned += 3 if tops else 1
                    line += f" {len(names)}"
            print(line)
        for title in ("proofs", "history"):
            print(family.name, title, digest(*parts).hex())
        print(family.name, "accepted", proofs)
        print(family.name, "refused", damaged)
        print(family.name, "pins", digest(*pins).hex())
        print(family.name, "accepted with pins", proofs)
        print(family.name, "refused with pins", unpinned)


if __name__ == "__main__":
    main()

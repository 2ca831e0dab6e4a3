"""The trees of the outside computations: shapes, digests and roots of both families, from the leaves.

Everything is made from hashlib's SHA-256 and this table:

- MMR: the peaks of n leaves are as high as the places of the ones of n in binary, the highest first; it has 2n nodes less
  the number of these ones; the node of height h over the leaves from x on stands at size(x + 2^h - 1) + h.
- MMB: with n + 1 = 1 b(k-1) .. b(0) in binary there are k peaks of heights i + b(i), i from k - 1 down to 0, and 2n - k
  nodes; leaf x stands at size(x), and the node of height h above 0 over the leaves from x on at size(m - 1) + 1 with
  m = x + 2^h + 2^(h-1) - 1.
"""
import hashlib


def digest(*parts):
    return hashlib.sha256(b"".join(parts)).digest()


def number(n):
    return n.to_bytes(8, "big")


class Mmr:
    name = "mmr"

    @staticmethod
    def heights(n):
        return [i for i in reversed(range(n.bit_length())) if n >> i & 1]

    @staticmethod
    def size(n):
        return 2 * n - bin(n).count("1")

    @classmethod
    def position(cls, x, h):
        return cls.size(x + 2**h - 1) + h


class Mmb:
    name = "mmb"

    @staticmethod
    def heights(n):
        digits = bin(n + 1)[3:]
        return [i + int(b) for i, b in zip(reversed(range(len(digits))), digits)]

    @staticmethod
    def size(n):
        return 2 * n - len(bin(n + 1)[3:])

    @classmethod
    def position(cls, x, h):
        return cls.size(x) if h == 0 else cls.size(x + 2**h + 2 ** (h - 1) - 2) + 1


def peaks(family, n):
    """First leaf and height of each peak, from the left."""
    first, found = 0, []
    for height in family.heights(n):
        found.append((first, height))
        first += 2**height
    assert first == n
    return found


def halves(x, h):
    return [(x, h - 1), (x + 2 ** (h - 1), h - 1)]


def node(family, elements, x, h):
    """The digest of the node of height h over the leaves from x on."""
    position = number(family.position(x, h))
    if h == 0:
        return digest(b"\0", position, elements[x])
    return digest(b"\1", position, *[node(family, elements, *half) for half in halves(x, h)])


def fold(digests, forward):
    """One digest from several, from the left or from the right."""
    if forward:
        out = digests[0]
        for one in digests[1:]:
            out = digest(b"\2", out, one)
        return out
    out = digests[-1]
    for one in reversed(digests[:-1]):
        out = digest(b"\2", one, out)
    return out


def root_over(tops, leaves, inactive, forward):
    """The root over the digests of the peaks, from the left."""
    if inactive:
        tops = [fold(tops[:inactive], True)] + tops[inactive:]
    folded = fold(tops, forward) if tops else b""
    return digest(b"\3", number(leaves), number(inactive), b"\0" if forward else b"\1", folded)


def root(family, elements, inactive, forward):
    tops = [node(family, elements, *peak) for peak in peaks(family, len(elements))]
    return root_over(tops, len(elements), inactive, forward)


class Grown:
    """The MMR of a list, made append by append: its nodes by their positions, and its peaks, each a height and a digest."""

    def __init__(self, before=None):
        self.nodes, self.tops = (list(before.nodes), list(before.tops)) if before else ([], [])

    def add(self, height, *parts):
        one = digest(*parts)
        self.nodes.append(one)
        self.tops.append((height, one))

    def append(self, element):
        """A leaf behind the peaks; then the last two peaks are joined as long as they are of one height."""
        self.add(0, b"\0", number(len(self.nodes)), element)
        while len(self.tops) > 1 and self.tops[-2][0] == self.tops[-1][0]:
            (height, left), (_, right) = self.tops[-2:]
            del self.tops[-2:]
            self.add(height + 1, b"\1", number(len(self.nodes)), left, right)

    def root(self, leaves, inactive):
        return root_over([one for _, one in self.tops], leaves, inactive, True)

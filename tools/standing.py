"""Whether the files of a folder stand for a state of the list machine, under the program's own configuration.

The layout of the files is that of tools/folder_files.py; what stands for a state is told in docs/MODEL.md.
"""
from folder_files import Folder
from machine import Left
from trees import Mmr, number, peaks

LOG, NODES, METADATA, WITNESS = "log", "nodes", "metadata", "witness"
BOUNDARY = b"\1" + bytes(8)     # the key of the boundary; that of a pin is a zero and its position


def boundary_of(pairs):
    return int.from_bytes(pairs[BOUNDARY], "big") if BOUNDARY in pairs else 0


def first_at_least(sizes, size):
    return next((i for i, one in enumerate(sizes) if one >= size), len(sizes))


class Found:
    """What is in the four files of a folder."""

    def __init__(self, path):
        folder = Folder(path)
        self.start, self.operations = folder.log(LOG)
        self.node_start, self.nodes = folder.log(NODES)
        self.wstart, self.witnesses = folder.log(WITNESS)
        self.pairs = folder.map(METADATA)
        self.boundary = boundary_of(self.pairs)

    def left(self):
        """The bounds of the log of operations and of the log of witnesses."""
        return Left(self.start, self.start + len(self.operations), self.wstart, self.wstart + len(self.witnesses))

    def of_other_lists(self, whole, sizes):
        """What isn't of this list and its applied sizes, or nothing."""
        end = self.start + len(self.operations)
        if [operation.text for operation in whole.operations[self.start:end]] != self.operations:
            return "operations that aren't those of the list"
        if whole.tree.nodes[self.node_start:self.node_start + len(self.nodes)] != self.nodes:
            return "nodes that aren't those of the list"
        kept = sizes[self.wstart:self.wstart + len(self.witnesses)]
        if [whole.witness(size) for size in kept] != self.witnesses:
            return "witnesses that aren't those of the applied sizes"
        return self.of_another_map(whole)

    def of_another_map(self, whole):
        """What of the map isn't this list's, or nothing."""
        names = [Mmr.position(*peak) for peak in peaks(Mmr, self.boundary)]
        if any(b"\0" + number(name) not in self.pairs for name in names):
            return "a map without a pin of its boundary"
        for key, value in self.pairs.items():
            position = int.from_bytes(key[1:], "big")
            if key != BOUNDARY and (key[:1] != b"\0" or position >= Mmr.size(self.boundary) or whole.tree.nodes[position] != value):
                return "a pin that isn't the node of the list"
        return None

    def is_within(self, sizes, marks):
        """Whether it goes as far as a state may: sizes of its list, of which so many are applied."""
        end, node_end = self.start + len(self.operations), self.node_start + len(self.nodes)
        wend, durable = self.wstart + len(self.witnesses), first_at_least(sizes, marks.durable)
        return (self.start <= marks.prune and marks.durable <= end <= marks.size and self.boundary <= self.start
                and self.node_start <= Mmr.size(self.boundary)
                and Mmr.size(marks.node_durable) <= node_end <= Mmr.size(marks.size)
                and self.wstart <= first_at_least(sizes[:marks.applied], marks.prune) and wend <= marks.applied
                and (durable < wend if marks.durable else wend <= 1))


def why_not(found, whole, sizes, states):
    """Why these files stand for none of these states, each told by how far it is along a list and its applied sizes; or nothing."""
    why = found.of_other_lists(whole, sizes)
    if why or any(found.is_within(sizes, marks) for marks in states):
        return why
    return "bounds that are those of no state"

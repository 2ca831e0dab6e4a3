#!/usr/bin/env python3
"""Keeps the log of generated rounds in a folder, plainly: the files that the program twins leaves, byte for byte, by hashlib's SHA-256.

    plain.py FOLDER NUMBER COUNT            prints the four lines that the program does
    plain.py FOLDER NUMBER COUNT writes     makes the same writes and syncs alone, which were computed before, and prints their seconds

It proves nothing, verifies nothing, and keeps one tree where the program keeps those of two databases. Its writes and syncs are those
of the program, in the same order. The folder must not be there.
"""
import os
import sys
import time

sys.path.insert(0, os.path.join(os.path.dirname(os.path.abspath(__file__)), "..", "tools"))
from expected import generated  # noqa: E402
from machine import append, bytes_of, commit, inactive_peaks, varint  # noqa: E402
from trees import Grown, Mmr, number, peaks  # noqa: E402

BLOBS = {"log": 64, "nodes": 128, "witness": 64}
COPIED = 8192                   # how many bytes are copied by one write
FLAGS = os.O_RDWR | os.O_CREAT | os.O_APPEND


def part(text):
    return len(text).to_bytes(4, "big") + text


class Folder:
    """A folder that is made here, and the open files in it."""

    def __init__(self, path):
        os.mkdir(path)
        self.path, self.files = path, {"": os.open(path, os.O_RDONLY)}
        above = os.open(os.path.dirname(os.path.abspath(path)), os.O_RDONLY)
        os.fsync(above)
        os.close(above)

    def write(self, name, data):
        if name not in self.files:
            self.files[name] = os.open(f"{self.path}/{name}", FLAGS, 0o644)
        os.write(self.files[name], data)

    def sync(self, name):
        os.fsync(self.files[name])

    def replace(self, name, *pieces):
        """Puts a file with the bytes of these pieces, a write for each, in the place of the one of this name, durably."""
        path = f"{self.path}/{name}"
        made = os.open(path + ".new", FLAGS, 0o644)
        for piece in pieces:
            os.write(made, piece)
        os.fsync(made)
        os.rename(path + ".new", path)
        if name in self.files:
            os.close(self.files[name])
        self.files[name] = made
        self.sync("")


class Recorded:
    """The calls that would be made of a folder."""

    def __init__(self):
        self.calls = []

    def write(self, *given):
        self.calls.append((Folder.write, given))

    def sync(self, *given):
        self.calls.append((Folder.sync, given))

    def replace(self, *given):
        self.calls.append((Folder.replace, given))

    def seconds(self, path):
        """How long they take."""
        before = time.perf_counter()
        folder = Folder(path)
        for call, given in self.calls:
            call(folder, *given)
        return time.perf_counter() - before


class Log:
    """A log in a file, which is made with its first items: its start, and behind it its items, each behind its length."""

    def __init__(self, folder, name):
        self.folder, self.file, self.blob, self.start, self.items, self.is_named = folder, name + ".log", BLOBS[name], 0, [], False

    def extend(self, items):
        data = b"".join(map(part, items))
        if not self.items:
            data, self.is_named = number(0) + data, False
        self.items += items
        self.folder.write(self.file, data)

    def sync(self):
        """Makes the items durable, and the file's name, or that there is no file."""
        if self.items:
            self.folder.sync(self.file)
        if not self.is_named:
            self.folder.sync("")
            self.is_named = True

    def prune(self, least):
        """Drops the whole blobs below a position, and never all items."""
        start = least // self.blob * self.blob
        if start > self.start:
            del self.items[:start - self.start]
            self.start = start
            kept = b"".join(map(part, self.items))
            self.folder.replace(self.file, number(start), *(kept[at:at + COPIED] for at in range(0, len(kept), COPIED)))


class Plain:
    """The log, its tree, and a witness of each applied size. Each call makes durable what the program does, as often."""

    def __init__(self, folder):
        self.folder, self.tree, self.size, self.sizes, self.written, self.pairs = folder, Grown(), 0, [], 0, {}
        self.log, self.nodes, self.witnesses = (Log(folder, name) for name in BLOBS)
        self.add([commit(None, 0)])
        self.sync()
        self.witnesses.sync()
        self.root = self.witnessed(0)
        self.witnesses.sync()

    def pins(self, leaves):
        return [(Mmr.position(*peak), self.tree.nodes[Mmr.position(*peak)]) for peak in peaks(Mmr, leaves)]

    def add(self, operations):
        """Adds operations, the last of which is a commit."""
        texts = [operation.text for operation in operations]
        for text in texts:
            self.tree.append(text)
        self.size += len(texts)
        self.sizes.append(self.size)
        self.log.extend(texts)
        self.last = texts[-1]

    def witnessed(self, floor):
        """Adds the witness of the last commit, whose floor this is; the root behind it."""
        pins = [one for _, one in self.pins(self.size - 1)]
        self.witnesses.extend([varint(len(self.last)) + self.last + varint(self.size) + varint(len(pins)) + b"".join(pins)])
        return self.tree.root(self.size, inactive_peaks(self.size, floor))

    def write_nodes(self):
        """Makes the operations durable, and writes their nodes."""
        self.log.sync()
        if self.written < len(self.tree.nodes):
            self.nodes.extend(self.tree.nodes[self.written:])
            self.written = len(self.tree.nodes)

    def commit(self):
        self.write_nodes()
        self.witnesses.sync()

    def sync(self):
        """Makes operations and nodes durable."""
        self.write_nodes()
        self.nodes.sync()

    def prune(self, location):
        """Makes all durable, and drops what stands below this location, as far as whole blobs do: of the log, whose start is then made
        durable, and with it the nodes once more, of the nodes behind the map, and of the witnesses."""
        self.commit()
        self.sync()
        self.log.prune(location)
        self.log.sync()
        self.nodes.sync()
        self.pairs.update((b"\0" + number(position), one) for position, one in self.pins(self.log.start))
        self.pairs[b"\1" + bytes(8)] = number(self.log.start)
        self.folder.replace("metadata.map", b"".join(part(key) + part(self.pairs[key]) for key in sorted(self.pairs)))
        self.nodes.prune(Mmr.size(self.log.start))
        self.witnesses.prune(next(i for i, size in enumerate(self.sizes) if size >= location))
        self.witnesses.sync()

    def run(self, seed, count):
        operations = []
        for line in generated(seed, count):
            name, *words = line.split(" ")
            if name == "append":
                operations.append(append(bytes_of(words[1])))
            elif name == "seal":
                self.add(operations + [commit(None, int(words[2]))])
                self.root = self.witnessed(int(words[2]))
                operations = []
            elif name == "commit":
                self.commit()
            elif name == "prune":
                self.prune(int(words[0]))


def main(path, seed, count, *alone):
    folder = Recorded() if alone else Folder(path)
    plain = Plain(folder)
    plain.run(int(seed), int(count))
    if alone:
        print(folder.seconds(path))
    else:
        print(f"rounds {count}\nsize {plain.size}\nrefused 0\nroot {plain.root.hex()}")


if __name__ == "__main__":
    main(*sys.argv[1:])

"""Keeps logs and maps in files, by the layout of the volume in a folder alone, and compares with the program folder_calls.

    folder_files.py PROGRAM SCRIPT     compares: the script is gone through here up to each line, and from there on by the
                                       program in the folder that was left, and the other way round; and short scripts on
                                       files that were cut off or changed at each byte, on names that can't be a file's, and
                                       where there is no folder. The answers, and the files that the program leaves, have to
                                       be those of a run that was made here alone
    folder_files.py SCRIPT             prints the answers that are right

A log `n` is the file `n.log`: its start in 8 bytes big endian, and each item as its length in 4 bytes big endian and its bytes.
A map `n` is the file `n.map`: key, value, key, value in the order of keys, each as an item is. A file of a log that is shorter
than its start is a log that isn't there; what stands behind the last whole item isn't the log's, and goes before the next
append and at the next sync.
"""

import os
import struct
import subprocess
import sys
import tempfile

LIMIT = 2**64 - 1


def part(data):
    return struct.pack(">I", len(data)) + data


def parts(data):
    """The whole byte strings in front, and whether nothing stands behind them."""
    found, at = [], 0
    while at + 4 <= len(data):
        size = struct.unpack_from(">I", data, at)[0]
        if at + 4 + size > len(data):
            break
        found.append(data[at + 4 : at + 4 + size])
        at += 4 + size
    return found, at == len(data)


class Refused(Exception):
    pass


class Folder:
    def __init__(self, path):
        self.path = path

    def file(self, name, ending):
        if "/" in name or "\0" in name or os.path.exists(self.path) and not os.path.isdir(self.path):
            raise Refused("failed")
        return os.path.join(self.path, f"{name}.{ending}")

    def write(self, name, ending, data):
        path = self.file(name, ending)
        os.makedirs(self.path, exist_ok=True)
        with open(path, "wb") as f:
            f.write(data)

    def bytes(self, name, ending):
        try:
            with open(self.file(name, ending), "rb") as f:
                return f.read()
        except FileNotFoundError:
            return None

    def log(self, name):
        data = self.bytes(name, "log")
        if data is None or len(data) < 8:
            return 0, []
        start = struct.unpack_from(">Q", data)[0]
        items, _ = parts(data[8:])
        if start + len(items) > LIMIT:
            raise Refused("failed")
        return start, items

    def mend_log(self, name):
        data = self.bytes(name, "log")
        if data is not None:
            items, _ = parts(data[8:])
            self.write(name, "log", data[: 8 + len(b"".join(map(part, items)))] if len(data) >= 8 else b"")

    def put_log(self, name, start, items):
        self.write(name, "log", struct.pack(">Q", start) + b"".join(map(part, items)))

    def map(self, name):
        data = self.bytes(name, "map")
        found, whole = parts(data or b"")
        if not whole or len(found) % 2:
            raise Refused("failed")
        return dict(zip(found[::2], found[1::2]))

    def put_map(self, name, pairs):
        self.write(name, "map", b"".join(part(k) + part(v) for k, v in sorted(pairs.items())))

    def remove(self, name, ending):
        try:
            os.remove(self.file(name, ending))
        except FileNotFoundError:
            pass

    def contents(self):
        if not os.path.isdir(self.path):
            return None
        return {n: open(os.path.join(self.path, n), "rb").read() for n in os.listdir(self.path)}


def shown(data):
    try:
        return data.decode() or "."
    except UnicodeDecodeError:
        return "?"


def bytes_of(word):
    return b"" if word == "." else word.encode()


def call(folder, words):
    what, name, rest = words[0], words[1], words[2:]
    if what in ("map", "replace", "take"):
        if what == "map":
            pairs = sorted(folder.map(name).items())
            return "".join(f"{shown(k)} {shown(v)} " for k, v in pairs) + "end"
        if what == "replace":
            keys = [bytes_of(w) for w in rest]
            folder.put_map(name, dict(zip(keys[::2], keys[1::2])))
        else:
            folder.remove(name, "map")
        return "done"
    start, items = folder.log(name)
    there = folder.bytes(name, "log") is not None
    end = start + len(items)
    at = int(rest[0]) if what in ("read", "cut", "prune", "clear") else 0
    if what == "bounds":
        return f"{start} {end}"
    if what == "read":
        if at < start:
            return f"pruned {at}"
        return shown(items[at - start]) if at < end else f"out of range {at}"
    if what == "append":
        if end + len(rest) > LIMIT:
            return "failed"
        folder.put_log(name, start, items + [bytes_of(w) for w in rest])
    elif what in ("cut", "prune"):
        if not start <= at <= end:
            return "failed"
        if there and what == "cut":
            folder.mend_log(name)
            if folder.bytes(name, "log"):
                folder.put_log(name, start, items[: at - start])
        elif there and at > start:
            folder.put_log(name, at, items[at - start :])
    elif what == "sync":
        folder.mend_log(name)
    elif what == "clear":
        folder.put_log(name, at, [])
    elif what == "remove":
        folder.remove(name, "log")
    return "done"


def go(folder, lines):
    answers = []
    for line in lines:
        try:
            answers.append(call(folder, line.split()))
        except Refused as refused:
            answers.append(str(refused))
    return answers


def run(program, path, lines):
    text = "".join(line + "\n" for line in lines).encode()
    done = subprocess.run([program, path], input=text, capture_output=True, check=True)
    return done.stdout.decode().split("\n")[:-1]


def compare(program, lines):
    faults = 0
    with tempfile.TemporaryDirectory() as top:
        alone = Folder(os.path.join(top, "alone"))
        answers, left = [], [alone.contents()]
        for line in lines:
            answers += go(alone, [line])
            left.append(alone.contents())
        for at in range(len(lines) + 1):
            here = Folder(os.path.join(top, f"{at}-here", "folder"))
            there = Folder(os.path.join(top, f"{at}-there", "folder"))
            here_first = go(here, lines[:at]) + run(program, here.path, lines[at:])
            there_first = run(program, there.path, lines[:at])
            files = there.contents()
            there_first += go(there, lines[at:])
            for what, same in (
                ("answers of the program from", here_first == answers),
                ("answers of the program up to", there_first == answers),
                ("files of the program from", here.contents() == left[-1]),
                ("files of the program up to", files == left[at]),
            ):
                if not same:
                    print(f"the {what} line {at} are others")
                    faults += 1
    return faults


# A log of three items from position 2 on, of which the middle one is empty, and a map of two pairs, of which the first has no value.
LOG = struct.pack(">Q", 2) + part(b"one") + part(b"") + part(b"three")
MAP = part(b"a") + part(b"") + part(b"bc") + part(b"de")


def fronts(data):
    return [data[:length] for length in range(len(data) + 1)]


def changes(data, bits):
    return [data[:at] + bytes([data[at] ^ bits]) + data[at + 1 :] for at in range(len(data))]


def log_scripts(data):
    """Scripts on a log of these bytes: one that reads what is there and then appends, and others that change it at once."""
    items, _ = parts(data[8:])
    start = struct.unpack_from(">Q", data)[0] if len(data) >= 8 else 0
    reads = range(max(start - 1, 0), min(start + len(items), LIMIT) + 1)
    yield ["bounds log"] + [f"read log {at}" for at in reads] + ["append log zz", "bounds log", f"read log {reads[-1]}", "sync log"]
    yield ["append log . zz", "append log"]
    yield ["sync log"]
    for at in (start, start + 1):
        if at <= LIMIT:
            yield [f"cut log {at}", "append log zz"]
            yield [f"prune log {at}", "append log zz"]


def stored_cases():
    """Names of cases, the file in a folder and its bytes, and scripts on it."""
    last = [struct.pack(">Q", LIMIT - 1) + part(b"a"), struct.pack(">Q", LIMIT) + part(b"a")]
    logs = fronts(LOG) + [log for bits in (1, 0x80, 0xFF) for log in changes(LOG, bits)] + last
    maps = fronts(MAP) + [pairs for bits in (1, 0x80, 0xFF) for pairs in changes(MAP, bits)]
    for data in logs:
        for script in log_scripts(data):
            yield "log.log", data, script
    for data in maps:
        yield "map.map", data, ["map map", "replace map b 4", "map map"]
        yield "map.map", data, ["take map", "map map"]


def each_call(name):
    return [f"bounds {name}", f"append {name} x", f"clear {name} 1", f"remove {name}", f"map {name}", f"replace {name} k v",
            f"take {name}"]


def compare_stored(program):
    """The same on files that no run of a volume may have left."""
    faults, count = 0, 0
    with tempfile.TemporaryDirectory() as top:
        for count, (name, data, script) in enumerate(stored_cases(), 1):
            here, there = (Folder(os.path.join(top, f"{count}-{side}")) for side in ("here", "there"))
            for folder in (here, there):
                os.mkdir(folder.path)
                with open(os.path.join(folder.path, name), "wb") as f:
                    f.write(data)
            if go(here, script) != run(program, there.path, script) or here.contents() != there.contents():
                print(f"{name} of the bytes {data.hex()}: {script}: other answers or files")
                faults += 1
    return faults, count


def compare_names(program):
    """The same on names that can't be a file's, or that look so, and on paths that are no folder's."""
    scripts = [each_call(name) for name in ("../out", "a/b", "/", "nul\0")] + [["append .. x", "bounds ..", "sync ..", "read .. 0"]]
    faults = 0
    with tempfile.TemporaryDirectory() as top:
        for count, script in enumerate(scripts):
            here, there = (Folder(os.path.join(top, f"{count}-{side}")) for side in ("here", "there"))
            if go(here, script) != run(program, there.path, script) or here.contents() != there.contents():
                print(f"{script}: other answers or files")
                faults += 1
        file, inside = os.path.join(top, "file"), os.path.join(top, "file", "in")
        with open(file, "wb") as f:
            f.write(b"x")
        os.makedirs(os.path.join(top, "log-is-folder", "log.log"))
        for path, script, answers in (
            (file, each_call("log"), ["failed"] * 7),
            (inside, each_call("log"), ["failed"] * 7),
            (os.path.join(top, "log-is-folder"), ["bounds log", "bounds other"], ["failed", "0 0"]),
        ):
            if run(program, path, script) != answers or not os.path.isfile(file):
                print(f"{path}: other answers")
                faults += 1
    return faults


def main():
    script = sys.argv[-1]
    with open(script) as f:
        lines = f.read().splitlines()
    if len(sys.argv) == 3:
        program = os.path.abspath(sys.argv[1])
        faults, count = compare_stored(program)
        faults += compare(program, lines) + compare_names(program)
        print(f"{len(lines) + 1} fronts of a script and {count} scripts on stored files: "
              f"{'as it should be' if not faults else f'{faults} faults'}")
        sys.exit(1 if faults else 0)
    with tempfile.TemporaryDirectory() as top:
        print("\n".join(go(Folder(os.path.join(top, "folder")), lines)))


if __name__ == "__main__":
    main()

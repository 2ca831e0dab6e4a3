#!/usr/bin/env python3
"""Lets each call that the program of calls makes on its files fail in turn, and keeps what of the folder outlasts a crash.

usage: tools/folder_fails.py PROGRAM

PROGRAM is folder_calls. What it asks of the system is told by fail_calls.c, which the C compiler `cc` makes and the loader
puts before the C library; by it one call fails, or all of one kind. A disk follows the calls: what of a file and of the names
in a folder was synced outlasts a crash, and after a sync that failed nothing of the file or folder is taken to be written any
more. Where a call that has to outlast a crash is answered as done, the file of its log or map is the same on the disk as it
would be after a crash there, and each folder that it stands in.
"""
import os
import subprocess
import sys
from pathlib import Path

import faults
from folder_files import LOG, MAP
from runs import text_of

# Which call of a line has to outlast a crash, and the ending of the file that it writes.
LASTS = {"sync": "log", "clear": "log", "remove": "log", "replace": "map", "take": "map"}


class Node:
    """A file, whose contents are bytes, or a folder, whose contents are nodes by name: as they are, and after a crash."""

    def __init__(self, now):
        self.now, self.kept, self.is_lost = now, type(now)(), False

    def sync(self):
        if not self.is_lost:
            self.kept = self.now.copy() if isinstance(self.now, dict) else self.now


class Disk:
    def __init__(self):
        self.root, self.open = Node({}), {}

    def parts(self, path):
        return [part for part in os.path.normpath(path).split("/") if part != "."]

    def node(self, path, after_crash=False):
        found = self.root
        for part in self.parts(path):
            names = found.kept if after_crash else found.now
            found = names.get(part) if isinstance(names, dict) else None
            if found is None:
                return None
        return found

    def read(self, path, after_crash=False):
        found = self.node(path, after_crash)
        return None if found is None else found.kept if after_crash else found.now

    def names(self, path):
        return self.node(os.path.dirname(path) or ".").now, os.path.basename(path)

    def put(self, path, now):
        """A file or folder that was there before, and outlasts a crash."""
        names, name = self.names(path)
        names[name] = Node(now)
        names[name].sync()
        self.node(os.path.dirname(path) or ".").sync()

    def begin(self):
        """Another program begins: it knows nothing of syncs that failed before."""
        self.open = {}
        todo = [self.root]
        while todo:
            node = todo.pop()
            node.is_lost = False
            if isinstance(node.now, dict):
                todo += node.now.values()

    def call(self, what, words, answer):
        """Follows a call that was told."""
        if what == "sync":
            if answer < 0:
                self.open[words[0]].is_lost = True
            else:
                self.open[words[0]].sync()
        elif what == "write":
            self.open[words[0]].now += bytes.fromhex(words[1][1:])
        elif answer < 0:
            return
        elif what == "open":
            names, name = self.names(words[1])
            if words[0] == "make" and name not in names:
                names[name] = Node(b"")
            self.open[str(answer)] = self.node(words[1])
        elif what == "close":
            del self.open[words[0]]
        elif what == "cut":
            file = self.open[words[0]]
            file.now = file.now[: int(words[1])].ljust(int(words[1]), b"\0")
        elif what == "mkdir":
            names, name = self.names(words[0])
            names[name] = Node({})
        elif what == "rename":
            names, name = self.names(words[0])
            others, other = self.names(words[1])
            others[other] = names.pop(name)
        elif what == "unlink":
            names, name = self.names(words[0])
            del names[name]


class World:
    """A place of its own to run the program in, the disk that follows, and what was wrong."""

    def __init__(self, program, library, top, name):
        self.program, self.library, self.name, self.top = program, library, name, f"{top}/{name}"
        self.disk, self.wrong, self.told = Disk(), [], f"{top}/{name}.told"
        os.mkdir(self.top)

    def put(self, path, data):
        os.makedirs(os.path.dirname(f"{self.top}/{path}"), exist_ok=True)
        folder = os.path.dirname(path)
        if folder and self.disk.node(folder) is None:
            self.disk.put(folder, {})
        Path(f"{self.top}/{path}").write_bytes(data)
        self.disk.put(path, data)

    def expect(self, what, is_right):
        if not is_right:
            self.wrong.append(f"{self.name}: {what}")

    def run(self, lines, failing=0, kind="", folder="folder"):
        """The answers to lines, where a call fails, or all of a kind. What is answered as done has to outlast a crash."""
        settings = dict(os.environ, LD_PRELOAD=self.library, FAIL_CALL=str(failing), FAIL_KIND=kind, FAIL_CALL_TOLD=self.told)
        ended = subprocess.run([self.program, folder], input=text_of(lines), capture_output=True, cwd=self.top, env=settings, timeout=60)
        answers = ended.stdout.decode().split("\n")[:-1]
        self.expect(f"{lines}: not all of it was answered", ended.returncode == 0 and len(answers) == len(lines))
        self.follow(lines, folder)
        return answers

    def follow(self, lines, folder):
        self.disk.begin()
        self.calls, answered, text = [], 0, b""
        for told in Path(self.told).read_text().splitlines():
            number, what, *words, answer = told.split(" ")
            if what != "answer":
                self.disk.call(what, words, int(answer))
                self.calls.append((answered, int(number), what))
                continue
            text += bytes.fromhex(words[0])
            if not text.endswith(b"\n"):
                continue
            call, name = lines[answered].split(" ")[:2]
            if call in LASTS and text == b"done\n":
                path = f"{folder}/{name}.{LASTS[call]}"
                left = self.disk.read(path, after_crash=True)
                self.expect(f"{lines[: answered + 1]}: done, and doesn't outlast a crash", left == self.disk.read(path))
            answered, text = answered + 1, b""

    def number_of(self, line, what, which=0):
        """The number of a call in the last run, by the place of its line."""
        return [number for at, number, name in self.calls if at == line and name == what][which]

    def count(self):
        return max((number for _, number, _ in self.calls), default=0)

    def is_there(self, path):
        return os.path.exists(f"{self.top}/{path}")

    def bytes(self, path):
        return Path(f"{self.top}/{path}").read_bytes()


STEPS = ["append log one two", "sync log", "append log one two", "replace map k 1", "prune log 1", "sync log", "replace map k 2",
         "cut log 2", "sync log"]


def each_call_fails(worlds):
    """A script with each call failing in turn: what a sync made durable is read again by the next program."""
    whole = worlds("steps")
    whole.expect("not done", whole.run(STEPS) == ["done"] * len(STEPS))
    for failing in range(1, whole.count() + 1):
        world = worlds(f"steps-{failing}")
        answers = world.run(STEPS, failing)
        world.expect("no answer says it", "failed" in answers)
        done = [answer == "done" for answer in answers]
        bounds = world.run(["bounds log"])[0]
        start, end = map(int, bounds.split())
        items = dict(zip(range(start, end), world.run([f"read log {at}" for at in range(start, end)])))
        world.expect("an item can't be read", set(items.values()) <= {"one", "two"})
        world.expect("what was synced is lost", not (done[0] and done[1]) or items.get(1) == "two")
        world.expect("what was synced at last is other", not (done[0] and done[4] and done[7] and done[8]) or (start, end) == (1, 2))
        pairs = world.run(["map map"])[0]
        world.expect("the map is other", pairs == "k 2 end" or not done[6] and pairs in ("end", "k 1 end"))
    return whole.count()


# What has to outlast a crash, in a folder that isn't there.
OUTLASTING = ["append log one", "sync log", "sync absent", "replace map k 1", "clear nodes 3", "remove nodes", "take absent"]


def names_outlast(worlds):
    """The same of the names of folders, at each call of a first and of a second program."""
    whole, folder = worlds("names"), "not/there/yet"
    whole.expect("not done", whole.run(OUTLASTING * 2, folder=folder) == ["done"] * 14)
    first = whole.count()
    whole.expect("not done again", whole.run(OUTLASTING * 2, folder=folder) == ["done"] * 14)
    for failing in range(1, first + whole.count() + 1):
        world = worlds(f"names-{failing}")
        answers = world.run(OUTLASTING * 2, failing if failing <= first else 0, folder=folder)
        answers += world.run(OUTLASTING * 2, failing - first if failing > first else 0, folder=folder)
        world.expect("no answer says it", "failed" in answers)
        world.expect("not done at last", world.run(OUTLASTING, folder=folder) == ["done"] * 7)
    return first + whole.count()


def a_failed_sync_stays_failed(worlds):
    world = worlds("failed-sync")
    lines = ["append log one two", "sync log", "sync log", "prune log 1", "read log 0", "clear log 4", "append log one two",
             "sync log", "bounds log"]
    world.run(lines[:2], folder="tried")
    answers = world.run(lines, world.number_of(1, "sync"))
    world.expect("other answers", answers == ["done", "failed", "failed", "failed", "one", "done", "done", "done", "4 6"])


def a_lost_name_stays_lost(worlds):
    world = worlds("lost-name")
    again = ["sync log", "sync absent", "clear nodes 3", "remove nodes", "replace map k 1", "take map"]
    world.run(["append log one"], folder="tried")
    answers = world.run(["append log one"] * 2 + ["read log 0"] + again * 2, world.number_of(0, "sync"))
    world.expect("other answers", answers == ["failed", "done", "one"] + ["failed"] * 12)
    world.expect("lost for the next", world.run(["sync log", "read log 0"]) == ["done", "one"])


def a_folder_above_is_closed(worlds):
    world = worlds("closed-above")
    answers = world.run(["append log one", "replace map k 1", "bounds log"] * 2, kind="above")
    world.expect("made in a closed folder", answers == ["failed", "failed", "0 0"] * 2 and not world.is_there("folder"))
    os.mkdir(f"{world.top}/folder")
    world.disk.put("folder", {})
    world.expect("not done", world.run(OUTLASTING, kind="above") == ["done"] * 7)
    world.expect("not done inside", world.run(OUTLASTING, kind="above", folder="folder/in") == ["done"] * 7)


def a_removed_log_is_synced(worlds):
    world = worlds("removed")
    lines = ["append log one", "sync log", "remove log", "sync log", "bounds log", "append log one", "sync log"]
    world.run(lines, folder="tried")
    answers = world.run(lines, world.number_of(2, "sync"))
    world.expect("other answers", answers == ["done", "done", "failed", "failed", "0 0", "done", "failed"])
    os.remove(f"{world.top}/folder/log.log")
    del world.disk.node("folder").now["log.log"]
    lines = ["bounds log", "sync log", "sync log"]
    world.expect("not done by the next", world.run(lines) == ["0 0", "done", "done"])
    for failing, last in ((world.number_of(1, "open"), "done"), (world.number_of(1, "sync"), "failed"),
                          (world.number_of(1, "sync", 1), "failed")):
        world.expect("other answers of the next", world.run(lines, failing) == ["0 0", "failed", last])


def what_cannot_be_locked_is_used(worlds):
    world = worlds("not-locked")
    world.expect("not done", world.run(OUTLASTING, kind="lock") == ["done"] * 7)
    world.expect("other items", world.run(["read log 0"]) == ["one"])


def what_can_only_be_read_is_read(worlds):
    world = worlds("read-only")
    world.put("folder/log.log", LOG)
    world.put("folder/map.map", MAP)
    lines = ["bounds log", "read log 4", "map map", "append log four", "append other four", "prune log 3", "clear log 3",
             "replace map k 1", "bounds log"]
    answers = world.run(lines, kind="write")
    world.expect("other answers", answers == ["2 5", "three", "a . bc de end"] + ["failed"] * 5 + ["2 5"])
    world.expect("other files", (world.bytes("folder/log.log"), world.bytes("folder/map.map")) == (LOG, MAP))


class Talk:
    """A program that waits for its next line."""

    def __init__(self, world):
        self.ended = subprocess.Popen([world.program, "folder"], stdin=subprocess.PIPE, stdout=subprocess.PIPE, cwd=world.top)

    def ask(self, line):
        self.ended.stdin.write(line.encode() + b"\n")
        self.ended.stdin.flush()
        return self.ended.stdout.readline().decode().rstrip("\n")

    def end(self):
        self.ended.stdin.close()
        self.ended.wait(timeout=60)
        self.ended.stdout.close()


def one_program_at_a_time(worlds):
    world = worlds("held")
    world.put("folder/log.log", LOG)
    first, second = Talk(world), Talk(world)
    world.expect("the first isn't answered", first.ask("bounds log") == "2 5")
    world.expect("the second is answered", [second.ask(line) for line in ("bounds log", "map map")] == ["failed", "failed"])
    world.expect("the first isn't done", first.ask("append log four") == "done")
    first.end()
    world.expect("the second has other items", [second.ask(line) for line in ("bounds log", "read log 5")] == ["2 6", "four"])
    second.end()


def check(program, top):
    library, made = faults.library_in(top, "fail_calls"), []

    def worlds(name):
        made.append(World(program, library, top, name))
        return made[-1]

    count = each_call_fails(worlds) + names_outlast(worlds)
    for scenario in (a_failed_sync_stays_failed, a_lost_name_stays_lost, a_folder_above_is_closed, a_removed_log_is_synced,
                     what_cannot_be_locked_is_used, what_can_only_be_read_is_read, one_program_at_a_time):
        scenario(worlds)
    return f"{count} failing calls on the files of a folder", [line for world in made for line in world.wrong]


if __name__ == "__main__":
    sys.exit(faults.main(sys.argv[1:], __doc__, check))

"""What the checks share that make something of a program fail, one after another: how they begin, and what they tell."""
import os
import shutil
import subprocess
import sys
import tempfile
from pathlib import Path


def library_in(folder, name):
    """Makes the library of this name that the loader puts before the C library, and gives its path."""
    library = f"{folder}/{name}.so"
    source = Path(__file__).with_name(f"{name}.c")
    subprocess.run(["cc", "-O1", "-shared", "-fPIC", "-o", library, source, "-ldl"], check=True)
    return library


def fronts(text):
    """The texts of a first part of these lines, which isn't all of them."""
    lines = text.splitlines(keepends=True)
    return {b"".join(lines[:count]) for count in range(len(lines))}


def main(words, usage, check):
    """The status of a check of the one program that the words name: 2 where they don't, and 0 without a C compiler. The check takes
    the program's path and a folder, and gives what was made to fail, and what was wrong."""
    if len(words) != 1:
        print(usage.strip(), file=sys.stderr)
        return 2
    if not sys.platform.startswith("linux") or shutil.which("cc") is None:
        print("skipped: this needs Linux and a C compiler, so nothing is made to fail")
        return 0
    with tempfile.TemporaryDirectory() as scratch:
        what, wrong = check(os.path.abspath(words[0]), scratch)
    for line in wrong:
        print(line)
    print(f"{what}: {'as it should be' if not wrong else f'{len(wrong)} faults'}")
    return 1 if wrong else 0

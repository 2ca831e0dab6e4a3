"""How many images a crash leaves of a log, and a history of calls of the volume, each of which fails in turn.

A version is what a log is since its last sync, that one included; an append makes one with each item. An image has a part of one of the
two newest versions, between two positions: its end is at least the least end of all versions, its start at most their greatest start.
"""


def versions(changes):
    """The bounds of a log in each of its versions, the newest first."""
    found = [(0, 0)]
    for what, *number in changes:
        start, end = found[-1]
        if what == "append":
            found += [(start, end + i + 1) for i in range(*number)]
        elif what == "prune":
            found.append((*number, end))
        elif what == "cut":
            found.append((start, *number))
        else:
            found = [(start, end)]
    return found[::-1]


def images(changes):
    found = versions(changes)
    least_end, greatest_start = min(end for _, end in found), max(start for start, _ in found)
    count = 0
    for start, end in (found + found[-1:])[:2]:
        for first in range(start, min(greatest_start, end) + 1):
            count += end + 1 - max(least_end, first)
    return count


def print_failing(name, history, print_images):
    """A line for each call that fails, and one where none does: its step, and what is printed of the changes before it."""
    changes = [change for _, change in history.calls]
    for number, (step, _) in enumerate(history.calls, 1):
        print(f"{name} call {number} fails in step {step}: ", end="")
        print_images(history, changes[: number - 1])
    print(f"{name} ends: ", end="")
    print_images(history, changes)

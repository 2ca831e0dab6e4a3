"""The image of a log that each choice of a version, a start and an end picks after a small history.

Computed from the rule alone: an image takes one version since the last sync, that one included, and a part
of it. Its end is at least the least end and at most this version's end; its start is at least this version's
own start and at most the greatest start among the versions, and not past its end. A number of a choice is
moved to the nearest that is allowed, the start first.

Prints one line a choice: version, start, end, then the image's start and its items.
"""

HISTORY = [("append", [1, 2, 3]), ("sync",), ("append", [4, 5]), ("cut", 4), ("append", [6]), ("prune", 1)]


def versions():
    start, items = 0, []
    found = [(0, ())]
    for step in HISTORY:
        if step[0] == "append":
            for item in step[1]:
                items = items + [item]
                found.append((start, tuple(items)))
        elif step[0] == "cut":
            items = items[: step[1] - start]
            found.append((start, tuple(items)))
        elif step[0] == "prune":
            items = items[step[1] - start :]
            start = step[1]
            found.append((start, tuple(items)))
        else:
            found = [(start, tuple(items))]
    return found[::-1]


def nearest(low, high, number):
    return min(high, max(low, number))


def image(all_versions, version, start, end):
    least_end = min(s + len(i) for s, i in all_versions)
    greatest_start = max(s for s, _ in all_versions)
    first, items = all_versions[min(version, len(all_versions) - 1)]
    last = first + len(items)
    begin = nearest(first, min(greatest_start, last), start)
    stop = nearest(max(least_end, begin), last, end)
    return begin, items[begin - first : stop - first]


def allowed(all_versions):
    least_end = min(s + len(i) for s, i in all_versions)
    greatest_start = max(s for s, _ in all_versions)
    for first, items in all_versions:
        last = first + len(items)
        for begin in range(first, greatest_start + 1):
            for stop in range(max(least_end, begin), last + 1):
                if begin <= stop:
                    yield begin, items[begin - first : stop - first]


def main():
    all_versions = versions()
    picked = set()
    for version in range(len(all_versions) + 1):
        for start in range(4):
            for end in range(2, 7):
                begin, items = image(all_versions, version, start, end)
                picked.add((begin, items))
                print(" ".join(map(str, [version, start, end, begin, *items])))
    assert picked == set(allowed(all_versions)), "each image is picked, and nothing else"


main()

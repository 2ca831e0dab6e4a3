"""How often each answer comes when all byte strings of up to three bytes, bare or between zeros, are decoded by the
readers of varints, byte lists, options, lists, operations and targets.

Computed from the formats alone, by readers that share nothing with the program's. A reader is what waits for the next
byte: a function that is given it and gives the next reader, or an answer. Where two bytes lead to the same reader,
what follows is counted once.

Prints one line a reader and length: the reader, the number of bytes that vary, and the answers that came.
"""

from collections import Counter

MAX_LEAVES = 2**62
ANSWERS = (
    "read EndOfBuffer InvalidEnum Varint Option Length Padding Location NonEmptyRange Target CompactTarget ExtraData"
).split()


def varint(then, low=0, place=0):
    def wait(byte):
        value = low + ((byte % 128) << (7 * place))
        if byte >= 128:
            return "Varint" if place == 9 else varint(then, value, place + 1)
        if (byte == 0 and place > 0) or value >= 2**64:
            return "Varint"
        return then(value)

    return wait


def skip(count, then):
    """Bytes of any value."""
    if count == 0:
        return then
    after = skip(count - 1, then)
    return lambda byte: after


def zeros(count, then):
    if count == 0:
        return then
    after = zeros(count - 1, then)
    return lambda byte: after if byte == 0 else "Padding"


def one_byte(then):
    return skip(1, then)


def eight_bytes(then):
    return skip(8, then)


def byte_list(most):
    return lambda then: varint(lambda length: "Length" if length > most else skip(length, then))


def list_of(item, most):
    def items(count, then):
        return then if count == 0 else item(items(count - 1, then))

    return lambda then: varint(lambda count: "Length" if count > most else items(count, then))


def option(value, absent=lambda then: then):
    """A flag, and the value or what stands in its place."""

    def read(then):
        none, some = absent(then), value(then)
        return lambda flag: "Option" if flag > 1 else (some if flag else none)

    return read


def checked_floor(floor, then):
    return "Location" if floor > MAX_LEAVES else then


def varint_floor(then):
    return varint(lambda floor: checked_floor(floor, then))


def wide_floor(then, high=0, place=0):
    def wait(byte):
        value = 256 * high + byte
        return checked_floor(value, then) if place == 7 else wide_floor(then, value, place + 1)

    return wait


def tagged(zeroth, first):
    return lambda tag: (zeroth, first)[tag] if tag < 2 else "InvalidEnum"


def variable_commit(value):
    return lambda then: option(value)(varint_floor(then))


def fixed_commit(value, size):
    return lambda then: option(value, lambda after: zeros(size, after))(wide_floor(then))


def target(then):
    def end_of(start):
        def tested(end):
            if start >= end:
                return "NonEmptyRange"
            return "Target" if end > MAX_LEAVES else then

        return varint(tested)

    return skip(32, varint(end_of))


def compact_target(then):
    return skip(32, varint(lambda size: then if 1 <= size <= MAX_LEAVES else "CompactTarget"))


def read(byte):
    """Nothing more is wanted."""
    return "ExtraData"


def keyless_variable(value):
    return tagged(variable_commit(value)(read), value(read))


def keyless_fixed(value, size):
    return tagged(fixed_commit(value, size)(read), value(zeros(9, read)))


def immutable_variable(key, value):
    return tagged(key(value(read)), variable_commit(value)(read))


def immutable_fixed(key, key_size, value, size):
    behind_a_set = max(9 - key_size, 0)
    behind_a_commit = max(key_size - 9, 0)
    return tagged(key(value(zeros(behind_a_set, read))), fixed_commit(value, size)(zeros(behind_a_commit, read)))


def after_zeros(state, count):
    for _ in range(count):
        state = state if isinstance(state, str) else state(0)
    return state


def count_into(counts, state, times, varied, behind):
    if varied > 0 and not isinstance(state, str):
        for after, ways in Counter(map(state, range(256))).items():
            count_into(counts, after, times * ways, varied - 1, behind)
        return
    state = after_zeros(state, behind)
    answer = state if isinstance(state, str) else "read" if state is read else "EndOfBuffer"
    counts[answer] += times * 256**varied


def counted(reader, size, before, length, behind):
    """Where a reader has a size, that is tested first."""
    counts = Counter()
    if before + length + behind < size:
        counts["EndOfBuffer"] = 256**length
    else:
        count_into(counts, after_zeros(reader, before), 1, length, behind)
    return counts


READERS = [
    ("varint", varint(lambda value: read), 0, 0, 0),
    ("bytes", byte_list(2)(read), 0, 0, 0),
    ("option", option(one_byte)(read), 0, 0, 0),
    ("list", list_of(one_byte, 2)(read), 0, 0, 0),
    ("keyless-variable", keyless_variable(byte_list(2)), 0, 0, 0),
    ("keyless-fixed", keyless_fixed(one_byte, 1), 1 + 1 + 1 + 8, 0, 8),
    ("keyless-fixed-floor", keyless_fixed(one_byte, 1), 1 + 1 + 1 + 8, 2, 6),
    ("immutable-variable", immutable_variable(byte_list(1), one_byte), 0, 0, 0),
    ("immutable-fixed", immutable_fixed(eight_bytes, 8, one_byte, 1), 11, 0, 8),
    ("immutable-fixed-end", immutable_fixed(eight_bytes, 8, one_byte, 1), 11, 8, 0),
    ("target", target(read), 0, 32, 0),
    ("compact-target", compact_target(read), 0, 32, 0),
]


def main():
    for name, reader, size, before, behind in READERS:
        for length in range(4):
            counts = counted(reader, size, before, length, behind)
            came = [f"{answer}={counts[answer]}" for answer in ANSWERS if counts[answer]]
            print(" ".join([name, str(length), *came]))


main()

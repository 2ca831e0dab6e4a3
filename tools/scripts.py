"""Random scripts for the program, each line chosen by what the list machine has after the lines before it.

A run has up to sixty lines, and some begin with a batch that is longer than a blob of the log of operations, or with more
small batches than a blob of the log of witnesses has, so that a prune can move its start. The numbers in the lines are mostly of
batches, sizes, locations and floors that are there, so that most commands are done, and some are refused, for each reason that
a script can give.
"""
from machine import is_held, is_skipped, is_unsealed

LINES = 60
LONG = range(60, 200)           # how many appends the batch has that is longer than a blob
MANY = range(60, 150)           # how many small batches are applied one after another
VALUES = [".", "61", "6263", "00" * 9, "aBcD"]
# How often each line comes.
WEIGHTS = {"new": 5, "append": 10, "seal": 6, "apply": 6, "hold": 1, "release": 2, "snapshot": 1, "size": 1, "metadata": 1, "get": 2,
           "get-many": 2, "batch-get": 2, "batch-get-many": 2, "proof": 4, "commit-proof": 3, "commit": 1, "sync": 1, "start-sync": 1,
           "prune": 3}


class Script:
    """Runs over a machine, one after another."""

    def __init__(self, chance, machine):
        self.chance, self.machine = chance, machine

    def number(self, numbers):
        """One of these numbers, mostly of the last, and now and then one beside them."""
        chosen = [n for n in numbers if self.chance.random() < 0.5] or list(numbers)
        if not chosen or self.chance.random() < 0.05:
            return self.chance.randrange(len(self.machine.batches) + 2)
        return chosen[-1]

    def batches(self, test):
        return [b for b, batch in enumerate(self.machine.batches) if test(batch)]

    def value(self, *more):
        return self.chance.choice(VALUES + list(more))

    def floor(self, b):
        """A floor for a seal: that which the batch is built on, its commit's place, one between them, or one past them."""
        if b >= len(self.machine.batches):
            return 0
        batch = self.machine.batches[b]
        low, high = self.machine.floor_under(batch), batch.base + len(batch.pending)
        return self.chance.choice([low, low, high, self.chance.randint(min(low, high), max(low, high)), max(low - 1, 0), high + 1])

    def place(self, *numbers):
        """One of these numbers, or one up to the last of them, and now and then one beside them."""
        near = self.chance.choice(numbers) + self.chance.choice([0, 0, 0, 0, -1, 1])
        return max(self.chance.choice([near, near, self.chance.randint(0, numbers[-1])]), 0)

    def location(self):
        machine = self.machine
        return self.place(machine.start, machine.floor(), len(machine.whole) - 1)

    def locations(self, one):
        """Several locations, mostly rising."""
        found = [one() for _ in range(self.chance.randint(0, 4))]
        return found if self.chance.random() < 0.2 else sorted(set(found))

    def in_batch(self, b):
        """A location of a batch."""
        if b >= len(self.machine.batches):
            return 0
        batch = self.machine.batches[b]
        floor = self.machine.floor_under(batch) if is_unsealed(batch) else batch.floor
        return self.place(floor, batch.base, len(batch.whole) + len(batch.pending) - 1)

    def size(self):
        """A size of a proof: mostly one of the last that were applied, or that of the oldest witness that is kept."""
        machine = self.machine
        return self.chance.choice(machine.sizes[-4:] + machine.sizes[machine.wstart:][:1] + [self.place(*machine.sizes)])

    def proof(self):
        size = self.size()
        start = self.place(self.machine.start, max(size - 3, 0), max(size - 1, 0))
        return f"proof {size} {start} {self.chance.choice([1, 1, 2, 5, 2**64 - 1])}"

    def reading(self, name, b):
        """A line of this name that reads, proves or prunes."""
        if name == "get":
            return f"get {self.location()}"
        if name == "get-many":
            return " ".join(["get-many", *map(str, self.locations(self.location))])
        if name == "batch-get":
            return f"batch-get {b} {self.in_batch(b)}"
        if name == "batch-get-many":
            return " ".join(["batch-get-many", str(b), *map(str, self.locations(lambda: self.in_batch(b)))])
        if name == "proof":
            return self.proof()
        if name == "commit-proof":
            return f"commit-proof {self.size()}"
        return f"prune {self.place(0, self.machine.floor(), self.machine.floor())}"

    def line(self):
        name = self.chance.choices(list(WEIGHTS), WEIGHTS.values())[0]
        unsealed, held = self.batches(is_unsealed), self.batches(is_held)
        asked = {"append": unsealed, "seal": unsealed, "apply": held, "hold": held, "release": held + unsealed}
        if asked.get(name) == [] and self.chance.random() < 0.95:
            name = "new"
        if name == "new":
            return f"new {self.number(held)}" if held and self.chance.random() < 0.6 else "new"
        if name == "append":
            return f"append {self.number(unsealed)} {self.value()}"
        if name == "seal":
            b = self.number(unsealed)
            return f"seal {b} {self.value('-', '-', '-')} {self.floor(b)}"
        if name in ("get", "get-many", "batch-get", "batch-get-many", "proof", "commit-proof", "prune"):
            return self.reading(name, self.number(sorted(held + unsealed)))
        return f"{name} {self.number(asked[name])}" if name in asked else name

    def applied(self, b, appends, floor):
        """The lines that apply a batch of this number."""
        return ["new", *[f"append {b} {self.value()}" for _ in range(appends)], f"seal {b} - {floor}", f"apply {b}"]

    def first_lines(self):
        """The lines with which a run begins: of a long batch, of many small ones, or none."""
        begun = self.chance.random()
        size, floor = len(self.machine.whole), self.machine.floor()
        if begun < 0.3:
            count = self.chance.choice(LONG)
            return self.applied(0, count, self.chance.randint(floor, size + count))
        if begun < 0.34:
            return [line for b in range(self.chance.choice(MANY)) for line in self.applied(b, 0, size + b)]
        return []

    def run(self, most=LINES):
        """The lines of a run, of which the first may be more than so many, and the replies to it, behind those of the opening."""
        lines, out = [], []
        first = self.first_lines()
        for at in range(len(first) + self.chance.randint(1, most)):
            lines.append(first[at] if at < len(first) else self.chance.choices(["", "# nothing", self.line()], [1, 1, most])[0])
            if not is_skipped(lines[-1]):
                out.append(self.machine.answer(lines[-1]))
        return lines, out


def reason(reply):
    words = reply.split(" ")
    return " ".join(words[:2]) if words[0] == "refused" else words[0]

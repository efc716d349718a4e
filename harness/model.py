#!/usr/bin/env python3
"""A model of the index and the script program on plain dictionaries and lists, written from docs/RULES.md and apart from the Rattle code.
How many nodes a find looks at is the one thing that they do not tell: a plain red-black tree stands beside them for it.

    model.py draw                            writes the longest call script, drawn from a fixed seed
    model.py answer [SLOTS LINES] <script    writes the answers that the rules give to a script, byte for byte
    model.py count [SLOTS LINES] <script     writes how often each answer comes, and how often tree and journal become full
    model.py calls                           writes the drill's list of calls, with replaces among them, drawn from a fixed seed
    model.py words SLOTS LINES <calls        writes the word that the rules give to each call of such a list
    model.py tell SLOTS LINES <calls         writes how often each call is answered by each number

SLOTS and LINES are the capacities of tree and journal: 512 and 512 where they are not given, as in the script program.
The drill has 512 and 1024, so that a line is left for a remove from a full tree; its list of calls has 64 and 128. A call of that list
is four numbers: kind, hash, key, place. Kind 1 is an insert, 2 a remove, 3 a replace, 4 a rollback to the mark that is the place. A word is
value + 2 ** 32 * number.
"""
import sys

# The capacities of the drill, and those of its list of calls.
SLOTS, LINES = 512, 1024
CALL_SLOTS, CALL_LINES = 64, 128


class Refused(Exception):
    """A refusal, by its number, and the slot that comes with it, if any."""


class Node:
    """A node of the tree, red while it is new, with its children left and right."""

    def __init__(self, pair):
        self.pair, self.red, self.parent, self.kids = pair, True, None, [None, None]


def red(node):
    return node is not None and node.red


def side_of(node):
    """The side of its parent that a node hangs on: 0 is left, 1 is right; 0 at the root."""
    return int(node.parent is not None and node.parent.kids[1] is node)


class Tree:
    """The pairs in a red-black tree, balanced as the source does it; used for the nodes that a find looks at, and for nothing else."""

    def __init__(self):
        self.root = None

    def hang(self, node, parent, side):
        if parent is None:
            self.root = node
        else:
            parent.kids[side] = node
        if node is not None:
            node.parent = parent

    def rotate(self, p, side):
        """p goes down on this side, and its child on the other comes up."""
        up = p.kids[1 - side]
        self.hang(up, p.parent, side_of(p))
        self.hang(up.kids[side], p, 1 - side)
        self.hang(p, up, side)

    def insert(self, pair):
        parent, side, below = None, 0, self.root
        while below is not None:
            parent, side = below, int(below.pair < pair)
            below = parent.kids[side]
        x = Node(pair)
        self.hang(x, parent, side)
        self.balance_insertion(x)

    def balance_insertion(self, x):
        while red(x.parent):
            p, above = x.parent, x.parent.parent
            side = side_of(p)
            uncle = above.kids[1 - side]
            if red(uncle):
                p.red, uncle.red, above.red = False, False, True
                x = above
                continue
            if side_of(x) != side:
                self.rotate(p, side)
                x, p = p, x
            p.red, above.red = False, True
            self.rotate(above, 1 - side)
        self.root.red = False

    def remove(self, pair):
        x = self.search(pair)[-1]
        if None not in x.kids:
            # The successor's pair comes here, and the successor's node goes: positions and colours are traded.
            successor = x.kids[1]
            while successor.kids[0] is not None:
                successor = successor.kids[0]
            x.pair = successor.pair
            x = successor
        child = x.kids[0] or x.kids[1]
        if child is not None:
            self.hang(child, x.parent, side_of(x))
        if not x.red:
            self.balance_deletion(child or x)
        if child is None:
            self.hang(None, x.parent, side_of(x))

    def balance_deletion(self, x):
        while x is not self.root and not x.red:
            p, side = x.parent, side_of(x)
            sibling = p.kids[1 - side]
            if sibling.red:
                sibling.red, p.red = False, True
                self.rotate(p, side)
                sibling = p.kids[1 - side]
            near, far = sibling.kids[side], sibling.kids[1 - side]
            if not red(near) and not red(far):
                sibling.red = True
                x = p
                continue
            if not red(far):
                near.red, sibling.red = False, True
                self.rotate(sibling, 1 - side)
                sibling, far = near, sibling
            sibling.red, p.red, far.red = p.red, False, False
            self.rotate(p, side)
            x = self.root
        x.red = False

    def search(self, pair):
        """The nodes whose hash find_tree_node reads, in order: on an equal hash it goes where there is a child, before it compares keys."""
        looks, p = [], self.root
        while p is not None:
            looks.append(p)
            left, right = p.kids
            if p.pair == pair:
                break
            if p.pair[0] == pair[0] and None in p.kids:
                p = left or right
            else:
                p = left if p.pair > pair else right
        return looks


class Index:
    """What the index holds, and the tree beside it."""

    def __init__(self, slots, lines):
        self.slots, self.lines = slots, lines
        self.tree = Tree()
        self.held = {}  # (hash, key) -> [slot, place]
        self.chain = []  # pairs, the first one first
        # Lines (kind, pair, place, before): kind 1 is an insert, 2 a remove, 3 a replace, with the place that it had; before is the pair
        # that stood just before a removed one in the chain, None where none did.
        self.journal = []

    def lowest_free(self):
        taken = {slot for slot, _ in self.held.values()}
        return next(slot for slot in range(self.slots + 1) if slot not in taken)

    def add(self, pair, place, before=None):
        """The pair goes into the lowest free slot, and into the chain right behind another one, or at the front."""
        slot = self.lowest_free()
        self.held[pair] = [slot, place]
        self.chain.insert(0 if before is None else self.chain.index(before) + 1, pair)
        self.tree.insert(pair)
        return slot

    def take(self, pair):
        slot, _ = self.held.pop(pair)
        self.chain.remove(pair)
        self.tree.remove(pair)
        return slot

    def insert(self, pair, place):
        if pair in self.held:
            raise Refused(3, self.held[pair][0])
        if len(self.held) == self.slots:
            raise Refused(5)
        if len(self.journal) == self.lines:
            raise Refused(6)
        self.journal.append((1, pair, place, None))
        return self.add(pair, place)

    def remove(self, pair):
        if pair not in self.held:
            raise Refused(4)
        if len(self.journal) == self.lines:
            raise Refused(6)
        at = self.chain.index(pair)
        self.journal.append((2, pair, self.held[pair][1], self.chain[at - 1] if at else None))
        return self.take(pair)

    def replace(self, pair, place):
        if pair not in self.held:
            raise Refused(4)
        if len(self.journal) == self.lines:
            raise Refused(6)
        slot, old = self.held[pair]
        self.journal.append((3, pair, old, None))
        self.held[pair][1] = place
        return slot

    def rollback(self, mark):
        if mark > len(self.journal):
            raise Refused(7)
        count = len(self.journal) - mark
        for _ in range(count):
            kind, pair, place, before = self.journal.pop()
            if kind == 1:
                self.take(pair)
            elif kind == 2:
                self.add(pair, place, before)
            else:
                self.held[pair][1] = place
        return count


def number(word, bits):
    """The number that a word is: decimal digits with no leading zero, below 2 to the bits. None where it is none."""
    if not word or any(b not in b"0123456789" for b in word):
        return None
    if word[0] == ord("0") and len(word) > 1:
        return None
    value = int(word)
    return value if value < 1 << bits else None


# The widths of a call's numbers.
FORMS = {b"+": (64, 64, 32), b"-": (64, 64), b"?": (64, 64), b"r": (32,), b"m": (), b"l": ()}


def call(line):
    """A line's command and its numbers; None where the line is of another form."""
    if len(line) > 80:
        return None
    command, *words = line.split(b" ")
    if command not in FORMS or len(words) != len(FORMS[command]):
        return None
    numbers = [number(word, bits) for word, bits in zip(words, FORMS[command])]
    if None in numbers:
        return None
    return command, numbers


def answer(index, line):
    """The lines that answer one line of a script."""
    said = call(line)
    if said is None:
        return ["bad"]
    command, numbers = said
    try:
        if command == b"+":
            return ["slot %d" % index.insert((numbers[0], numbers[1]), numbers[2])]
        if command == b"-":
            return ["gone %d" % index.remove((numbers[0], numbers[1]))]
        if command == b"r":
            return ["back %d" % index.rollback(numbers[0])]
    except Refused as refused:
        return ["no %d" % refused.args[0]]
    if command == b"?":
        pair = (numbers[0], numbers[1])
        looks = len(index.tree.search(pair))
        return ["at %d %d" % (index.held[pair][0], looks) if pair in index.held else "none %d" % looks]
    if command == b"m":
        return ["mark %d" % len(index.journal)]
    rows = ["%d %d %d" % (*pair, index.held[pair][1]) for pair in index.chain]
    return ["entries %d" % len(rows)] + rows


def script_lines(text):
    """The lines of a script; an unended last line counts."""
    lines = text.split(b"\n")
    return lines[:-1] if lines[-1] == b"" else lines


class Dice:
    """Numbers that look random and are the same with every version of Python: Knuth's 64-bit congruential generator."""

    def __init__(self, seed):
        self.state = seed

    def below(self, n):
        self.state = (self.state * 6364136223846793005 + 1442695040888963407) % (1 << 64)
        return (self.state >> 33) % n

    def one_of(self, row):
        return row[self.below(len(row))]


class Drawing:
    """A script that is drawn call by call, with the index that it runs on at hand."""

    def __init__(self, seed):
        self.dice = Dice(seed)
        self.index = Index(SLOTS, LINES)
        self.script = []
        # Pairs of few hashes and many keys, so that much of the order is by key; some numbers take all 64 bits.
        hashes = list(range(24)) + [1 << 32, (1 << 63) + 5, (1 << 64) - 1]
        self.pairs = [(h, self.dice.below(1 << 62) * 4 + k if k % 9 == 0 else k) for h in hashes for k in range(28)]

    def say(self, line):
        self.script.append(line)
        answer(self.index, line.encode())

    def place(self):
        return (self.dice.below(1 << 31) * 2 + 1) if self.dice.below(40) else self.dice.one_of([0, (1 << 32) - 1])

    def absent(self):
        return self.dice.one_of([pair for pair in self.pairs if pair not in self.index.held])

    def present(self):
        return self.dice.one_of(self.index.chain)

    def add(self, pair):
        self.say("+ %d %d %d" % (*pair, self.place()))

    def remove(self, pair):
        self.say("- %d %d" % pair)

    def back(self, mark):
        self.say("r %d" % mark)

    def ask(self):
        """One call that leaves all as it is: a question, or a call that is refused."""
        which = self.dice.below(6)
        if which == 0 and self.index.chain:
            self.say("? %d %d" % self.present())
        elif which == 1:
            self.say("? %d %d" % self.absent())
        elif which == 2 and self.index.chain:
            self.add(self.present())
        elif which == 3:
            self.remove(self.absent())
        elif which == 4:
            self.back(len(self.index.journal) + 1 + self.dice.below(3) * self.dice.below(1 << 30))
        else:
            self.say("m")

    def full(self):
        return len(self.index.held) == SLOTS

    def journal_full(self):
        return len(self.index.journal) == LINES

    def grow(self, entries, wavering):
        """Inserts until the tree has so many entries or the journal is full; one call in some is a remove, an ask or a short way back."""
        while len(self.index.held) < entries and not self.journal_full():
            which = self.dice.below(wavering)
            if which == 0 and self.index.chain:
                self.remove(self.present())
            elif which == 1:
                self.ask()
            elif which == 2 and self.index.journal:
                self.back(len(self.index.journal) - self.dice.below(min(4, len(self.index.journal) + 1)))
            else:
                self.add(self.absent())

    def churn(self, lines):
        """Around a full tree until the journal has so many lines: refused inserts, removes from the full tree, and full again."""
        while len(self.index.journal) < lines:
            if self.full() and self.dice.below(4) == 0:
                self.add(self.absent())
            if self.full():
                for _ in range(1 + self.dice.below(6)):
                    self.remove(self.present())
            elif self.dice.below(12) == 0:
                self.ask()
            else:
                self.add(self.absent())

    def refusals(self):
        """What a full journal refuses, and what it does not."""
        self.add(self.absent())
        self.remove(self.present())
        self.remove(self.absent())
        self.add(self.present())
        self.back(LINES + 1)
        self.back((1 << 32) - 1)
        self.back(LINES)
        self.say("m")

    def draw(self):
        self.grow(40, 12)
        self.say("l")
        for mark in (len(self.index.journal), 31, 30, 30, 12, 1):
            self.back(mark)
        self.say("l")
        self.back(0)
        self.ask()
        self.grow(SLOTS, 60)
        self.add(self.absent())
        self.say("l")
        self.churn(LINES)
        self.refusals()
        for undone in (1, 7, 40, 90):
            self.back(len(self.index.journal) - undone)
            self.say("m")
            self.grow(SLOTS, 40)
            self.churn(LINES)
            self.refusals()
        self.say("l")
        for mark in (1000, 901, 900, 777, 600):
            self.back(mark)
            self.ask()
        self.grow(SLOTS, 30)
        self.add(self.absent())
        self.remove(self.present())
        self.back(520)
        self.grow(SLOTS, 30)
        self.churn(700)
        for mark in (650, 512, 511, 400, 260):
            self.back(mark)
            self.remove(self.present())
            self.add(self.absent())
            self.ask()
        self.say("l")
        self.back(230)
        self.grow(SLOTS, 80)
        self.add(self.absent())
        self.remove(self.present())
        self.add(self.absent())
        self.add(self.absent())
        self.churn(len(self.index.journal) + 20)
        self.back(64)
        self.back(65)
        self.say("l")
        self.back(0)
        self.say("l")
        self.grow(60, 12)
        self.say("l")
        return self.script


def made(index, call):
    """The word that answers a call of four numbers."""
    kind, hash, key, place = call
    try:
        if kind == 1:
            return index.insert((hash, key), place)
        if kind == 2:
            return index.remove((hash, key))
        if kind == 3:
            return index.replace((hash, key), place)
        return index.rollback(place)
    except Refused as refused:
        number, *slot = refused.args
        return (slot or [0])[0] + (number << 32)


class Calls:
    """A list of calls that is drawn call by call, with the index that it runs on at hand."""

    def __init__(self, seed, count):
        self.dice, self.count = Dice(seed), count
        self.index = Index(CALL_SLOTS, CALL_LINES)
        self.calls = []
        hashes = [0, 1, 2, 3, 1 << 40, (1 << 64) - 1]
        self.pairs = [(h, (1 << 64) - 1 - k if k % 5 == 0 else k) for h in hashes for k in range(14)]

    def say(self, kind, pair, place):
        self.calls.append((kind, *pair, place))
        made(self.index, self.calls[-1])

    def place(self):
        return self.dice.below(1 << 31) * 2 + 1 if self.dice.below(20) else self.dice.one_of([0, (1 << 32) - 1])

    def present(self):
        return self.dice.one_of(self.index.chain or self.pairs)

    def absent(self):
        return self.dice.one_of([pair for pair in self.pairs if pair not in self.index.held])

    def replace(self):
        """A replace, mostly of a pair that is there; now and then by the place that it has."""
        which = self.dice.below(12)
        pair = self.absent() if which == 0 else self.present()
        same = which == 1 and pair in self.index.held
        self.say(3, pair, self.index.held[pair][1] if same else self.place())

    def back(self, most):
        length = len(self.index.journal)
        self.say(4, (0, 0), length - self.dice.below(min(most, length) + 1))

    def any(self, inserts):
        """One call: so many in ten are inserts, mostly of pairs that are not there."""
        which = self.dice.below(10)
        if which < inserts:
            self.say(1, self.absent() if self.dice.below(8) else self.present(), self.place())
        elif which == inserts:
            self.say(2, self.present() if self.dice.below(8) else self.absent(), 0)
        elif which == inserts + 1 and self.dice.below(6) == 0:
            self.back(9)
        else:
            self.replace()

    def draw(self):
        """Up to a full tree, on to a full journal, some calls that it refuses, and back by more or less, again and again."""
        while len(self.calls) < self.count:
            while len(self.index.held) < CALL_SLOTS and len(self.index.journal) < CALL_LINES:
                self.any(6)
            while len(self.index.journal) < CALL_LINES:
                self.any(2)
            for _ in range(6):
                self.any(3)
            self.say(4, (0, 0), CALL_LINES + 1 + self.dice.below(1 << 20))
            self.back(self.dice.one_of([3, 20, 70, CALL_LINES]))
        return self.calls[: self.count]


def numbers(text):
    """The calls of a list, four numbers to a line."""
    return [tuple(int(word) for word in line.split()) for line in text.decode().splitlines()]


def tells(calls, slots, lines):
    """How often each kind of call is answered by each number, and how often tree and journal become full."""
    index, tally = Index(slots, lines), {}
    for call in calls:
        full, ended = len(index.held) == slots, len(index.journal) == lines
        same = call[0] == 3 and index.held.get(call[1:3], [0, None])[1] == call[3]
        rows = ["kind %d answered %d" % (call[0], made(index, call) >> 32)]
        rows += ["tree becomes full"] * (not full and len(index.held) == slots)
        rows += ["journal becomes full"] * (not ended and len(index.journal) == lines)
        rows += ["replaces by the place that is there"] * same
        for row in rows:
            tally[row] = tally.get(row, 0) + 1
    return ["calls %d" % len(calls)] + ["%s %d" % row for row in sorted(tally.items())]


def counts(script, slots, lines):
    index, tally, full, out_of_lines = Index(slots, lines), {}, 0, 0
    for line in script_lines(script):
        entries, length = len(index.held), len(index.journal)
        said = answer(index, line)[0]
        words = said.split()
        kind = said if words[0] == "no" else words[0]
        tally[kind] = tally.get(kind, 0) + 1
        if entries == slots and kind == "gone":
            tally["gone from the full tree"] = tally.get("gone from the full tree", 0) + 1
        full += len(index.held) == slots != entries
        out_of_lines += len(index.journal) == lines != length
    rows = sorted(tally.items()) + [("tree becomes full", full), ("journal becomes full", out_of_lines)]
    return ["calls %d" % len(script_lines(script))] + ["%s %d" % row for row in rows]


def main():
    words = sys.argv[1:]
    sizes = [int(word) for word in words[1:]] or [512, 512]
    if words[:1] == ["draw"] and len(words) == 1:
        out = Drawing(20240521).draw()
    elif words[:1] == ["answer"] and len(sizes) == 2:
        index = Index(*sizes)
        out = [said for line in script_lines(sys.stdin.buffer.read()) for said in answer(index, line)]
    elif words[:1] == ["count"] and len(sizes) == 2:
        out = counts(sys.stdin.buffer.read(), *sizes)
    elif words == ["calls"]:
        out = ["%d %d %d %d" % call for call in Calls(20240522, 1000).draw()]
    elif words[:1] == ["words"] and len(sizes) == 2:
        index = Index(*sizes)
        out = ["%d" % made(index, call) for call in numbers(sys.stdin.buffer.read())]
    elif words[:1] == ["tell"] and len(sizes) == 2:
        out = tells(numbers(sys.stdin.buffer.read()), *sizes)
    else:
        sys.exit(__doc__)
    sys.stdout.write("".join(line + "\n" for line in out))


if __name__ == "__main__":
    main()

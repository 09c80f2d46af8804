#!/usr/bin/env python3
"""A second program for the book by names, its cases, and what they must give.

Writes crates/book_cases/stdin, scripts for `replay`, and crates/program_cases/stdin, inputs of the program; and
beside each a file stdout with what must be written for them. A case is a line `case LENGTH`, as many bytes, and
byte 10; what it must give stands after a line `case NUMBER`, counted from 1. Nothing here is taken from the proved
code: texts are read by grammar.py, and descent is a whole table, off which hierarchy.py reads order, chains and
kept links by their rules.

    python3 reference/book.py            write the four files
    python3 reference/book.py --check    say whether they are as this program would write them
"""

import os
import random
import sys
from collections import namedtuple

import common
import grammar
import hierarchy

MOST_TYPES, MOST_LINKS, MOST_BYTES, MOST_TRIALS = 1024, 8192, 65536, 4294967295
MOST_INPUT = MOST_OUTPUT = 8192
MOST_NUMBER = 4294967295

Sizes = namedtuple("Sizes", "types links pool order chain position kept index")


def sizes(types, links, pool, index):
    return Sizes(types, links, pool, types, types, types, links, index)


PROGRAM_SIZES = sizes(128, 512, 8192, 16384)
REPLAY_SIZES = sizes(1024, 8192, 65536, 1048576)


# ---- the book

class Refused(Exception):
    """A refusal: its number, the text, line and column that it points to, and the one number that it returns besides."""

    def __init__(self, number, place=(0, 0, 0), value=None):
        super().__init__(number, place, value)
        self.number, self.place, self.value = number, place, value


class Book:
    """A book by names. Types and links have their numbers, counted from 0 as they were entered."""

    def __init__(self, number, sizes):
        self.number, self.sizes = number, sizes
        self.types, self.links = {}, {}
        self.trials, self.trial, self.before = 0, None, None
        self.unsettle()

    def unsettle(self):
        self.settled, self.reach, self.kept = False, None, None

    # -- loading

    def load(self, shipped, own):
        refusal = grammar.check_texts(shipped, own)
        if refusal:
            raise Refused(refusal[0], refusal[1:])
        types, links = dict(self.types), dict(self.links)
        for place, name, base_of in stated_names(shipped, own):
            self.enter_name(types, name, place)
            if base_of is not None:
                self.enter_link(links, (types[base_of], types[name]), place)
        self.types, self.links = types, links
        self.unsettle()

    def enter_name(self, types, name, place):
        if name in types:
            return
        if len(types) >= min(self.sizes.types, MOST_TYPES):
            raise Refused(6, place)
        if sum(map(len, types)) + len(name) > min(self.sizes.pool, MOST_BYTES):
            raise Refused(7, place)
        types[name] = len(types)

    def enter_link(self, links, link, place):
        if link in links:
            return
        if len(links) >= min(self.sizes.links, MOST_LINKS):
            raise Refused(8, place)
        links[link] = len(links)

    # -- trials

    def open(self):
        if self.trial is not None or self.trials >= MOST_TRIALS:
            raise Refused(14)
        self.trials += 1
        self.trial, self.before = (self.number, self.trials), (len(self.types), len(self.links))
        return self.trial

    def end(self, ticket):
        """Ends the open trial, and answers how many types and links there were before it."""
        if ticket != self.trial:
            raise Refused(15)
        before = self.before
        self.trial, self.before = None, None
        return before

    def keep(self, ticket):
        self.end(ticket)

    def withdraw(self, ticket):
        types, links = self.end(ticket)
        self.types = {name: number for name, number in self.types.items() if number < types}
        self.links = {link: number for link, number in self.links.items() if number < links}
        self.unsettle()

    # -- settling and asking

    def settle(self, joining):
        """Settles with a loop table and working memory that are long enough; answers types, links, chains, kept links."""
        types, links = len(self.types), list(self.links)
        if min(self.sizes.order, self.sizes.chain, self.sizes.position) < types or self.sizes.kept < len(links):
            raise Refused(9)
        self.unsettle()
        reach = hierarchy.paths(types, links)
        if any(reach[t] >> t & 1 for t in range(types)):
            raise Refused(10, value=hierarchy.loop_length(types, links, reach))
        chains = hierarchy.chain_order(hierarchy.order_of(types, links), links)
        if joining:
            chains = hierarchy.joined(chains, reach)
        if self.sizes.index < types * len(chains):
            raise Refused(11, value=types * len(chains))
        self.kept = [link for link, kept in zip(links, hierarchy.kept_of(links, reach)) if kept]
        self.settled, self.reach = True, reach
        return types, len(links), len(chains), len(self.kept)

    def ask(self, first, second):
        if not self.settled:
            raise Refused(12)
        for which, name in ((1, first), (2, second)):
            if name not in self.types:
                raise Refused(13, value=which)
        a, b = self.types[first], self.types[second]
        return a == b or self.reach[a] >> b & 1 == 1

    def printed(self):
        """A settled book: its names, then each type with its kept bases."""
        names = list(self.types)
        lines = list(names)
        for a, name in enumerate(names):
            bases = sorted(b for start, b in self.kept if start == a)
            if bases:
                lines.append(name + b" < " + b", ".join(names[b] for b in bases))
        return b"".join(line + b"\n" for line in lines)


def stated_names(shipped, own):
    """The names of two lawful texts in turn: the place, the name, and of a base the name that it is a base of."""
    for text, data in ((1, shipped), (2, own)):
        for line, content in enumerate(data.split(b"\n"), 1):
            names = grammar.names_of(content)
            for at, (column, name) in enumerate(names):
                yield (text, line, column), name, names[0][1] if at else None


# ---- the program

def program(data):
    """What the program writes for an input."""
    book = Book(0, PROGRAM_SIZES)
    try:
        if len(data) > MOST_INPUT:
            raise Refused(1)
        book.load(b"", data)
        book.settle(joining=True)
        if len(book.printed()) > MOST_OUTPUT:
            raise Refused(18)
        return book.printed()
    except Refused as refusal:
        return b"refused %d %d %d %d\n" % (refusal.number, *refusal.place)


# ---- replay: a script of calls

class Free(Exception):
    """The rules leave free what is written: there are loops of different lengths."""


class Replay:
    def __init__(self):
        self.book, self.ticket, self.at = Book(0, REPLAY_SIZES), None, 0
        self.clear()

    def clear(self):
        self.texts = {b"shipped": [], b"own": []}

    def line(self, line):
        """What is written for the next line of the script."""
        self.at += 1
        word, _, rest = line.partition(b" ")
        if line == b"":
            return b""
        if word == b"tables":
            return self.tables(rest)
        if word in self.texts:
            self.texts[word].append(rest)
            return b""
        call = self.call(line, word, rest)
        if call is None:
            return b"unknown: %s\n" % word
        return b"%s: %s\n" % (word, answer(call))

    def call(self, line, word, rest):
        """The call of a line, or None where the line is none."""
        alone = {b"load": self.load, b"open": self.open, b"keep": self.keep, b"withdraw": self.withdraw,
                 b"settle": lambda: self.settle(True), b"settle chains": lambda: self.settle(False)}
        if line in alone:
            return alone[line]
        names = rest.split(b" ")
        if word == b"ask" and len(names) == 2 and b"" not in names:
            return lambda: self.ask(*names)
        return None

    def tables(self, rest):
        numbers = rest.split(b" ")
        fits = len(numbers) == 4 and all(number.isdigit() and int(number) <= MOST_NUMBER for number in numbers)
        if self.at > 1 or not fits:
            return b"tables: refused\n"
        self.book = Book(0, sizes(*map(int, numbers)))
        return b""

    def load(self):
        shipped, own = b"\n".join(self.texts[b"shipped"]), b"\n".join(self.texts[b"own"])
        self.clear()
        self.book.load(shipped, own)
        return b"accepted"

    def open(self):
        self.ticket = self.book.open()
        return b"ticket %d %d" % self.ticket

    def keep(self):
        return self.spend(self.book.keep)

    def withdraw(self):
        return self.spend(self.book.withdraw)

    def spend(self, call):
        if self.ticket is None:
            return b"no ticket"
        call(self.ticket)
        self.ticket = None
        return b"accepted"

    def settle(self, joining):
        return b"%d %d %d %d" % self.book.settle(joining)

    def ask(self, first, second):
        return b"yes" if self.book.ask(first, second) else b"no"


def answer(call):
    try:
        return call()
    except Refused as refusal:
        if refusal.number <= 8:
            return b"refused %d %d %d %d" % (refusal.number, *refusal.place)
        if refusal.number == 10 and refusal.value is None:
            raise Free()
        return b"refused %d" % refusal.number + (b"" if refusal.value is None else b" %d" % refusal.value)


def replay(script):
    """What `replay` writes for a script."""
    run = Replay()
    return b"".join(run.line(line) for line in script.split(b"\n"))


# ---- names, lines and damage

ANIMALS = [b"Cat < Pet, Animal", b"Pet < Animal", b"Dog < Animal"]
MEETING = [b"X < M", b"Y < M", b"M < P, Q"]
VOCABULARY = [b"A", b"B", b"C", b"D", b"E", b"F", b"a", b"_", b"_9", b"AB", b"Cat", b"Pet", b"Animal", b"Dog",
              b"List[A]", b"List[B]", b"Map[A,B]", b"Map[A,List[B]]", b"f[g[h]]"]
SIGNS = b"[],< #_aZ9-~\n "


def deep(brackets):
    return b"a[" * brackets + b"b" + b"]" * brackets


def random_name(dice, depth=0):
    word = bytes([dice.choice(b"ABCxyz_")]) + bytes(dice.choice(b"abXY_07") for _ in range(dice.choice([0, 0, 1, 2, 5])))
    if depth == 0 and dice.random() < 0.02:
        return word + b"n" * (dice.randint(62, 64) - len(word))
    if depth == 3 or dice.random() < 0.8:
        return word
    return word + b"[" + b",".join(random_name(dice, depth + 1) for _ in range(dice.randint(1, 2))) + b"]"


def random_line(dice, names, loops):
    """A lawful line. Bases come after their type in the list of names; where there may be loops, a few do not."""
    kind = dice.random()
    if kind < 0.06:
        return b""
    if kind < 0.12:
        return b"#" + bytes(dice.randint(32, 126) for _ in range(dice.randrange(10)))
    at = dice.randrange(len(names))
    above = names[at + 1:]
    if loops and dice.random() < 0.2:
        above = names
    bases = dice.sample(above, min(len(above), dice.choice([1, 1, 1, 2, 2, 3])))
    if kind < 0.25 or not bases:
        return names[at]
    return names[at] + b" < " + b", ".join(bases)


def damaged(dice, data):
    """Data after one to three edits: a byte put in, taken out or changed, a part copied, or the rest cut off."""
    for _ in range(dice.randint(1, 3)):
        at = dice.randint(0, len(data))
        byte = bytes([dice.choice(SIGNS) if dice.random() < 0.75 else dice.randrange(256)])
        kind = dice.randrange(9)
        if kind < 3:
            data = data[:at] + byte + data[at:]
        elif kind < 5:
            data = data[:at] + data[at + 1:]
        elif kind < 7:
            data = data[:at] + byte + data[at + 1:]
        elif kind == 7:
            data = data[:at] + data[max(0, at - dice.randint(1, 8)):]
        elif dice.random() < 0.3:
            data = data[:at]
    return data


# ---- scripts

def script(lines):
    return b"".join(line + b"\n" for line in lines)


def calls(steps):
    """A script whose lines are parted by `; `."""
    return script(steps.split(b"; "))


def own(lines):
    return b"; ".join(b"own " + line for line in lines)


# the script of docs/replay.md
MANUAL = calls(
    b"tables 5 5 19 12; shipped Pet < Animal; own Cat < Pet, Animal; own Dog < Animal; load; settle; ask Cat Animal; "
    b"open; own # Wolves; own Wolf < Dog,Animal; load; ask Cat Animal; own Wolf < Dog; own Pet < Dog; load; "
    b"own Wolf < Dog; load; settle; ask Wolf Animal; withdraw; settle; ask Wolf Animal; keep; show"
)


def worked_scripts():
    yield calls(own(ANIMALS) + b"; load; settle; ask Cat Animal; ask Dog Pet")
    yield calls(own(MEETING) + b"; load; settle chains; settle; ask Y Q; ask Q Y")
    yield calls(b"own A < A; load; settle; ask A A")
    yield calls(b"own A < B; load; open; own A < B; own B < C; load; withdraw; settle; ask A B; ask A C")
    yield calls(b"load; settle; settle chains; ask A A")
    yield MANUAL


def limit_scripts():
    """Tables that are one entry short, exact, one longer and empty."""
    for lines, names, exact in ((ANIMALS, b"Cat Dog", (4, 4, 15, 8)), (MEETING, b"Y Q", (5, 4, 5, 10))):
        for place in range(4):
            for length in (exact[place] - 1, exact[place], exact[place] + 1, 0):
                numbers = exact[:place] + (length,) + exact[place + 1:]
                steps = b"; load; settle; ask %s; settle chains; ask %s; open" % (names, names)
                yield calls(b"tables %d %d %d %d; " % numbers + own(lines) + steps)
    for index in (9, 10, 14, 15):
        steps = b"; load; settle chains; ask X Q; settle; ask X Q; settle chains; ask X Q"
        yield calls(b"tables 5 4 5 %d; " % index + own(MEETING) + steps)
    for first, second in ((b"A < B", b"A < B, C"), (b"A < B", b"C"), (b"A < B", b"B < A"), (b"A < B", b"A < B"), (b"AB < B", b"B"),
                          (b"A", b"A < B")):
        for numbers in (b"2 1 2 4", b"3 1 3 4", b"2 2 2 4", b"2 1 3 1", b"1 1 1 1"):
            values = (numbers, first, second, second)
            yield calls(b"tables %s; shipped %s; own %s; load; settle; ask A B; own %s; load; ask A B" % values)
    for name in (b"a" * 64, b"a" * 65, deep(8), deep(9)):
        for pool in (len(name) - 1, len(name), len(name) + 1):
            values = (pool, name, name, name, name)
            yield calls(b"tables 2 1 %d 4; own %s; load; own A < %s; load; settle; ask %s A; ask A %s" % values)


def trial_scripts():
    """Trials kept and withdrawn, opened twice and ended twice, with refused loads in them, in tables with and without room."""
    inside = [b"", b"own A < B; load", b"own A < B, C; load", b"own C < A; load; own D < A; load", b"own C <; load",
              b"own A < B; own A]; load; shipped C; load"]
    for steps in inside:
        for end in (b"keep", b"withdraw"):
            for numbers in (b"2 1 2 4", b"4 3 4 16"):
                before = b"tables %s; own A < B; load; settle; open; open; " % numbers
                after = b"; ask A B; %s; ask A B; settle; ask A C; %s; own A < B; own C; load; settle; ask C B; ask A B" % (end, end)
                yield calls(before + steps + after)
    yield calls(b"keep; withdraw; open; keep; open; withdraw; open; open; withdraw; keep; open")
    yield calls(b"own A < B; load; settle; open; ask A B; keep; ask A B; open; withdraw; ask A B")
    yield calls(b"own A < B; load; settle; load; ask A B; settle; own ]; load; ask A B; ask B A")
    yield calls(b"own A; open; own B < A; load; withdraw; settle; ask A B; load; settle")


def strange_scripts():
    """Lines that are no calls, tables that are refused, texts without lines and with empty ones, ends without byte 10."""
    tables = [b"", b" ", b" 1", b" 2 1 2", b" 2 1 2 4 4", b" 2  1 2 4", b"  2 1 2 4", b" 2 1 2 4 ", b" 2,1,2,4", b" -2 1 2 4",
              b" +2 1 2 4", b" 2 1 2 x", b" 2 1 2 0x4", b" 2 1 2 4\r", b" 2 1 2 4_0", b" 02 0001 2 00000000000000000000004",
              b" 2 1 2 4294967296", b" 2 1 18446744073709551618 4", b" 340282366920938463463374607431768211458 1 2 4",
              b" 2 1 2 \xb2", b" 0 0 0 0", b" 2 1 2 4", b"\t2 1 2 4", b"s 2 1 2 4"]
    for rest in tables:
        yield calls(b"tables" + rest + b"; own A < B; load; own C < B; load; settle; ask A B; ask C B")
    yield calls(b"; tables 2 1 2 4; own A < B, C; load")
    yield calls(b"tables 2 1 2 4; tables 3 2 3 9; own A < B, C; load")
    yield calls(b"own A < B, C; tables 2 1 2 4; load")
    words = [b"load now", b"load ", b"load\r", b"Load", b"loads", b" load", b"open 1", b"open ", b"keep 0 1", b"keep ", b"withdraw 1",
             b"withdraw ", b"settle joined", b"settle ", b"settle  chains", b"settle chains ", b"settle Chains", b"settle chains now",
             b"ask", b"ask ", b"ask A", b"ask A ", b"ask  A", b"ask A  B", b"ask A B ", b"ask A B C", b"asks A B", b" ", b"  ", b"#",
             b"# own A", b"\0", b"\xff\xfe x", b"\r", b"own\tA", b"ownA", b"shipped\0 A", b"Own A", b"tables 1 1 1 1"]
    for at in range(len(words)):
        some = tuple(words[(at + step) % len(words)] for step in (0, 7, 18))
        yield calls(b"own A < B; %s; load; ; %s; settle; %s; ask A B; ask A A]" % some)
    texts = [b"own", b"own ", b"own  ", b"own; own; own ]", b"own A; own; own  A", b"own # A < B; own A < B", b"own A < B\r",
             b"shipped; shipped A <; own ]", b"own ]; shipped #\x1f", b"own A < B; shipped B < C", b"shipped A\xc3\xa9"]
    for lines in texts:
        yield calls(lines + b"; load; settle; ask A B; own C; load; settle; ask C C; ask A C")
    yield from [b"", b"\n", b"own A < B\nload\nsettle\nask A B", b"load", b"settle\nshow"]


def loop_scripts():
    for length in range(1, 7):
        ring = [b"T%d < T%d" % (t, (t + 1) % length) for t in range(length)]
        before = own(ring[:-1] or [b"T0"]) + b"; own S < T0; load; settle; open; "
        after = b"; load; ask S T0; settle; settle chains; ask S T0; withdraw; settle; ask S T0; ask T0 S"
        yield calls(before + own(ring[-1:]) + after)


def full_scripts():
    """As many types, bytes and links as there may be, and one more."""
    names = [b"T" * 60 + b"%04d" % t for t in range(MOST_TYPES)]
    values = (names[0], names[1], names[1], names[0], names[-1], names[-1])
    steps = b"; load; settle; ask %s %s; own %s; own %s < A; load; ask %s %s" % values
    yield calls(b"tables 1025 1 65537 1048576; " + own(names) + steps)
    short = [bytes([65 + t // 26, 97 + t % 26]) for t in range(130)]
    pairs = [(a, b) for a in range(len(short)) for b in range(a + 1, len(short))][:MOST_LINKS]
    lines = []
    for a in range(len(short)):
        bases = [short[b] for start, b in pairs if start == a]
        lines += [short[a] + b" < " + b", ".join(bases[at:at + 24]) for at in range(0, len(bases), 24)]
    steps = b"; load; settle; ask Aa Ez; own Aa < Ez, Aa; load; ask Aa Ez; own Aa < Ab; load; ask Aa Ez; settle chains"
    yield calls(b"tables 200 8193 400 2600; " + own(lines) + steps)


class Walk:
    """A random script, made along with its run."""

    def __init__(self, dice, first=()):
        self.dice, self.run, self.lines = dice, Replay(), []
        self.most = (0, 0, 0)
        self.names = dice.sample(VOCABULARY, dice.randint(2, 8))
        self.loops = dice.random() < 0.3
        for line in first:
            self.say(line)
        self.load()
        for _ in range(dice.randint(4, 9)):
            self.step()

    def say(self, line):
        self.lines.append(line)
        self.run.line(line)
        book = self.run.book
        self.most = max(self.most, (len(book.types), len(book.links), sum(map(len, book.types))))

    def step(self):
        if self.run.book.settled and self.run.book.types:
            likely = [self.ask] * 6 + [self.load] + [self.trial] * 2
        else:
            likely = [self.settle] * 6 + [self.load] * 3 + [self.trial] * 2 + [self.ask]
        if self.run.ticket is not None:
            likely += [self.trial] * 2
        self.dice.choice(likely * 4 + [self.stray])()

    def load(self):
        for _ in range(self.dice.choice([0] * bool(self.lines) + [1, 2, 2, 3, 4])):
            line = random_line(self.dice, self.names, self.loops)
            if self.dice.random() < 0.12:
                line = damaged(self.dice, line).replace(b"\n", b"\r")
            self.say(self.dice.choice([b"own ", b"own ", b"shipped "]) + line)
        self.say(b"load")

    def trial(self):
        if self.dice.random() < 0.1:
            self.say(self.dice.choice([b"open", b"keep", b"withdraw"]))
        else:
            self.say(b"open" if self.run.ticket is None else self.dice.choice([b"keep", b"withdraw", b"withdraw"]))

    def settle(self):
        self.say(self.dice.choice([b"settle", b"settle", b"settle chains"]))

    def ask(self):
        for _ in range(self.dice.randint(1, 3)):
            known = list(self.run.book.types) or self.names
            names = [self.dice.choice(known if self.dice.random() < 0.93 else VOCABULARY) for _ in range(2)]
            self.say(b"ask " + b" ".join(names))

    def stray(self):
        self.say(self.dice.choice([b"", b"show", b"load now", b"ask A", b"tables 4 4 64 16", b"settle all", b"# own A"]))


def random_script(dice):
    """A random script; most begin with tables around what a run without them comes to hold."""
    seed = dice.random()
    walk = Walk(random.Random(seed))
    if dice.random() < 0.8:
        needed = walk.most + (walk.most[0] * dice.randint(1, 3),)
        numbers = tuple(max(0, number + dice.choice([0, 0, 0, 1, 1, 9, 9, 9, -1])) for number in needed)
        walk = Walk(random.Random(seed), [b"tables %d %d %d %d" % numbers])
    data = script(walk.lines[:25])
    if dice.random() < 0.05:
        start = data.index(b"\n") + 1
        data = data[:start] + damaged(dice, data[start:])
    return data[:-1] if dice.random() < 0.1 else data


def random_scripts(dice, count):
    """So many random scripts for which the rules leave nothing free."""
    while count:
        try:
            data = random_script(dice)
            replay(data)
        except Free:
            continue
        count -= 1
        yield data


def scripts():
    yield from worked_scripts()
    yield from limit_scripts()
    yield from trial_scripts()
    yield from strange_scripts()
    yield from loop_scripts()
    yield from full_scripts()
    yield from random_scripts(random.Random(31), 1000)


# ---- inputs of the program

def text(*lines):
    return b"\n".join(lines) + b"\n"


def padded(lines, size):
    """A text of so many bytes: the lines, and comments after them."""
    data = text(*lines)
    while len(data) < size:
        data += b"#" * min(99, size - len(data) - 1) + b"\n"
    return data


def worked_inputs():
    yield text(*ANIMALS)
    yield text(*MEETING)
    yield text(b"A < A")
    yield from [b"", b"\n", b"\n\n\n", b"A", b"A\n", b"#", b"# A < B\n", b"A < B", b"A\r\nB\r\n", b"A < B\n\nB < C\n", b"\0", b"\xff",
                b"A < B\nA < B\nA\nB\n", b"A[B]\nA[C] < A[B]\n", b"C < A\nC < B\nB < A\nA < D\n", b"D < C, B, A\nA\nB\nC\n",
                b"A < C, B\nB < C\n", b"A <B", b" A", b"A < B,"]


def line_inputs():
    """Names and brackets at their limits, in each place of a line, alone and after other lines; every byte in a line."""
    names = [b"a" * 63, b"a" * 64, b"a" * 65, deep(7), deep(8), deep(9), b"a[" * 9, b"a" * 61 + b"[b]", b"a" * 62 + b"[b]",
             b"a" * 62 + b"[b,", b"a" * 64 + b"]", b"a" * 64 + b"["]
    for name in names:
        for before, after in ((b"", b""), (b"", b" < B"), (b"A < ", b""), (b"A < B, ", b", C"), (b"# [", b""), (b"A\n\nB < ", b"\nC\n")):
            yield before + name + after
    for byte in range(256):
        yield b"A" + bytes([byte]) + b"B < C\n"
    for byte in (0, 9, 13, 31, 32, 126, 127, 128, 255):
        yield from [b"#" + bytes([byte]), b"A < B\nA < " + bytes([byte]), b"A[" + bytes([byte])]


def stars(types, first):
    """So many types, each with the same base but the last: the base is the first name or the last one that is entered."""
    base = b"Base" if first else b"b"
    lines = [b"T%d < %s" % (t, base) for t in range(types - 1)]
    return ([base] if first else []) + lines


def grid(links):
    """So many links, from 26 types to 20 others."""
    pairs = [(a, b) for a in range(26) for b in range(20)][:links]
    return [b"%c < %s" % (65 + a, b", ".join(b"t%d" % b for start, b in pairs if start == a)) for a in range(26) if pairs[-1][0] >= a]


def printing(size):
    """A text that is printed in so many bytes."""
    names = [b"T" * 60 + b"%04d" % t for t in range(60)]
    lines = [name + b" < B" for name in names]
    left = size - len(program(text(*lines)))
    while left > 65:
        lines.append(b"Rest%d" % left)
        left -= len(lines[-1]) + 1
    return text(*lines, b"R" * (left - 1))


def limit_inputs():
    for size in (8191, 8192, 8193):
        yield padded([b"A < B", b"B < C"], size)
    yield padded([b"A < B", b"B <"], 8193)
    yield padded([b"A < B", b"B < A"], 8192)
    yield b"A" * 8192
    yield b"\n" * 8192
    yield b"\n" * 8193
    yield b"\0" * 8300
    for types in (127, 128, 129):
        yield text(*stars(types, True))
        yield text(*stars(types, False))
        yield text(*[b"T%d" % t for t in range(types)])
        yield text(*[b"T%d" % t for t in range(types)], b"T0 < T1", b"T127 < T0")
    yield text(*[b"T%d" % t for t in range(128)], b"T0 < T1, T2, New")
    yield text(*[b"T%d < T%d" % (t, t + 1) for t in range(127)])
    yield text(*[b"T%d < T%d" % (t, (t + 1) % 128) for t in range(128)])
    for links in (511, 512, 513, 519):
        yield text(*grid(links))
    yield text(*grid(512), b"A < t0", b"Z < t0", b"New")
    yield text(*grid(512), b"A < t0", b"t0 < t1")
    yield text(*grid(512), b"A < New")
    yield text(*grid(512), *[b"N%d" % t for t in range(128 - 46)], b"A < New")
    for size in (8191, 8192, 8193, 8260):
        yield printing(size)
    yield printing(8193) + b"T\nT <"
    yield printing(8193) + b"B < B\n"


def loop_inputs(dice):
    for length in range(1, 9):
        ring = [b"T%d < T%d" % (t, (t + 1) % length) for t in range(length)]
        yield text(*ring)
        yield text(b"S < T0, A", *ring, b"T0 < B")
        yield text(*ring[1:], b"T0")
        yield text(*dice.sample(ring, length), b"A < A")


def random_text(dice, names, lines):
    loops = dice.random() < 0.15
    stated = [random_line(dice, names, loops) for _ in range(lines)]
    data = b"\n".join(stated)
    return data if dice.random() < 0.3 else data + b"\n"


def crowded(dice, types, links):
    """A text of so many types and links, without a loop, that are stated in random sequence, some of them twice."""
    names = [b"T%d" % t for t in range(types)]
    dice.shuffle(names)
    pairs = dice.sample([(a, b) for a in range(types) for b in range(a + 1, types)], links)
    stated = {a: [] for a in range(types)}
    for a, b in pairs + dice.sample(pairs, 9):
        stated[a].append(names[b])
    lines = [names[a] + (b" < " + b", ".join(bases) if bases else b"") for a, bases in stated.items()]
    dice.shuffle(lines)
    return text(*lines)


def random_names(dice, most):
    return list(dict.fromkeys(random_name(dice) for _ in range(dice.randint(1, most))))


def random_inputs():
    dice = random.Random(32)
    yield from loop_inputs(dice)
    for _ in range(700):
        yield random_text(dice, random_names(dice, 12), dice.randint(1, 14))
    for _ in range(1000):
        yield damaged(dice, random_text(dice, random_names(dice, 9), dice.randint(1, 9)))
    for _ in range(30):
        yield bytes(dice.choice(SIGNS) for _ in range(dice.randrange(12)))
        yield bytes(dice.randrange(256) for _ in range(dice.randrange(12)))
    for _ in range(60):
        data = random_text(dice, random_names(dice, 70), dice.randint(20, 120))
        yield data
        if dice.random() < 0.3:
            yield damaged(dice, data)
    for _ in range(24):
        yield crowded(dice, dice.randint(122, 134), dice.randint(100, 300))
        yield crowded(dice, 60, dice.randint(508, 516))
        yield printing(dice.randint(8186, 8198))


def inputs():
    yield from worked_inputs()
    yield from line_inputs()
    yield from limit_inputs()
    yield from random_inputs()


# ---- the files

def deliver(files):
    """Writes each file below crates/; with --check, stops at one that is not so already."""
    for name, data in files.items():
        path = os.path.join(common.CRATES, name)
        if sys.argv[1:] == ["--check"]:
            with open(path, "rb") as file:
                if file.read() != data:
                    sys.exit("crates/%s is not what %s writes" % (name, os.path.basename(sys.argv[0])))
        else:
            with open(path, "wb") as file:
                file.write(data)


def framed(cases):
    return b"".join(b"case %d\n%s\n" % (len(case), case) for case in cases)


def expected(cases, run):
    return b"".join(b"case %d\n%s" % (number, run(case)) for number, case in enumerate(cases, 1))


def main():
    books, programs = list(scripts()), list(inputs())
    deliver({
        "book_cases/stdin": framed(books), "book_cases/stdout": expected(books, replay),
        "program_cases/stdin": framed(programs), "program_cases/stdout": expected(programs, program),
    })
    print("%d scripts, %d inputs" % (len(books), len(programs)))


if __name__ == "__main__":
    main()

#!/usr/bin/env python3
"""Cases for numbered books, and what they must give.

Writes crates/hierarchy_cases/stdin, a script of steps on books, and crates/hierarchy_cases/stdout, the lines
that the program must print for it; crates/measure/stdout, what the measured hierarchies come out as; and
crates/measure_books/stdout, what the measured book comes out as.
Nothing here is taken from the program: descent is a whole table, closed by way of each middle type in turn,
and order, chains, rows and kept entries are read off it by their rules. Which loop a refused settle writes is
free, so the program itself says whether what it wrote is one; its length is asked for where all loops have
the same.

    python3 reference/hierarchy.py            write the four files
    python3 reference/hierarchy.py --check    say whether they are as this program would write them
"""

import random

import common

OLD, UNWRITTEN = 7, 65535
MOST_TYPES, MOST_LINKS, SCRATCH_PER_TYPE = 1024, 8192, 4
MOST_SHOWN, PRIME = 16, 1000000007


# ---- the rules

def paths(types, links):
    """Bit b of row a: a path of one or more links runs from a to b."""
    rows = [0] * types
    for a, b in links:
        rows[a] |= 1 << b
    return common.closed(rows)


def order_of(types, links):
    """The type of each rank, as far as there is one."""
    subtypes = [set() for _ in range(types)]
    for a, b in links:
        subtypes[b].add(a)
    order, ranked = [], set()
    while True:
        ready = [t for t in range(types) if t not in ranked and subtypes[t] <= ranked]
        if not ready:
            return order
        order.append(ready[0])
        ranked.add(ready[0])


def chain_order(order, links):
    rank = {t: r for r, t in enumerate(order)}
    bases = {t: [] for t in order}
    for a, b in links:
        bases[a].append(b)
    chains, placed = [], set()
    for first in order:
        if first in placed:
            continue
        chain = [first]
        placed.add(first)
        while True:
            free = [b for b in bases[chain[-1]] if b not in placed]
            if not free:
                break
            chain.append(min(free, key=lambda b: rank[b]))
            placed.add(chain[-1])
        chains.append(chain)
    return chains


def joined(chains, reach):
    standing = {number: list(chain) for number, chain in enumerate(chains)}
    for number in range(len(chains)):
        for other in sorted(standing):
            if other != number and reach[standing[other][-1]] >> standing[number][0] & 1:
                standing[other] += standing.pop(number)
                break
    return [standing[number] for number in sorted(standing)]


def row_of(a, chains, reach):
    row = []
    for chain in chains:
        places = [p for p, t in enumerate(chain) if t == a or reach[a] >> t & 1]
        row.append(places[0] if places else UNWRITTEN)
    return row


def kept_of(links, reach):
    """1 for each link whose ends no path of two or more links joins."""
    bases = {}
    for a, b in links:
        bases.setdefault(a, []).append(b)
    return [0 if any(reach[w] >> b & 1 for w in bases[a]) else 1 for a, b in links]


def loop_length(types, links, reach):
    """The length of every loop, where the types on loops form bare rings of one length."""
    on_loop = [t for t in range(types) if reach[t] >> t & 1]
    rings = {t: frozenset(u for u in on_loop if reach[t] >> u & 1 and reach[u] >> t & 1) for t in on_loop}
    for t in on_loop:
        if sum(1 for a, b in links if a == t and b in rings[t]) != 1:
            return None
    lengths = {len(ring) for ring in rings.values()}
    return lengths.pop() if len(lengths) == 1 else None


# ---- a book, its tables, and the line that each step prints

def shown(name, entries):
    if len(entries) > MOST_SHOWN:
        return "; %s %d sum %d" % (name, len(entries), sum(e * (p + 1) for p, e in enumerate(entries)) % PRIME)
    return "; %s %d" % (name, len(entries)) + "".join(" -" if e == UNWRITTEN else " %d" % e for e in entries)


def shown_links(table):
    if len(table) > MOST_SHOWN:
        ends = [end for link in table for end in link]
        return "; links %d sum %d" % (len(table), sum(e * (p + 1) for p, e in enumerate(ends)) % PRIME)
    return "; links %d" % len(table) + "".join(" %d-%d" % link for link in table)


def not_below(number, types):
    return "%d-not-below-%d" % (number, types)


class Book:
    TABLES = ("order", "chain", "position", "kept", "index")

    def __init__(self, number, room, links, order, chain, position, kept, index, loop, scratch):
        self.lend(loop, scratch)
        self.lengths = dict(zip(self.TABLES, (order, chain, position, kept, index)))
        self.places = links
        self.make(number, room)

    def lend(self, loop, scratch):
        self.loop, self.scratch = [OLD] * loop, [OLD] * scratch
        self.looped = None

    def make(self, number, room):
        self.number, self.room = number, room
        self.types, self.links, self.known, self.settled = 0, [], set(), None
        self.wipe()

    def wipe(self):
        self.tables = {name: [UNWRITTEN] * self.lengths[name] for name in self.TABLES}

    def show(self):
        table = self.links + [(0, 0)] * (self.places - len(self.links))
        line = "book %d: %d types, %d links" % (self.number, self.types, len(self.links)) + shown_links(table)
        for name in self.TABLES:
            line += shown(name, self.tables[name])
        line += shown("scratch", self.scratch)
        return line + (shown("loop", self.loop) if self.looped is None else "")

    def enter_type(self):
        if self.types >= self.room or self.types >= MOST_TYPES:
            return "no-type-place"
        self.types, self.settled = self.types + 1, None
        return str(self.types - 1)

    def enter_link(self, a, b):
        for end in (a, b):
            if end >= self.types:
                return not_below(end, self.types)
        if (a, b) in self.known:
            return "known"
        if len(self.links) >= self.places or len(self.links) >= MOST_LINKS:
            return "no-link-place"
        self.links.append((a, b))
        self.known.add((a, b))
        self.settled = None
        return "new"

    def take_back(self, types, links):
        if types > self.types or links > len(self.links):
            return "not-entered"
        for link in self.links[:links]:
            for end in link:
                if end >= types:
                    return not_below(end, types)
        self.types, self.links, self.settled = types, self.links[:links], None
        self.known = set(self.links)
        return "done"

    def short(self):
        tables = [self.tables["order"], self.tables["chain"], self.tables["position"], self.loop]
        return (
            any(len(table) < self.types for table in tables)
            or len(self.scratch) < SCRATCH_PER_TYPE * self.types
            or len(self.tables["kept"]) < len(self.links)
        )

    def settle(self, joining):
        if self.short():
            return "refused 9"
        self.scratch = [0] * len(self.scratch)
        reach = paths(self.types, self.links)
        order = order_of(self.types, self.links)
        looped = any(reach[t] >> t & 1 for t in range(self.types))
        assert looped == (len(order) < self.types)
        if looped:
            self.wipe()
            self.settled, self.looped = None, loop_length(self.types, self.links, reach) or 0
            return "refused 10: loop ok"
        chains = chain_order(order, self.links)
        if joining:
            chains = joined(chains, reach)
        needed = self.types * len(chains)
        if len(self.tables["index"]) < needed:
            self.wipe()
            self.settled = None
            return "refused 11: %d entries" % needed
        return self.write(order, chains, reach)

    def write(self, order, chains, reach):
        kept = kept_of(self.links, reach)
        index = [entry for a in range(self.types) for entry in row_of(a, chains, reach)]
        chain, position = [None] * self.types, [None] * self.types
        for number, types in enumerate(chains):
            for place, t in enumerate(types):
                chain[t], position[t] = number, place
        for name, entries in zip(self.TABLES, (order, chain, position, kept, index)):
            self.tables[name][: len(entries)] = entries
        self.settled = (len(chains), reach)
        return "settled: %d types, %d links, %d chains, %d kept" % (self.types, len(self.links), len(chains), sum(kept))

    def ask(self, a, b):
        types = self.types if self.settled else 0
        for number in (a, b):
            if number >= types:
                return "(refusal 16: %d is not below the number of types, %d)" % (number, types)
        return "yes" if a == b or self.settled[1][a] >> b & 1 else "no"

    def asks(self, pairs):
        line = "of %d chains:" % self.settled[0] if self.settled else "refused 12:"
        return " ".join([line] + [self.ask(a, b) for a, b in pairs])


# ---- a script, with the lines that it must print

class Script:
    def __init__(self):
        self.steps, self.lines, self.books = [], [], 0

    def step(self, word, numbers, line):
        self.steps.append(" ".join([word] + [str(number) for number in numbers]))
        self.lines.append(line)

    def begin(self, *sizes):
        self.books += 1
        self.book = Book(*sizes)
        self.step("book", sizes, self.book.show())

    def again(self, number, room):
        self.book.make(number, room)
        self.step("again", (number, room), self.book.show())

    def lend(self, loop, scratch):
        self.book.lend(loop, scratch)
        self.step("lend", (loop, scratch), "lent")

    def types(self, count):
        self.step("types", [count], " ".join(["types:"] + [self.book.enter_type() for _ in range(count)]))

    def links(self, links):
        ends = [end for link in links for end in link]
        self.step("links", ends, " ".join(["links:"] + [self.book.enter_link(a, b) for a, b in links]))

    def back(self, types, links):
        self.step("back", (types, links), "back: " + self.book.take_back(types, links))

    def unsettle(self):
        self.book.settled = None
        self.step("unsettle", (), "unsettled")

    def settle(self, joining=True):
        line = self.book.settle(joining)
        self.step("settle" if joining else "chains", (), line)
        if line.startswith("refused 10") and self.book.looped:
            self.step("length", (), "loop of %d" % self.book.looped)

    def ask(self, pairs):
        self.step("ask", [number for pair in pairs for number in pair], self.book.asks(pairs))

    def tables(self):
        self.step("tables", (), self.book.show())


# ---- the cases

def random_links(dice, types, count, loops):
    """Links of types that stand in some random order, up along it, and a few down where there may be loops."""
    places = list(range(types))
    if dice.random() < 0.7:
        dice.shuffle(places)
    links = []
    for _ in range(count if types else 0):
        a, b = sorted((dice.randrange(types), dice.randrange(types)))
        if loops and dice.random() < 0.15:
            a, b = b, a
        if a != b or loops and dice.random() < 0.1:
            links.append((places[a], places[b]))
    return links


def around(dice, needed):
    """A length around the needed one."""
    return max(0, dice.choice([needed] * 24 + [needed + 1] * 6 + [needed + 3, needed - 1, 0]))


def random_book(script, dice):
    types = dice.choice([0, 1, 2, 3, 4, 5, 6, 7, 8, 9, 10, 11])
    loops = dice.random() < 0.4
    links = random_links(dice, types, dice.randrange(2 * types + 2), loops)
    different = len(set(links))
    chains = dice.choice([types, (types + 1) // 2, (types + 2) // 3, 2, 3])
    script.begin(
        dice.choice([0, 1, 77, 4294967295]), around(dice, types), around(dice, different), around(dice, types), around(dice, types),
        around(dice, types), around(dice, different), around(dice, types * chains), around(dice, types), around(dice, SCRATCH_PER_TYPE * types),
    )
    script.types(types)
    if links and dice.random() < 0.3:
        links.insert(dice.randrange(len(links) + 1), (dice.randrange(types + 2), dice.randrange(types + 2)))
    script.links(links)
    for _ in range(dice.randrange(1, 4)):
        random_step(script, dice, loops)


def random_step(script, dice, loops):
    book = script.book
    script.settle(dice.random() < 0.7)
    script.tables()
    if book.types:
        script.ask([(dice.randrange(book.types + (dice.random() < 0.1)), dice.randrange(book.types + (dice.random() < 0.1))) for _ in range(8)])
    kind = dice.randrange(7)
    if kind < 3:
        types = dice.randrange(book.types + 1) if kind == 0 else book.types + (dice.random() < 0.05)
        links = dice.randrange(len(book.links) + 1)
        if dice.random() < 0.7:
            while links and any(end >= types for link in book.links[:links] for end in link):
                links -= 1
        script.back(types, links + (dice.random() < 0.05))
        script.tables()
    elif kind == 3:
        script.types(1)
    elif kind == 4 and book.types:
        script.links(random_links(dice, book.types, 2, loops) + book.links[:1])
    elif kind == 5:
        script.unsettle()
    elif dice.random() < 0.3:
        script.again(dice.randrange(9), around(dice, book.types))
        script.types(book.types + 2)
    script.ask([(0, 0)])


def joining_book(script, dice):
    """Types in layers, each with a base or two in a layer above: short chains, of which joining puts many together."""
    types, layers = dice.randrange(10, 25), dice.randrange(3, 7)
    layer = [dice.randrange(layers) for _ in range(types)]
    pairs = [(a, b) for a in range(types) for b in range(types) if layer[a] < layer[b] <= layer[a] + 2]
    links = dice.sample(pairs, min(len(pairs), dice.randrange(types // 2, 2 * types)))
    script.begin(3, types, len(links), types, types, types, len(links), types * types, types, SCRATCH_PER_TYPE * types)
    script.types(types)
    script.links(links)
    for joining in (False, True):
        script.settle(joining)
        script.tables()
    script.ask([(dice.randrange(types), dice.randrange(types)) for _ in range(20)])
    script.lend(around(dice, types), around(dice, SCRATCH_PER_TYPE * types))
    script.settle()
    script.ask([(0, types - 1)])
    script.tables()


def lengths_around(script, links, types):
    """Each table in turn one entry short, exact, one longer and empty."""
    chains = len(joined(chain_order(order_of(types, links), links), paths(types, links)))
    exact = [types, len(links), types, types, types, len(links), types * chains, types, SCRATCH_PER_TYPE * types]
    for place in range(len(exact)):
        for length in (exact[place] - 1, exact[place], exact[place] + 1, 0):
            sizes = list(exact)
            sizes[place] = max(0, length)
            script.begin(place, *sizes)
            script.types(types + 1)
            script.links(links)
            for joining in (True, False):
                script.settle(joining)
                script.tables()
                script.ask([(0, types - 1), (types - 1, 0)])


def full_book(script, links, chains=MOST_TYPES):
    script.begin(1, MOST_TYPES + 1, MOST_LINKS + 1, MOST_TYPES, MOST_TYPES, MOST_TYPES, MOST_LINKS, MOST_TYPES * chains, MOST_TYPES, SCRATCH_PER_TYPE * MOST_TYPES)
    script.types(MOST_TYPES + 1)
    script.links(links)


def full_settles(script, links, dice, chains=MOST_TYPES):
    full_book(script, links, chains)
    for joining in (False, True):
        script.settle(joining)
        script.tables()
        script.ask([(dice.randrange(MOST_TYPES), dice.randrange(MOST_TYPES)) for _ in range(40)] + [(MOST_TYPES, 0)])


def widest():
    """All types but eight have those eight as bases: no path is longer than a link."""
    return [(a, b) for a in range(MOST_TYPES - 8) for b in range(MOST_TYPES - 8, MOST_TYPES)]


def deepest():
    """One chain of all types, and links over two to eight of its types."""
    return [(a, a + k) for k in range(1, 9) for a in range(MOST_TYPES - k)]


def dense(dice):
    """A thousand types in random order, each with bases far and near above it."""
    places = list(range(MOST_TYPES))
    dice.shuffle(places)
    links = []
    seen = set()
    while len(links) < MOST_LINKS:
        a = dice.randrange(MOST_TYPES - 1)
        b = min(MOST_TYPES - 1, a + 1 + int(dice.expovariate(1 / 60.0)))
        if (a, b) not in seen:
            seen.add((a, b))
            links.append((places[a], places[b]))
    return links


def worked(script):
    animals = [(0, 1), (0, 2), (1, 2), (3, 2)]
    script.begin(9, 4, 4, 4, 4, 4, 4, 8, 4, 16)
    script.types(4)
    script.links(animals)
    script.settle()
    script.tables()
    script.ask([(a, b) for a in range(4) for b in range(4)])
    script.begin(9, 5, 4, 5, 5, 5, 4, 15, 5, 20)
    script.types(5)
    script.links([(0, 1), (2, 1), (1, 3), (1, 4)])
    for joining in (False, True):
        script.settle(joining)
        script.tables()
    script.begin(1, 1, 1, 1, 1, 1, 1, 1, 1, 4)
    script.types(1)
    script.links([(0, 0)])
    script.settle()
    script.begin(0, 0, 0, 0, 0, 0, 0, 0, 0, 0)
    script.settle()
    script.tables()
    script.ask([(0, 0)])
    lengths_around(script, animals, 4)
    lengths_around(script, [(0, 1), (2, 1), (1, 3), (1, 4)], 5)


def rings(script):
    for length in range(1, 7):
        script.begin(length, 8, 16, 8, 8, 8, 16, 64, 8, 32)
        script.types(8)
        script.links([(1 + t, 1 + (t + 1) % length) for t in range(length)] + [(0, 1), (length, 7)])
        script.settle()
        script.tables()
        script.ask([(1, 2)])
        script.back(8, length - 1)
        script.settle()
        script.tables()


def full_size(script, dice):
    full_settles(script, widest(), dice)
    script.links([(0, 1)])
    script.back(600, 0)
    script.settle()
    script.tables()
    full_settles(script, deepest(), dice, 2)
    script.links([(MOST_TYPES - 1, 0)])
    script.settle()
    full_settles(script, dense(dice), dice, 400)
    full_book(script, [(t, (t + 1) % MOST_TYPES) for t in range(MOST_TYPES)], 1)
    script.settle()
    script.tables()
    full_book(script, [], MOST_TYPES - 1)
    script.settle()
    script.tables()


# ---- the measured hierarchies

def scattered():
    """As many links as there may be, to types up to 128 places above."""
    links, known, seed = [], set(), 1
    for _ in range(2 * MOST_LINKS):
        seed = (seed * 1103515245 + 12345) % 2**32
        a = seed // 2**21 % 1024
        seed = (seed * 1103515245 + 12345) % 2**32
        b = a + 1 + seed // 2**16 % 128
        if b < MOST_TYPES and (a, b) not in known and len(links) < MOST_LINKS:
            known.add((a, b))
            links.append((a, b))
    return links


def measured():
    lines = ["lawful: true, names: 82240"]
    for name, links in (("the widest", widest()), ("the deepest", deepest()), ("a dense one", scattered())):
        reach = paths(MOST_TYPES, links)
        chains = chain_order(order_of(MOST_TYPES, links), links)
        for way, chains in (("chain order", chains), ("joining", joined(chains, reach))):
            numbers = (name, way, MOST_TYPES, len(links), len(chains), sum(kept_of(links, reach)))
            lines.append("%s by %s: %d types, %d links, %d chains, %d kept" % numbers)
            lines.append("%s by %s: %d pairs related" % (name, way, MOST_TYPES + sum(bin(row).count("1") for row in reach)))
    return lines


def measured_by_name():
    # each type but the last eight has the next eight as bases, and they are loaded by name
    links = [(a, a + k) for a in range(MOST_TYPES - 8) for k in range(1, 9)]
    reach = paths(MOST_TYPES, links)
    chains = joined(chain_order(order_of(MOST_TYPES, links), links), reach)
    below = 1 + sum(row >> (MOST_TYPES - 1) & 1 for row in reach)
    numbers = (MOST_TYPES, len(links), len(chains), sum(kept_of(links, reach)), below)
    return ["loaded: true, settled: %d %d %d %d, below the last: %d" % numbers]


def main():
    script = Script()
    worked(script)
    rings(script)
    dice = random.Random(4)
    for _ in range(360):
        random_book(script, dice)
    for _ in range(120):
        joining_book(script, dice)
    full_size(script, dice)
    common.deliver({"hierarchy_cases/stdin": script.steps, "hierarchy_cases/stdout": script.lines, "measure/stdout": measured(), "measure_books/stdout": measured_by_name()})
    print("%d books, %d steps" % (script.books, len(script.steps)))


if __name__ == "__main__":
    main()

#!/usr/bin/env python3
"""Cases for links, walks, gates, opposites, trims and nearest common bases, and what they must give.

Writes crates/descent_cases/stdin, a script of cases, and crates/descent_cases/stdout, the lines that the
program must print for it. Nothing here is taken from the program: the relations are whole tables, closed
by way of each middle type in turn, and every answer is read off a table.

    python3 reference/descent.py            write the two files
    python3 reference/descent.py --check    say whether they are as this program would write them
"""

import random

import common

OLD = 7
MOST_LEVELS = 1024


# ---- relations, as a list of rows: bit b of row a says whether a is related to b

def closure(types, links):
    rows = [1 << a for a in range(types)]
    for a, b in links:
        rows[a] |= 1 << b
    return common.closed(rows)


def opposite(rows):
    types = len(rows)
    return [sum(1 << a for a in range(types) if rows[a] >> b & 1) for b in range(types)]


def gated(rows, levels):
    types = len(rows)
    return [sum(1 << b for b in range(types) if rows[a] >> b & 1 and levels[a] <= levels[b]) for a in range(types)]


# ---- refusals: the line that is printed

def refusal(number, values, words):
    return "refusal %d: %s (%d [%d, %d])" % (number, words, number, values[0], values[1])


def not_below(number, types):
    return refusal(16, (number, types), "%d is not below the number of types, %d" % (number, types))


def question_refusal(types, a, b):
    for number in (a, b):
        if number >= types:
            return not_below(number, types)
    return None


def stray_end(types, links):
    for link in links:
        for end in link:
            if end >= types:
                return end
    return None


def walk_refusal(types, places, links):
    if places < types:
        return refusal(17, (places, types), "%d marks are too few for %d types" % (places, types))
    end = stray_end(types, links)
    if end is not None:
        return refusal(17, (end, types), "a link's end, %d, is not below the number of types, %d" % (end, types))
    return None


def gate_refusal(types, levels):
    if types > MOST_LEVELS:
        return refusal(17, (types, MOST_LEVELS), "%d types are more than a gate stands over, %d" % (types, MOST_LEVELS))
    if len(levels) < types:
        return refusal(17, (len(levels), types), "%d levels are too few for %d types" % (len(levels), types))
    return None


# ---- what is asked of a relation

def question(rows, a, b):
    refused = question_refusal(len(rows), a, b)
    if refused:
        return [refused]
    return ["%d %d: %s" % (a, b, "yes" if rows[a] >> b & 1 else "no")]


def trim(rows, links, places):
    types = len(rows)
    end = stray_end(types, links)
    flags = [OLD] * places
    if end is not None:
        return [not_below(end, types), "trim: %s" % flags]
    if places < len(links):
        return [refusal(18, (places, len(links)), "%d flag places are too few for %d links" % (places, len(links))), "trim: %s" % flags]
    questions = 0
    for at, (a, b) in enumerate(links):
        others = []
        for start, w in links:
            if start == a and w != b and w not in others:
                others.append(w)
        related = [w for w in others if rows[w] >> b & 1]
        flags[at] = 0 if related else 1
        questions += others.index(related[0]) + 1 if related else len(others)
    return ["trim: %d of %s, %d questions" % (sum(flags[: len(links)]), flags, questions)]


def nearest(rows, a, b):
    types = len(rows)
    refused = question_refusal(types, a, b)
    if refused:
        return [refused]
    common = [c for c in range(types) if rows[a] >> c & 1 and rows[b] >> c & 1]
    for c in common:
        if all(rows[c] >> d & 1 for d in common if rows[d] >> c & 1):
            return ["nearest of %d and %d: %d, %d questions" % (a, b, c, questions_to(rows, a, b, c, common))]
    assert not common, "a common base without a nearest one"
    return ["nearest of %d and %d: none" % (a, b)]


def questions_to(rows, a, b, found, common):
    """How many questions are asked until `found` is known: of each type up to it whether it is a common base,
    and of each common base up to it, for each type up to the first that undercuts it, whether that does."""
    total = 0
    for c in range(found + 1):
        total += 2 if rows[a] >> c & 1 else 1
        if c not in common:
            continue
        for d in range(len(rows)):
            total += 2 if rows[a] >> d & 1 else 1
            if d not in common:
                continue
            total += 1
            if rows[d] >> c & 1:
                total += 1
                if not rows[c] >> d & 1:
                    break
    return total


# ---- a case: a walk, a pile over it, and what is asked

class Case:
    def __init__(self, types, places, links, shape=0, low=(), high=(), asks=()):
        self.types, self.places, self.links = types, places, links
        self.shape, self.low, self.high, self.asks = shape, list(low), list(high), list(asks)

    def script(self):
        numbers = [self.types, self.places, len(self.links)]
        for link in self.links:
            numbers += link
        numbers += [self.shape, len(self.low)] + self.low + [len(self.high)] + self.high + [len(self.asks)]
        for ask in self.asks:
            if ask[0] == "question":
                numbers += [1, ask[1], ask[2]]
            elif ask[0] == "trim":
                numbers += [2, len(ask[1])]
                for link in ask[1]:
                    numbers += link
                numbers += [ask[2]]
            else:
                numbers += [3, ask[1], ask[2]]
        return " ".join(map(str, numbers))

    def layers(self):
        return {
            0: [],
            1: [self.low],
            2: ["opposite"],
            3: [self.low, "opposite", self.high],
            4: [self.low, self.high],
        }[self.shape]

    def expected(self):
        refused = walk_refusal(self.types, self.places, self.links)
        if refused:
            return [refused, "marks: %d of %d" % (self.places, self.places)]
        rows = closure(self.types, self.links)
        cleared = "marks: 0 of %d" % self.places
        for layer in self.layers():
            if layer == "opposite":
                rows = opposite(rows)
                continue
            refused = gate_refusal(self.types, layer)
            if refused:
                return [refused, cleared]
            rows = gated(rows, layer)
        lines = []
        for ask in self.asks:
            lines += {"question": question, "trim": trim, "nearest": nearest}[ask[0]](rows, *ask[1:])
        return lines + [cleared]


# ---- the cases

def random_links(dice, types, count, loops):
    links = []
    for _ in range(count if types else 0):
        a, b = dice.randrange(types), dice.randrange(types)
        if not loops:
            if types < 2:
                continue
            while a == b:
                b = dice.randrange(types)
            a, b = max(a, b), min(a, b)
        links.append((a, b))
    if links and dice.random() < 0.3:
        links.append(dice.choice(links))
    return links


def random_asks(dice, types, links):
    def number():
        return dice.randrange(types + 2) if dice.random() < 0.1 or types == 0 else dice.randrange(types)

    asks = []
    for _ in range(dice.randrange(2, 6)):
        asks.append(("question", number(), number()))
    for _ in range(dice.randrange(1, 3)):
        asks.append(("nearest", number(), number()))
    trimmed = list(links) if dice.random() < 0.6 else random_links(dice, types, dice.randrange(8), True)
    if dice.random() < 0.1:
        trimmed.insert(dice.randrange(len(trimmed) + 1), (dice.randrange(types + 2), types + dice.randrange(3)))
    places = max(0, len(trimmed) + dice.choice([0, 0, 0, 1, 2, -1]))
    asks.append(("trim", trimmed, places))
    dice.shuffle(asks)
    return asks


def random_levels(dice, types):
    size = max(0, types + dice.choice([0, 0, 0, 0, 1, 3, -1]))
    return [dice.randrange(4) for _ in range(size)]


def random_case(dice):
    types = dice.choice([0, 1, 2, 3, 4, 5, 6, 7, 8, 9, 10, 12])
    links = random_links(dice, types, dice.randrange(2 * types + 1), dice.random() < 0.5)
    if dice.random() < 0.05:
        links.insert(dice.randrange(len(links) + 1), (dice.randrange(types + 1), types + dice.randrange(2)))
    places = max(0, types + dice.choice([0, 0, 0, 0, 0, 1, 4, -1]))
    return Case(types, places, links, dice.randrange(5), random_levels(dice, types), random_levels(dice, types), random_asks(dice, types, links))


def every_pair(types):
    return [("question", a, b) for a in range(types) for b in range(types)]


def cases():
    animals = [(0, 1), (0, 2), (1, 2), (3, 2)]
    yield Case(4, 4, animals, 0, (), (), every_pair(4) + [("trim", animals, 4), ("trim", animals, 6), ("nearest", 0, 3)])
    yield Case(4, 4, animals, 2, (), (), every_pair(4) + [("nearest", 1, 3), ("nearest", 2, 3)])
    yield Case(0, 0, [], 0, (), (), [("question", 0, 0), ("trim", [], 0), ("trim", [], 2), ("nearest", 0, 0), ("trim", [(0, 0)], 1)])
    yield Case(0, 3, [], 3, (), (), [("question", 0, 1), ("nearest", 1, 0)])
    yield Case(1, 1, [(0, 0)], 0, (), (), [("question", 0, 0), ("nearest", 0, 0), ("trim", [(0, 0)], 1)])
    ring = [(a, (a + 1) % 6) for a in range(6)]
    yield Case(6, 6, ring, 3, [0] * 6, [0, 1, 2, 3, 4, 5], every_pair(6) + [("nearest", 0, 5), ("trim", ring, 6)])
    last = MOST_LEVELS - 1
    chain = [(a, a + 1) for a in range(last)]
    long = [("question", 0, last), ("question", last, 0), ("question", 5, 1000), ("question", last + 1, 0), ("question", 0, last + 1)]
    yield Case(MOST_LEVELS, MOST_LEVELS, chain, 0, (), (), long)
    yield Case(MOST_LEVELS, MOST_LEVELS, chain[::-1], 3, [a // 4 for a in range(MOST_LEVELS)], [last - a for a in range(MOST_LEVELS)], long)
    yield Case(MOST_LEVELS, MOST_LEVELS, [(3, 1000), (900, 1000), (1000, 1001)], 1, [1] * MOST_LEVELS, (), [("nearest", 3, 900), ("nearest", 3, 4), ("trim", [(3, 1001), (3, 1000), (900, 1000)], 3)])
    yield Case(MOST_LEVELS + 1, MOST_LEVELS + 1, [(0, MOST_LEVELS)], 0, (), (), [("question", 0, MOST_LEVELS), ("question", MOST_LEVELS, 0)])
    yield Case(MOST_LEVELS + 1, MOST_LEVELS + 1, [], 1, [0] * (MOST_LEVELS + 1), (), [("question", 0, 1)])
    yield Case(65535, 4, [], 0, (), (), [])
    yield Case(3, 5, [(0, 1), (1, 65535), (9, 0)], 0, (), (), [])
    dice = random.Random(20)
    for _ in range(600):
        yield random_case(dice)


def main():
    script, lines = [], []
    for case in cases():
        script.append(case.script())
        lines += case.expected()
    common.deliver({"descent_cases/stdin": script, "descent_cases/stdout": lines})
    print("%d cases, %d lines" % (len(script), len(lines)))


if __name__ == "__main__":
    main()

#!/usr/bin/env python3
"""Makes the cases of crates/grammar_cases and what they should come out as, from reference/grammar.py.

    reference/make_cases.py            writes crates/grammar_cases/stdin and stdout
    reference/make_cases.py --check    says whether they are as this program makes them
"""
import random

import common
import grammar

LETTERS = b"abcXYZ_"


def word(rng, most=6):
    first = rng.choice(LETTERS)
    return bytes([first]) + bytes(rng.choice(LETTERS + b"059") for _ in range(rng.randrange(most)))


def name(rng, depth=0):
    if depth >= 10 or rng.random() < 0.6:
        return word(rng)
    arguments = b",".join(name(rng, depth + 1) for _ in range(rng.randint(1, 3)))
    return word(rng, 3) + b"[" + arguments + b"]"


def lawful_line(rng):
    kind = rng.random()
    if kind < 0.05:
        return b""
    if kind < 0.1:
        return b"#" + bytes(rng.randint(32, 126) for _ in range(rng.randrange(12)))
    line = name(rng)
    if rng.random() < 0.7:
        line += b" < " + b", ".join(name(rng) for _ in range(rng.randint(1, 4)))
    return line


def damaged(rng, line):
    for _ in range(rng.randint(1, 2)):
        at = rng.randint(0, len(line))
        byte = bytes([rng.choice(b"[],< #_a9-\t\r\0\x1f\x7f\x80\xff~ ")])
        kind = rng.randrange(4)
        if kind == 0:
            line = line[:at] + byte + line[at:]
        elif kind == 1:
            line = line[:at] + line[at + 1:]
        elif kind == 2:
            line = line[:at] + byte + line[at + 1:]
        else:
            line = line[:at]
    return line


def edge_lines():
    """Every refusal at its edge, and just inside it."""
    deep = lambda n: b"a[" * n + b"a" + b"]" * n
    yield from [b"", b"#", b"# note", b"#\x1f", b"#\x7f", b"#~", b"# ", b"A", b"_", b"9", b"A ", b"A <", b"A < ", b"A < B",
                b"A < B,", b"A < B, ", b"A < B, C", b"A < B,C", b"A<B", b"A  < B", b" A", b"A[B", b"A[]", b"A[B]]", b"A[B]", b"A[,B]",
                b"A[B,]", b"A[B,C]", b"A[B, C]", b"A[B]C", b"A[B][C]", b"]", b"A]", b"A ]", b"A < ]", b"A < B]", b"[", b"A < [",
                b"A\r", b"A\t", b"A\0", b"\0", b"A\x80", b"A[\xff", b"A < B\r", b"a[" * 9, deep(8), deep(9), b"A < " + deep(8), b"A < " + deep(9)]
    for n in (63, 64, 65, 66):
        yield b"a" * n
        yield b"A < " + b"a" * n
        yield b"A < B, " + b"a" * n + b", C"
        yield b"a" * (n - 3) + b"[b]"
        yield b"a" * (n - 3) + b"[b]" + b" < C"
        yield b"a" * (n - 2) + b"[b,"
        yield b"a" * (n - 1) + b"["
        yield b"a" * n + b"["
        yield b"a" * n + b"]"
        yield b"a" * n + b"\x07"
        yield b"a[" * 8 + b"b" * (n - 17) + b"["
        yield b"a" * n + b" < " + b"b" * n


def cases():
    rng = random.Random(20261117)
    lines = list(edge_lines())
    for _ in range(900):
        lines.append(lawful_line(rng))
    for _ in range(2200):
        lines.append(damaged(rng, lawful_line(rng)))
    for line in lines:
        line = line.replace(b"\n", b"")
        found = grammar.fault(line)
        if found:
            answer = "%d %d" % found
        else:
            answer = " ".join(["lawful"] + ["%d:%s" % (c, n.decode()) for c, n in grammar.names_of(line)])
        yield "line " + line.hex(), answer
    texts = [b"", b"\n", b"\n\n\n", b"A", b"A\n", b"A < B\n\nC", b"A\nB[\n", b"A\r\nB\n", b"A\n\n9", b"\n]"]
    for _ in range(60):
        texts.append(b"\n".join(lawful_line(rng) for _ in range(rng.randint(1, 5))))
        texts.append(b"\n".join(damaged(rng, lawful_line(rng)) for _ in range(rng.randint(1, 3))))
    pairs = [(a, b) for a in texts[:10] for b in texts[:10]]
    pairs += [(rng.choice(texts), rng.choice(texts)) for _ in range(300)]
    for shipped, own in pairs:
        refusal = grammar.check_texts(shipped, own)
        if refusal:
            number, text, line, column = refusal
            part = grammar.faulty_line(shipped, own, text, line)
            answer = "%d %d %d %d %s" % (number, text, line, column, "-" if part is None else "=" + part.hex())
        else:
            answer = "lawful"
        yield "texts =%s =%s" % (shipped.hex(), own.hex()), answer
    for shipped, own in pairs[::4]:
        for text, line in ((1, 0), (2, 0), (1, 1), (2, 2), (1, 3), (2, 9)):
            part = grammar.faulty_line(shipped, own, text, line)
            yield "at %d %d =%s =%s" % (text, line, shipped.hex(), own.hex()), "-" if part is None else "=" + part.hex()
    inputs = texts + [b"a" * 40 + b"\n" for _ in range(1)] + [b"A < B\n" * 1365, b"A < B\n" * 1365 + b"A\n", b"A < B\n" * 1365 + b"AB\n", b"A < B\n" * 1366]
    for data in inputs:
        yield "vet =" + data.hex(), grammar.vet(data).decode().replace("\n", "|")


def main():
    made = list(cases())
    common.deliver({"grammar_cases/stdin": [case for case, _ in made], "grammar_cases/stdout": [answer for _, answer in made]})
    print(len(made), "cases")


main()

"""A second program for declaration text, written from the rules in docs/ and not from the proved code.

It recognises whole lines by taking them apart, and decides whether a front can still become a line by trying
continuations. It is slow and plain on purpose.
"""
import re

WORD = re.compile(rb"[A-Za-z_][A-Za-z0-9_]*\Z")
MAX_OPEN, MAX_NAME, MAX_TEXT = 8, 64, 1_048_576


def split_outside_brackets(text, separator):
    """The parts of a text between separators that stand in no bracket."""
    parts, depth, start, i = [], 0, 0, 0
    while i < len(text):
        if text[i:i + 1] == b"[":
            depth += 1
        elif text[i:i + 1] == b"]":
            depth -= 1
        if depth == 0 and text.startswith(separator, i):
            parts.append(text[start:i])
            i += len(separator)
            start = i
            continue
        i += 1
    parts.append(text[start:])
    return parts


def is_name(text):
    if WORD.match(text):
        return True
    cut = text.find(b"[")
    if cut < 0 or not text.endswith(b"]") or not WORD.match(text[:cut]):
        return False
    return all(is_name(part) for part in split_outside_brackets(text[cut + 1:-1], b","))


def names_of(line):
    """The outermost names of a line of the grammar with their columns, or None where it is no line."""
    if line == b"":
        return []
    if line.startswith(b"#"):
        return [] if all(32 <= b <= 126 for b in line) else None
    cut = line.find(b" < ")
    if cut < 0:
        return [(1, line)] if is_name(line) else None
    if not is_name(line[:cut]):
        return None
    names, column = [(1, line[:cut])], cut + 4
    for base in line[cut + 3:].split(b", "):
        if not is_name(base):
            return None
        names.append((column, base))
        column += len(base) + 2
    return names


def viable(front):
    """Whether some continuation makes a line of the front, the limits set aside."""
    closers = b"]" * max(0, front.count(b"[") - front.count(b"]"))
    tails = [b"", b"a", b" a", b"< a", b" < a"]
    return any(names_of(front + tail + closers) is not None for tail in tails)


def open_brackets(front):
    return 0 if front.startswith(b"#") else front.count(b"[") - front.count(b"]")


def length_of_last_name(front):
    """How many bytes the outermost name has so far to which the front's last byte belongs; 0 where it belongs to none."""
    if front.startswith(b"#") or front.endswith(b" ") or front.endswith(b"<"):
        return 0
    if open_brackets(front) == 0 and front.endswith(b","):
        return 0
    return len(front) - max(front.rfind(b" ") + 1, 0)


def fault(line):
    """The number and the column of the line's refusal, or None where the line is lawful."""
    for i in range(len(line)):
        front, before = line[:i + 1], line[:i]
        admitted = viable(front)
        ninth = admitted and open_brackets(front) == MAX_OPEN + 1
        long = admitted and length_of_last_name(front) == MAX_NAME + 1
        if admitted and not ninth and not long:
            continue
        byte = line[i]
        if not 32 <= byte <= 126:
            return 2, i + 1
        if ninth or (byte == ord("]") and open_brackets(before) == 0):
            return 3, i + 1
        if long:
            return 4, i + 1
        return 5, i + 1
    if names_of(line) is None:
        return (3 if open_brackets(line) > 0 else 5), len(line) + 1
    return None


def check_texts(shipped, own):
    """The refusal of a pair of texts as number, text, line and column, or None where both are lawful."""
    for number, text in ((1, shipped), (2, own)):
        if len(text) > MAX_TEXT:
            return 1, number, 0, 0
    for number, text in ((1, shipped), (2, own)):
        for k, line in enumerate(text.split(b"\n"), 1):
            found = fault(line)
            if found:
                return found[0], number, k, found[1]
    return None


def faulty_line(shipped, own, text, line):
    lines = {1: shipped, 2: own}[text].split(b"\n")
    return lines[line - 1] if 1 <= line <= len(lines) else None


def vet(data):
    """What the program writes for an input."""
    if len(data) > 8192:
        return b"refused 1 0 0 0\n"
    refusal = check_texts(b"", data)
    if refusal:
        return b"refused %d %d %d %d\n" % refusal
    out, declarations, lines = b"", 0, 0
    for line in data.split(b"\n"):
        lines += 1
        names = [name for _, name in names_of(line)]
        if names:
            declarations += 1
            out += names[0] + (b" < " + b", ".join(names[1:]) if names[1:] else b"") + b"\n"
    return out + b"lawful: %d declarations, %d lines\n" % (declarations, lines)

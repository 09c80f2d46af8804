"""What the programs here share: closing a relation, and the files of the crates that run their cases."""

import os
import sys

CRATES = os.path.join(os.path.dirname(os.path.abspath(__file__)), "..", "crates")


def closed(rows):
    """A relation, bit b of row a saying whether a is related to b, closed by way of each middle type in turn."""
    rows = list(rows)
    for middle in range(len(rows)):
        for a in range(len(rows)):
            if rows[a] >> middle & 1:
                rows[a] |= rows[middle]
    return rows


def deliver(files):
    """Writes each file below crates/; with --check, stops at one that is not so already."""
    for name, lines in files.items():
        path, text = os.path.join(CRATES, name), "".join(line + "\n" for line in lines)
        if sys.argv[1:] == ["--check"]:
            with open(path) as file:
                if file.read() != text:
                    sys.exit("crates/%s is not what %s writes" % (name, os.path.basename(sys.argv[0])))
        else:
            with open(path, "w") as file:
                file.write(text)

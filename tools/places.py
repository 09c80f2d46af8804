#!/usr/bin/env python3
"""Lists places in src/ where an older form may stand, by point: python3 tools/places.py [COMMIT] [--list].

It goes by text alone: a line that it prints is a place to look at. With a commit it reads that commit, else the files as they
stand. docs/DESIGN-PASS.md says what each point is about.
"""
import difflib
import glob
import re
import subprocess
import sys
from collections import defaultdict


def files(commit):
    if commit is None:
        return {p: open(p).read() for p in sorted(glob.glob("crates/*/src/*.rt"))}
    names = subprocess.run(["git", "ls-tree", "-r", "--name-only", commit, "crates"], capture_output=True, text=True).stdout.split()
    names = [n for n in names if re.fullmatch(r"crates/\w+/src/\w+\.rt", n)]
    return {n: subprocess.run(["git", "show", f"{commit}:{n}"], capture_output=True, text=True).stdout for n in names}


class Function:
    def __init__(self, path, line, name, head, body):
        self.path, self.line, self.name, self.head, self.body = path, line, name, head, body
        self.crate = path.split("/")[1]
        inside = re.search(r"\((.*)\)", head.split("\n    requires")[0].split("\n    ensures")[0], re.S)
        self.params = [" ".join(p.split()) for p in re.findall(r"(\w+: (?:[^,()]|\([^)]*\))+)", inside.group(1) if inside else "")]
        self.requires = [re.sub(r"^\s*\w*\s*\{|\}\s*$", "", r).strip() for r in re.findall(r"^\s*requires (.*)$", head, re.M)]
        self.ensures = [re.sub(r"^\s*\w*\s*\{|\}\s*$", "", r).strip() for r in re.findall(r"^\s*ensures (.*)$", head, re.M)]


def functions(path, text):
    for m in re.finditer(r"^( *)(?:pub(?:\(crate\))? )?fn (\w+)", text, re.M):
        end = text.find("\n" + m.group(1) + "{", m.start())
        same = re.compile(r"\{(\}?)\n|\{\}").search(text, m.start())
        first_line = text[m.start():text.find("\n", m.start())]
        if first_line.rstrip().endswith("{"):
            start = m.start() + len(first_line) - 1
        elif end != -1 and (";\n" not in text[m.start():end]):
            start = end
        elif same:
            start = same.start()
        else:
            continue
        close = text.find("\n" + m.group(1) + "}", start)
        body = text[start:close] if close != -1 and not text[start:].lstrip("\n ").startswith("{}") else ""
        yield Function(path, text.count("\n", 0, m.start()) + 1, m.group(2), text[m.start():start], body)


def lines(sources, pattern, flags=0):
    for path, text in sources.items():
        for m in re.finditer(pattern, text, re.M | flags):
            yield f"{path}:{text.count(chr(10), 0, m.start()) + 1}: {m.group(0).strip().splitlines()[0]}"


def shape(body):
    body = re.sub(r"//.*", "", body)
    body = re.sub(r'b?"[^"]*"|b?\'[^\']+\'', "s", body)
    keep = "for|in|if|else|match|return|let|mut|while|loop|as|Ok|Err|Some|None"
    return [t if re.fullmatch(keep, t) or not re.match(r"\w", t) else ("n" if t[0].isdigit() else "i") for t in re.findall(r"\w+|[^\w\s]", body)]


def twins(funs):
    shapes = [(f, shape(f.body)) for f in funs if len(shape(f.body)) >= 20]
    for i, (f, s) in enumerate(shapes):
        for g, t in shapes[i + 1:]:
            if min(len(s), len(t)) / max(len(s), len(t)) < 0.75:
                continue
            ratio = difflib.SequenceMatcher(None, s, t, autojunk=False).ratio()
            if ratio >= 0.9:
                yield f"{f.path}:{f.line}: {f.name} ~ {g.path}:{g.line}: {g.name} ({ratio:.2f})"


def counted(funs):
    for f in funs:
        for m in re.finditer(r"for (\w+) in [^{\n]*\.\.[^{\n]*\{", f.body):
            rest = f.body[m.end():]
            if re.search(rf"\[[^\]]*\b{m.group(1)}\b[^\]]*\]", rest):
                yield f"{f.path}:{f.line}: {f.name}: for {m.group(1)} over a range, as an index"
        for m in re.finditer(r"\bwhile (?!let)[^{]*\{", f.body):
            yield f"{f.path}:{f.line}: {f.name}: {m.group(0).strip()}"
        for m in re.finditer(r"(\w+) \+= 1;|(\w+) = \2\.(?:saturating|wrapping)_add\(1\);", f.body):
            yield f"{f.path}:{f.line}: {f.name}: {m.group(0)}"


def bare(text):
    return re.sub(r"\.(old|new|now|entry|exit)\b", "", re.sub(r"'\w+ ", "", text))


def repeated(funs):
    clauses, facts, groups = defaultdict(set), defaultdict(set), {}
    for f in funs:
        for r in f.requires:
            clauses[f.crate, bare(r)].add((f.path, f.name))
        for e in f.ensures:
            facts[f.crate, e].add((f.path, f.name))
    for kind, table in (("requires", clauses), ("ensures", facts)):
        for (crate, what), where in sorted(table.items()):
            if len(where) >= 3:
                yield f"{crate}: {kind} {what}: {len(where)} functions"
    by_crate = defaultdict(list)
    for f in funs:
        plain = {bare(p).replace("&mut ", "&") for p in f.params} - {"heap: Global", "rt: &HostRuntime"}
        if len(plain) >= 2:
            by_crate[f.crate].append(frozenset(plain))
    for crate, sets in sorted(by_crate.items()):
        shared = {a & b for a in sets for b in sets if a is not b and len(a & b) >= 2}
        often = {s for s in shared if sum(s <= t for t in sets) >= 3}
        for s in sorted(often - {a for a in often for b in often if a < b}, key=sorted):
            yield f"{crate}: parameters {', '.join(sorted(s))}: {sum(s <= t for t in sets)} functions"


def main():
    args = [a for a in sys.argv[1:] if a != "--list"]
    sources = files(args[0] if args else None)
    funs = [f for p, t in sources.items() for f in functions(p, t)]
    named = lambda pattern: [f"{f.path}:{f.line}: {f.name}" for f in funs if re.fullmatch(pattern, f.name)]
    points = [
        ("1 constants for none", lines(sources, r"^.*const \w+: u\d+ = (65535|u16::MAX);")),
        ("1 comments that let a value stand for none", lines(sources, r"^\s*//.*(\b0 where|where there is none|stands for none|for none\b|for a chain that|for the chain of a|for a type that has no).*$")),
        ("1 flags", lines(sources, r"let mut \w+ = (true|false);")),
        ("1 results and fields u8", lines(sources, r"(\) -> u8$|^\s*(pub )?\w+: u8,$|\bwhich: u8)")),
        ("1 an error taken apart to be handed on", lines(sources, r"Err\(\w+\) => (return )?Err\(|\.is_err\(\)|Err\(_\) => unreachable\(\)")),
        ("2 functions of one shape", twins(funs)),
        ("3 counted loops", counted(funs)),
        ("4 comparisons and conversions by hand", named(r"same_\w+|is|keyword_of|sizes_of|stub_of|copy_of|settled_by|without_place|refused\w*|shown?_\w+|say_\w+|occurs|is_known|is_linked")),
        ("5 facts and parameters that repeat", repeated(funs)),
        ("6 a length or an index kept beside", lines(sources, r"^\s*(pub(\(crate\))? )?(count|used|at|next|room): (usize|u16|u32),|= \[0; .*\]|let mut (next|at|place) = 0\w*;")),
        ("7 switches on a step", lines(sources, r"match (word|words\.next\(\)|shape|numbers\.next\(\)\?|number)\b.*\{|\bdyn |: fn\(")),
    ]
    for title, found in points:
        found = list(found)
        print(f"{title}: {len(found)}")
        if "--list" in sys.argv:
            for line in found:
                print("    " + line)
    print(f"functions read: {len(funs)}")


main()

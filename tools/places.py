#!/usr/bin/env python3
"""Lists the places in crates/*/src at which an older form of the language may stand, by the points of docs/DESIGN-PASS.md.

    python3 tools/places.py            the counts, a line for each kind of place
    python3 tools/places.py list       each place, with its file and function
    python3 tools/places.py list KIND  the places of one kind

It reads text alone: a place is a place to look at, and says nothing about whether the form there is wrong.
"""
import collections
import glob
import re
import sys


class Function:
    def __init__(self, path, line, name, head, body):
        self.path, self.line, self.name, self.head, self.body = path, line, name, head, body

    def where(self):
        return f"{self.path}:{self.line} {self.name}"


def functions(path):
    """The functions of a file: the head runs to the line of the body's brace, the body to the brace that closes it."""
    lines = open(path).read().split("\n")
    at = 0
    while at < len(lines):
        found = re.match(r"(\s*)(?:pub(?:\(crate\))? )?(?:const )?fn (\w+)", lines[at])
        if not found:
            at += 1
            continue
        indent, start = found.group(1), at
        opening = at
        while opening < len(lines) and lines[opening] != indent + "{":
            if lines[opening].rstrip().endswith("{") and not re.search(r"\b(requires|ensures|ghost)\b", lines[opening]):
                break
            if lines[opening].rstrip().endswith(";"):
                break
            opening += 1
        if opening >= len(lines) or lines[opening].rstrip().endswith(";"):
            at = start + 1
            continue
        closing = opening + 1
        while closing < len(lines) and lines[closing] != indent + "}":
            closing += 1
        yield Function(path, start + 1, found.group(2), "\n".join(lines[start:opening + 1]), "\n".join(lines[opening + 1:closing]))
        at = start + 1 if closing >= len(lines) else closing


def shape(body):
    """A body with each name and number replaced, so that bodies alike but for these are the same."""
    body = re.sub(r"//.*", "", body)
    words = re.findall(r"\w+|[^\w\s]", body)
    keep = {"for", "in", "if", "else", "let", "mut", "match", "return", "while", "true", "false", "Some", "None", "Ok", "Err", "as"}
    return " ".join(w if w in keep or not re.match(r"\w", w) else "_" for w in words)


def parameters(head):
    found = re.search(r"fn \w+(?:<.*?>)?\((.*?)\)\s*(?:->|\n|\{|$)", head, re.S)
    return [] if not found else [re.sub(r"\s+", " ", p).strip() for p in re.split(r",(?![^<\[(]*[>\])])", found.group(1)) if ":" in p]


def clauses(head):
    return [re.sub(r"\s+", " ", c).strip() for c in re.findall(r"requires(?: \w+)? \{(.*)\}", head)]


def main():
    kinds = collections.OrderedDict()

    def add(kind, where):
        kinds.setdefault(kind, []).append(where)

    names = ["1 result the wrong way round", "1 an answer taken apart and put together", "1 a number for a kind", "2 bodies of one shape",
             "3 counted loop", "3 other while", "4 conversion or printing by hand", "5 the same requirement in three or more",
             "5 parameters that travel together", "6 array with a count, or arrays side by side", "7 a switch on a step"]
    for name in names:
        kinds[name] = []
    everything = [f for path in sorted(glob.glob("crates/*/src/**/*.rt", recursive=True)) for f in functions(path)]
    for f in everything:
        if "-> Option<Fault>" in f.head:
            add(names[0], f.where())
        for _ in re.finditer(r"if let Some\((\w+)\) = [^{]*\{\s*return Some\(\1\);|Err\((\w+)\) => Err\(|Ok\((\w+)\) => Ok\(|Ok\(_\) => Ok\(\(\)\)", f.body):
            add(names[1], f.where())
        for p in parameters(f.head):
            if re.match(r"(relation|sort|mark|sorts|layer|cause): u(8|32)$", p):
                add(names[2], f"{f.where()} ({p})")
        for loop in re.finditer(r"for (\w+) in [^{\n]*\.\.[^{\n]*\{", f.body):
            add(names[4], f"{f.where()} ({loop.group(0)[:-2]})")
        for loop in re.finditer(r"while [^{\n]*\{", f.body):
            add(names[5], f"{f.where()} ({loop.group(0)[:-2]})")
        if re.search(r"match self \{\s*\w+::\w+ => (\"|')", f.body) or f.name in ("of", "number", "layer_number", "one_if") or re.search(r"match \w+ \{\s*(\w+::\w+|\d+) => (\"|b'|Some\(\w+::\w+\))", f.body):
            add(names[6], f.where())
    for path in sorted(glob.glob("crates/*/src/**/*.rt", recursive=True)):
        text = open(path).read()
        for s in re.finditer(r"(struct \w+)[^{;]*\{(.*?)\n\}", text, re.S):
            fields = re.findall(r"^\s*(?:pub(?:\(crate\))? )?(\w+): (.*),$", s.group(2), re.M)
            for field, kind in fields:
                if re.match(r"(relation|sort|mark|sorts): (u8|u32|\[u8; ?\d+\])$", f"{field}: {kind}"):
                    add(names[2], f"{path} {s.group(1)}.{field}")
            arrays = [f for f, k in fields if k.startswith("[") or k in ("Column", "Row")]
            counts = [f for f, k in fields if f in ("steps", "count", "events", "left", "at") and k in ("usize", "u32")]
            if arrays and (counts or len(arrays) > 1):
                add(names[9], f"{path} {s.group(1)} ({', '.join(arrays + counts)})")
    shapes = collections.defaultdict(list)
    for f in everything:
        if len(shape(f.body).split()) >= 18:
            shapes[shape(f.body)].append(f)
    for group in shapes.values():
        if len(group) > 1:
            add(names[3], "; ".join(f.where() for f in group))
    required, together = collections.defaultdict(list), collections.defaultdict(list)
    for f in everything:
        for c in clauses(f.head):
            required[c].append(f)
        ps = parameters(f.head)
        for i in range(len(ps)):
            for j in range(i + 1, len(ps)):
                together[(f.path.split("/")[1], frozenset((ps[i].split(":")[0], ps[j].split(":")[0])))].append(f)
    for c, group in required.items():
        if len(group) >= 3:
            add(names[7], f"{{ {c} }}: " + "; ".join(f.where() for f in group))
    for (crate, pair), group in together.items():
        if len(group) >= 4:
            add(names[8], f"{crate}: {' and '.join(sorted(pair))} in {len(group)} functions")
    for f in everything:
        found = re.search(r"match (?:self\.)?(\w+) \{((?:\s*(?:\w+::)?\w+(?:\([^)]*\))? => [^\n]*\n)+)", f.body)
        if found and len(re.findall(r"=> \w+\(", found.group(2))) >= 3:
            add(names[10], f.where())
    wanted = sys.argv[2:] if sys.argv[1:2] == ["list"] else None
    for kind, places in kinds.items():
        if wanted is None or not wanted or any(kind.startswith(w) for w in wanted):
            print(f"{len(places):4} {kind}")
            if wanted is not None:
                for place in places:
                    print("       " + place)


main()

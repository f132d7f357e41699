#!/usr/bin/env python3
"""Spells the repository's own definitions and lemmas as Rattle's library does: words in snake case, types in camel case.

Run once at the top of the repository, after the kit's port.py. It goes by text, in three steps:

1. It gathers the names with a dash that specs/ and proofs/ define: definitions, lemmas, fields, constructors, local names.
   A name that is imported from another library keeps its spelling.
2. It respells them in specs/, proofs/ and the ghost text of src/ (clauses, ghost fields, `ghost use` lines). Comments, strings
   and code stay as they are; a name between back quotes in docs/ and README.md is respelled, too.
3. The names that Rattle makes for goals and steps keep their dashes, and hold the names of src/ as they are spelled there:
   `if-is_lock`, `loop-i-test`, `overflow_add-sum`.

It prints the names that would fall together, and then writes nothing.
"""
import collections
import glob
import re
import sys

NAME = r"[^\s(){}\[\].;,λ→«»|\"`∀⌜⌝]+"
TOKEN = re.compile(NAME)
OWN = {line.split(":")[0].strip() for line in open("crates.txt") if line.strip() and not line.startswith("#")}
ANTT = sorted(glob.glob("crates/*/specs/**/*.antt", recursive=True) + glob.glob("crates/*/proofs/**/*.antt", recursive=True))
RT = sorted(glob.glob("crates/*/src/**/*.rt", recursive=True))
# not the pages on the case text and on the case files, whose words keep their dashes
PAGES = sorted(set(glob.glob("docs/*.md") + ["README.md"]) - {"docs/FORMAT.md", "docs/CASES.md"})
DASHED = re.compile(r"^[^\W\d_][\w']*(-[\w'≢≡<>]+)+$")

# words of Rattle's own in the names that it makes, old and new
MADE = [
    ("overflow-add", "overflow_add"), ("overflow-sub", "overflow_sub"), ("overflow-mul", "overflow_mul"),
    ("overflow-shl", "overflow_shl"), ("overflow-shr", "overflow_shr"), ("overflow-cast", "overflow_cast"),
    ("overflow-step", "overflow_step"), ("overflow-neg", "overflow_neg"),
    ("nonzero-div", "nonzero_div"), ("nonzero-rem", "nonzero_rem"),
    ("slice-bounds", "slice_bounds"), ("offset-bounds", "offset_bounds"),
    ("in-ok", "in_ok"), ("in-err", "in_err"), ("in-default", "in_default"), ("type-inv", "type_inv"),
    ("from-residual", "from_residual"), ("invariant-of", "invariant_of"),
]


def is_proof_of_a_function(path):
    return path.endswith(("/Answers.antt", "/Invariants.antt"))


def crate_of(path):
    return path.split("/")[1]


def code_parts(text, comment):
    """The text as pieces, each with whether it is neither a comment nor a string."""
    return [(piece, not (piece.startswith(comment) or piece.startswith('"')))
            for piece in re.split(r"(" + re.escape(comment) + r"(?: |$|-)[^\n]*|\"[^\"\n]*\")", text, flags=re.M) if piece]


def snake(name, is_type):
    if is_type:
        return "".join(part[:1].upper() + part[1:] for part in name.split("-"))
    return name.replace("-", "_")


def gather():
    """The dashed names that are defined here, those that are another library's, and the types."""
    defined, foreign, types = collections.defaultdict(set), set(), set()
    for path in ANTT:
        text = open(path).read()
        for module, names in re.findall(r"use ([^\s{]+)\.\{([^}]*)\}", text):
            parts = module.split(".")
            ours = parts[0] == "Rattle" and parts[1] in OWN
            for name in names.split(","):
                name = name.strip().split(" as ")[0]
                if DASHED.match(name) and not ours:
                    foreign.add(name)
        for piece, is_code in code_parts(text, "--"):
            if not is_code:
                continue
            for line in piece.split("\n"):
                m = re.match(r"\s*(?:pub |abbrev |unfoldable |record |data )*(" + NAME + r")(?: \(.*\))?\s*:(?: |$)(.*)", line)
                if m and DASHED.match(m.group(1)):
                    if is_proof_of_a_function(path) and m.group(2).startswith("goal."):
                        continue
                    defined[m.group(1)].add(path)
                    if m.group(1)[0].isupper():
                        types.add(m.group(1))
    # a name that a file gives to what it imports
    for path in ANTT + RT:
        for name in re.findall(r" as (" + NAME + r")", open(path).read()):
            if DASHED.match(name) and name not in foreign:
                defined[name].add(path)
    return defined, foreign, types


def source_names(crate):
    """The names in a crate's source that have an underscore, with dashes instead, longest first."""
    names = set()
    for path in RT:
        if crate_of(path) != crate:
            continue
        for word in re.findall(r"\b[A-Za-z][A-Za-z0-9]*(?:_[A-Za-z0-9]+)+\b", open(path).read()):
            names.add(word)
    return sorted(((n.replace("_", "-"), n) for n in names), key=lambda p: -len(p[0]))


def made(token, sources):
    """A name that Rattle makes."""
    for old, new in MADE:
        token = re.sub(r"(^|-)" + old + r"(?=-|$)", r"\1" + new, token)
    for old, new in sources:
        if old in token:
            token = re.sub(r"(^|-)" + re.escape(old) + r"(?=-|$)", r"\1" + new, token)
    return token


# the beginnings and ends of names that Rattle makes for steps and facts
STEP = re.compile(r"^(if|loop|then|else|in|in_ok|in_err|in_default|the|open|returns|invariant|decreases|requires|ensures|overflow|nonzero|bounds|slice|match|type|join|index|prove|field|var)-"
                  r"|-(is|index|end|test|requires|init|preserved|smaller|items|iterator|item)$|-\d+$")


def main():
    defined, foreign, types = gather()
    sources = {crate: source_names(crate) for crate in OWN}
    mine = {n: snake(n, n in types) for n in defined if n not in foreign}
    # a local name that nothing declares by a signature: a variable of a λ, of a clause or of a let
    used = collections.Counter()
    for path in ANTT:
        if is_proof_of_a_function(path):
            continue
        for piece, is_code in code_parts(open(path).read(), "--"):
            if is_code:
                for token in TOKEN.findall(piece):
                    if DASHED.match(token):
                        used[token] += 1
    for token in used:
        if token not in mine and token not in foreign:
            mine[token] = token if STEP.search(token) else snake(token, token[0].isupper())
    # the bits of a word's `&` and `|`: these lemmas would have the library's names of the operations
    mine.update({"bit-and": "bit-bit_and", "bit-or": "bit-bit_or"})
    # names that fall together
    taken = collections.defaultdict(set)
    for path in ANTT + RT:
        for token in TOKEN.findall(open(path).read()):
            if "_" in token:
                taken[token].add(path)
    clashes = 0
    seen = collections.defaultdict(list)
    for old, new in mine.items():
        seen[new].append(old)
    for new, olds in sorted(seen.items()):
        if len(olds) > 1:
            print("fall together:", olds, new)
            clashes += 1
        if new in taken:
            where = sorted(p for p in taken[new])
            print("there already:", new, where[:4])
    hidden(mine)
    if "--write" not in sys.argv:
        return
    for path in ANTT:
        text = open(path).read()
        out = []
        answers = is_proof_of_a_function(path)
        goals = set(re.findall(r"(?m)^(?:pub |abbrev )*(" + NAME + r") : goal\.", text))
        for piece, is_code in code_parts(text, "--"):
            if is_code and answers:
                piece = TOKEN.sub(lambda m: in_answers(m, goals, mine, foreign, sources[crate_of(path)]), piece)
            elif is_code:
                piece = TOKEN.sub(lambda m: mine.get(m.group(0), m.group(0)) if DASHED.match(m.group(0)) else m.group(0), piece)
            out.append(piece)
        new = "".join(out)
        if new != text:
            open(path, "w").write(new)
    for path in RT:
        text = open(path).read()
        new = ghosts(text, mine)
        if new != text:
            open(path, "w").write(new)
    for path in PAGES:
        text = open(path).read()
        new = re.sub(r"`([^`\n]*)`", lambda m: "`" + TOKEN.sub(lambda t: mine[t.group(0)] if t.group(0) in defined and t.group(0) in mine else t.group(0), m.group(1)) + "`", text)
        if new != text:
            open(path, "w").write(new)


def in_answers(match, goals, mine, foreign, sources):
    """A name in the answers or invariants of a function, where names of Rattle's own stand beside ours."""
    token = match.group(0)
    if not DASHED.match(token):
        return token
    projected = match.start() > 0 and match.string[match.start() - 1] == "."
    if token in goals:
        return made(token, sources)
    if projected:
        ours = token in mine and (token in {"in-first", "in-second"} or not STEP.search(token))
        return mine[token] if ours else made(token, sources)
    if token in mine:
        return mine[token]
    if token in foreign:
        return token
    return made(token, sources) if STEP.search(token) else token.replace("-", "_")


def hidden(mine):
    """Prints the parameters that would hide a respelled name in their function's clauses."""
    new = set(mine.values())
    for path in RT:
        text = open(path).read()
        for m in re.finditer(r"\bfn (\w+)[^(]*\(([^{]*?)\)[^{;]*?((?:\s*(?:requires|ensures)\*?[^\n]*\n)+)", text):
            params = set(re.findall(r"(\w+):", m.group(2)))
            words = {mine.get(t, t) for t in TOKEN.findall(m.group(3))}
            both = {p for p in params & new if any(mine.get(t) == p for t in TOKEN.findall(m.group(3)))}
            if both:
                print("hidden by a parameter:", path, m.group(1), both)


def ghosts(text, mine):
    """The ghost text of a source file: `ghost use` lines, clauses, ghost members and fields."""
    out, at = [], 0
    for m in re.finditer(r"(?m)^\s*ghost use [^;]*;|\b(?:requires|ensures)\*?(?: \w+)? \{|\bghost (?:invariant )?\w+: \{|\bghost \w+ = \{", text):
        if m.start() < at:
            continue
        end = m.end()
        if m.group(0).rstrip().endswith("{"):
            depth = 1
            while depth:
                depth += {"{": 1, "}": -1}.get(text[end], 0)
                end += 1
        out.append(text[at:m.start()])
        out.append(TOKEN.sub(lambda t: mine.get(t.group(0), t.group(0)) if DASHED.match(t.group(0)) else t.group(0), text[m.start():end]))
        at = end
    out.append(text[at:])
    return "".join(out)


if __name__ == "__main__":
    main()

#!/usr/bin/env python3
"""Lists places in src/ that an older form of the language may have shaped: python3 tools/places.py [ROOT] [--all]

For each point a line with the number of places; with --all each place behind it. A place is only one to look at:
docs/DESIGN-PASS.md says of each what became of it. Comments, ghost imports and tests are passed over.
"""
import collections
import itertools
import pathlib
import re
import sys

root = pathlib.Path(next((a for a in sys.argv[1:] if not a.startswith("--")), "."))
show = "--all" in sys.argv

CLAUSE = re.compile(r"^\s*(requires|ensures)\b")
SIGNATURE = re.compile(r"\bfn\s+(\w+)[^(]*\(([^)]*)\)")


def lines(path):
    for number, line in enumerate(path.read_text().splitlines(), 1):
        text = line.strip()
        if text and not text.startswith(("//", "ghost use", "use ")):
            yield number, text


def grep(pattern, clauses=False):
    found = []
    for path in sources:
        for number, text in lines(path):
            if bool(CLAUSE.match(text)) == clauses and re.search(pattern, text):
                found.append(f"{path.relative_to(root)}:{number}: {text}")
    return found


def functions():
    """Each function as its file, its name and its parameters, a list of names with their types."""
    for path in sources:
        text = "\n".join(t for _, t in lines(path) if not CLAUSE.match(t))
        for found in SIGNATURE.finditer(text):
            parts = [p.strip() for p in re.split(r",(?![^<\[]*[>\]])", found.group(2)) if p.strip()]
            yield path, found.group(1), [re.sub(r"\s+", " ", p) for p in parts if p.split()[-1] != "self"]


def twins():
    """Functions of one name in different files or types, but for names that any type may have."""
    places = collections.defaultdict(list)
    for path, name, _ in functions():
        if name not in ("main", "run", "new", "fmt"):
            places[name].append(str(path.relative_to(root)))
    return [f"fn {name}: {', '.join(where)}" for name, where in sorted(places.items()) if len(where) > 1]


def repeated_facts():
    """Clauses that stand in three contracts or more, but for the name of the parameter that they speak of."""
    places = collections.Counter()
    for path in sources:
        for _, text in lines(path):
            if CLAUSE.match(text):
                body = re.sub(r"^\w+\s*\w*\s*\{(.*)\}$", r"\1", text)
                places[re.sub(r"\b(a|b|c|x|y|z|p|q)\b", "_", body)] += 1
    return [f"{count} times: {body.strip()}" for body, count in places.most_common() if count >= 3]


def travelling():
    """Two parameters, name and type, that three functions or more take, and no function takes one alone in more cases than both."""
    alone, both = collections.Counter(), collections.Counter()
    for _, _, parameters in functions():
        known = sorted(set(p for p in parameters if ":" in p and not re.search(r"HostRuntime|Formatter", p)))
        alone.update(known)
        both.update(itertools.combinations(known, 2))
    return [f"{count} times: {a}, {b}" for (a, b), count in both.most_common()
            if count >= 3 and count * 2 >= max(alone[a], alone[b])]


sources = sorted(root.glob("crates/*/src/**/*.rt"))
points = [
    ("1 enums, flags, codes", grep(r"\benum \w|fn .*-> u8\b|-> Option<(usize|WriteError)>|Result<(bool|Option<)|^pub \w+: (bool|u8),|^\w+: u8,$|\b(width|missing) (==|>) 0|from_number")),
    ("2 twins", twins()),
    ("3 loops", grep(r"\bwhile\b|^('\w+: )?for |\bloop\b")),
    ("4 conversions, printing", grep(r"\bimpl\b.*\b(From|TryFrom|Display|PartialEq|Eq|PartialOrd|Ord|Clone|Default)\b.* for |from_number|\bas (u8|u16|u32|u64|usize|i32|i64|u128)\b|fn (number|place|reason|power|hex_\w+|decimal)\b")),
    ("5a facts in three contracts or more", repeated_facts()),
    ("5b parameters that travel together", travelling()),
    ("6 buffers and indices", grep(r"\[[^\]]*\.\.[^\]]*\]|^pub \w+: usize,|: usize\)|\bchunks|Vec<u8>")),
    ("7 steps chosen, functions passed", grep(r"\bdyn\b|: fn\(|Box<|\bFn(Mut|Once)?\(|match (command|step|self\.kind)")),
]
for name, found in points:
    print(f"point {name}: {len(found)}")
    if show:
        for place in found:
            print(f"    {place}")
proofs = list(root.glob("crates/*/proofs/**/Answers.antt"))
lemmas = [p for p in root.glob("crates/*/proofs/*.antt") if p.name != "Lib.antt"]
count = lambda paths: sum(len(p.read_text().splitlines()) for p in paths)
print(f"point 8 proofs: {len(proofs)} files of answers, {count(proofs)} lines; {len(lemmas)} files of lemmas, {count(lemmas)} lines")

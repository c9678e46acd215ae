#!/usr/bin/env python3
"""Brings this repository's own names in specs/, proofs/ and clauses to today's spelling.

usage: python3 tools/respell.py      at the top of the repository, once, right behind the toolchain's port.py

Types, and definitions that give a type, get upper camel case; every other definition, lemma, field and constructor gets snake case.
Names that the checker makes (goals, invariants, measures, steps) and names of the source keep their spelling.
It prints what it renamed and stops, with nothing changed, where two names would fall together.
"""

import glob
import re
import sys

HEAD = re.compile(r"^(\s*)(?:(?:abbrev|unfoldable)\s+)*(?:pub\s+)?(data\s+|record\s+)?([^\s(){}\[\];,.:]+)\s*(?::|\(|\{)(.*)$")
TOKEN = re.compile(r"[^\s(){}\[\];,.`\"«»@]+")
WORDS = {"use", "where", "let", "in", "if", "then", "case", "module", "mod", "pub"}
# These would get the name of a function of the source.
CHOSEN = {"in-sight": "is_in_sight", "both-sides": "both_sides_lem", "put-dot": "put_dot_lem"}


def camel(name):
    return "".join(w[:1].upper() + w[1:] for w in re.split("[-_]", name) if w)


def result(lines, i, rest):
    """The type that the head on line i gives, with its further lines."""
    text = rest
    for line in lines[i + 1:i + 12]:
        if not line.startswith("    ") or "=" in line.split(":")[0]:
            break
        text += " " + line.strip()
    return text.strip()


def collect(files):
    names = {}
    for path in files:
        with open(path, encoding="utf-8") as f:
            lines = f.read().split("\n")
        for i, line in enumerate(lines):
            m = HEAD.match(line)
            if not m or line.lstrip().startswith("--"):
                continue
            _, kind, name, rest = m.groups()
            if "-" not in name.strip("-") or name in WORDS or "◌" in name or name.startswith("invariant-") or name.startswith("decreases-"):
                continue
            if ":" not in line:
                continue
            if re.match(r"\s*goal\.", rest):
                continue
            text = result(lines, i, rest)
            is_type = bool(kind) or name[0].isupper() or text.endswith("Type 0") or text.endswith("Type 0 where")
            names[name] = CHOSEN.get(name) or (camel(name) if is_type else name.replace("-", "_"))
    return names


def plain_types(files):
    """Definitions that give a type and have a plain word in lower case for a name."""
    names = {}
    for path in files:
        with open(path, encoding="utf-8") as f:
            for line in f:
                m = re.match(r"^(?:abbrev|unfoldable)\s+pub\s+([a-z]+)\s*:.*\u2192 Type 0$", line.rstrip())
                if m:
                    names[m.group(1)] = camel(m.group(1))
    return names


def main():
    antt = sorted(glob.glob("crates/*/specs/**/*.antt", recursive=True) + glob.glob("crates/*/proofs/**/*.antt", recursive=True))
    rt = sorted(glob.glob("crates/*/src/**/*.rt", recursive=True))
    edits = sorted(glob.glob("crates/*/must-fail/*.edit"))
    pages = sorted(glob.glob("docs/*.md") + glob.glob("*.md"))
    names = collect(antt)
    seen = set()
    for path in antt + rt:
        with open(path, encoding="utf-8") as f:
            text = f.read()
        seen |= set(TOKEN.findall(text))
    back = {}
    clash = False
    for old, new in sorted(names.items()):
        if new in back or new in seen:
            print(f"falls together: {old} -> {new}" + (f", also {back[new]}" if new in back else ", which is there"), file=sys.stderr)
            clash = True
        back[new] = old
    if clash:
        raise SystemExit(2)
    for old, new in sorted(names.items()):
        print(f"{old} -> {new}")
    plain = plain_types(antt)
    for old, new in sorted(plain.items()):
        print(f"{old} -> {new}")
    both = names | plain

    def swap(m):
        return names.get(m.group(0), m.group(0))

    def swap_both(m):
        return both.get(m.group(0), m.group(0))

    for path in antt + rt + edits + pages:
        with open(path, encoding="utf-8") as f:
            old = f.read()
        if path.endswith(".edit"):
            new = "\n".join(line if line.startswith("file:") else TOKEN.sub(swap, line) for line in old.split("\n"))
        elif path.endswith(".md"):
            new = re.sub(r"`[^`\n]*`", lambda m: TOKEN.sub(swap, m.group(0)), old)
        elif path.endswith(".rt"):
            clause = re.compile(r"^\s*(ghost|requires|ensures)\b")
            new = "\n".join(TOKEN.sub(swap_both if clause.match(line) else swap, line) for line in old.split("\n"))
        else:
            new = "\n".join(line if line.lstrip().startswith("--") else TOKEN.sub(swap_both, line) for line in old.split("\n"))
            new = "\n".join(TOKEN.sub(swap, line) for line in new.split("\n"))
        if new != old:
            with open(path, "w", encoding="utf-8") as f:
                f.write(new)


if __name__ == "__main__":
    main()

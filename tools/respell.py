#!/usr/bin/env python3
"""Brings the names of this repository's definitions, lemmas and record fields to the kit's spelling: words in snake case.

usage: python3 tools/respell.py            at the top, once, right after the kit's port.py

A definition in lower camel case and a lemma or field with dashes get underscores: `setOf` -> `set_of`, `any-more` -> `any_more`.
Types and modules stay in camel case; functions of src/, exported names, strings, inputs and outputs stay as they are. A lemma that
would get the name of a definition gets `_lem` behind it. What a file imports from another library keeps its spelling there.
The answers in proof files are named after goals, so names that begin as the kit names goals are left alone.
In README.md and docs/ the names that stand between backquotes are turned too.
"""
import collections
import os
import re

WORD = r"A-Za-z0-9_'\-₀-₉ℕℤ≤<≡"
TOKEN = re.compile(rf"(?<![{WORD}·])([a-z][{WORD}]*)(?![{WORD}])")
DEF = re.compile(r"^(\s*)((?:(?:abbrev|unfoldable|pub) )*)([^\s:(){}]+) :\s*(.*)$")
LOCAL = re.compile(rf"(?:\blet |λ \(|\()([a-z][{WORD}]*-[{WORD}]*) ?[:=]")
KEEP = re.compile(r"^(tie\.)?(Need-|loop-|returns|invariant-|decreases-)")

# a lemma whose name would fall together with a definition's
LEMMAS = [
    "strip-kept", "joined-on", "number-after", "table-in", "grid-of", "no-ceiling", "run-over", "misses-over", "no-entry", "size-next", "answer-after",
    "count-over", "b-most", "s-most", "write-at", "raised-groups", "five-of-eight", "top-over", "over-at", "no-ratios", "cache-form", "refusal-form",
    "column-form", "head-form", "line-over", "none-form", "sums-form", "choice-form", "lines-from", "ways-at", "after-end",
]

# names that the kit's script has turned already, and that would fall together with a definition's in these crates
TURNED = {
    "lines": ["too_long", "is_read"], "taking": ["full_at"], "claims": ["full_at"], "tables": ["head_in", "rows_in", "rows_fit", "in_place"],
    "printing": ["rows_fit"],
}


def snake(name):
    name = name.replace("-", "_")
    return re.sub(r"([a-z0-9])([A-Z])", lambda m: m.group(1) + "_" + m.group(2).lower(), name)


def files(suffixes):
    for folder, dirs, names in os.walk("crates"):
        dirs[:] = sorted(d for d in dirs if d != "out")
        for name in sorted(names):
            if name.endswith(suffixes):
                yield os.path.join(folder, name)


def read(path):
    with open(path, encoding="utf-8") as f:
        return f.read()


def defined():
    """The names that the files of specs/ and proofs/ define, locals of lemmas among them."""
    names = collections.Counter()
    for path in files((".antt",)):
        answers = path.endswith("Proof.antt")
        for line in read(path).split("\n"):
            if line.lstrip().startswith("--"):
                continue
            m = DEF.match(line)
            if m and not (answers and "tie.Need-" in line):
                names[m.group(3)] += 1
            for local in LOCAL.findall(line):
                names[local] += 1
    return names


def renames():
    out = {}
    for name in defined():
        if not name[0].islower() or KEEP.match(name) or not re.fullmatch(rf"[{WORD}]+", name):
            continue
        if "-" in name or re.search(r"[a-z0-9][A-Z]", name):
            out[name] = snake(name) + ("_lem" if name in LEMMAS else "")
    return out


def imported(text):
    """Names that a file has from other libraries: they stay."""
    names = set()
    for m in re.finditer(r"use ([\w.\-+◌·]+?)\.\{([^}]*)\}", text):
        if not m.group(1).startswith("Rattle.") or m.group(1).startswith(("Rattle.std.", "Rattle.io.", "Rattle.libc.", "Rattle.core.")):
            names |= {w.strip().split(" ")[0] for w in m.group(2).split(",")}
    return names


def turn(text, table, answers):
    keep = imported(text)
    out = []
    for line in text.split("\n"):
        goal = answers and (m := DEF.match(line)) and "tie.Need-" in line

        def one(m, goal=goal):
            name = m.group(1)
            if name in keep or name not in table:
                return name
            before = line[: m.start()]
            if before.endswith("tie.") or before.endswith("goal."):
                return name
            return table[name]

        out.append(TOKEN.sub(one, line))
    return "\n".join(out)


def main():
    table = renames()
    for path in files((".antt", ".rt")):
        text = read(path)
        new = text
        for name in TURNED.get(path.split(os.sep)[1], []) if path.endswith(".antt") else []:
            new = re.sub(rf"(?<![{WORD}])(?<!Opened\.){name}(?![{WORD}])", name + "_lem", new)
        new = turn(new, table, path.endswith("Proof.antt"))
        if new != text:
            with open(path, "w", encoding="utf-8") as f:
                f.write(new)
    pages = ["README.md"] + [os.path.join("docs", p) for p in sorted(os.listdir("docs")) if p.endswith(".md")]
    for path in pages:
        text = read(path)
        new = re.sub(r"`[^`\n]+`", lambda m: TOKEN.sub(lambda t: table.get(t.group(1), t.group(1)), m.group(0)), text)
        if new != text:
            with open(path, "w", encoding="utf-8") as f:
                f.write(new)
    print(f"{len(table)} names turned")


if __name__ == "__main__":
    main()

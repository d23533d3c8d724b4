#!/usr/bin/env python3
"""Brings the names of this repository's own definitions and lemmas to today's spelling, once, after port.py.

usage: python3 tools/respell.py [--check]      at the top of the repository; --check only lists old name, new name

Functions, lemmas, fields and constructors are in snake case, types in camel case. A dash stays where it joins the names of two definitions
or follows a type, and becomes '_' elsewhere. What Rattle makes of source names keeps its spelling: the answers of goals, and what stands
behind a dot in a proof. Source code, strings and exported names are not touched.
"""

import os
import re
import sys

TOKEN = re.compile(r"[^\s(){}.;,@\"«»\[\]`]+")
SIGNATURE = re.compile(
    r"^(\s*)((?:abbrev |unfoldable |pub |pattern )*)(data |record |ruleset )?([^\s(){}.;,@\"«»\[\]:]+)\s*((?:\{[^=]*\}\s*|\([^=]*\)\s*)*):\s(.*)$"
)
WORDS = {"use", "pub", "let", "where", "mod", "in", "elim", "λ", "_"}
# names that would fall together with a parameter, a field, a variable or another name where they are used
CHOSEN = {
    "row-of": "row_of_place",
    "whole_row": "whole_row_lem",
    "column-inside": "column_inside_lem",
    "lines-before": "lines_before_lem",
    "kernel-rules": "rules_of_kernel",
    "lent-rules": "rules_of_lent",
    "output-rules": "rules_of_output",
    "plan-rules": "rules_of_plan",
    "shown-rules": "rules_of_shown",
}


def files(ends, folders=("crates",)):
    for top in folders:
        for folder, dirs, names in os.walk(top):
            dirs[:] = sorted(d for d in dirs if d not in ("out", "target", ".git"))
            for name in sorted(names):
                if name.endswith(ends):
                    yield os.path.join(folder, name)


def read(path):
    with open(path, encoding="utf-8") as f:
        return f.read()


def without_comments(text):
    return re.sub(r"--[^\n]*", "", text)


def declared():
    """Each declared name, with (file, result type or signature) for each declaration; answers of goals are left out."""
    names = {}
    for path in files(".antt"):
        for line in without_comments(read(path)).split("\n"):
            m = SIGNATURE.match(line)
            if m and m.group(4) not in WORDS:
                if re.match(r"(tie|goal)\.", m.group(6)) and path.endswith("Proof.antt"):
                    continue
                names.setdefault(m.group(4), []).append((path, m.group(6), m.group(2), m.group(3) or ""))
    return names


def is_definition(declarations):
    """Whether a name is that of a public function or type, and not of a lemma: its body is open to some, or it is data."""
    return any("pub" in marks and ("abbrev" in marks or "unfoldable" in marks or kind.strip() in ("data", "record")) for _, _, marks, kind in declarations)


def snake(part):
    if not part or part[0].isupper():
        return part
    return re.sub(r"(?<=[a-z0-9])([A-Z])", lambda m: "_" + m.group(1).lower(), part)


def respelled(name, definitions):
    if name in CHOSEN:
        return CHOSEN[name]
    parts = name.split("-")
    if len(parts) == 1:
        return snake(name)
    out = snake(parts[0])
    all_names = all(part in definitions for part in parts)
    for before, part in zip(parts, parts[1:]):
        joins = before[:1].isupper() or part[:1].isupper() or all_names
        out += ("-" if joins else "_") + snake(part)
    return out


def table():
    names = declared()
    definitions = {n for n, d in names.items() if is_definition(d)}
    # std's functions that lemmas here are named by
    definitions |= {"append", "length", "map", "take", "drop", "replicate", "sum", "mod", "div", "min", "max"}
    turned = {}
    for name in sorted(names):
        if not re.search(r"[a-z]", name) or re.fullmatch(r"[^\w]+", name):
            continue
        new = respelled(name, definitions)
        if new != name:
            turned[name] = new
    functions = {turned.get(n, n) for n in definitions}
    for name, new in turned.items():
        if name not in definitions and name not in CHOSEN and new in functions:
            turned[name] = new + "_lem"
    return turned, names


def turn_code(text, turned):
    def one(m):
        return turned.get(m.group(0), m.group(0))

    out = []
    for line in text.split("\n"):
        at = line.find("--")
        code, note = (line, "") if at < 0 else (line[:at], line[at:])
        out.append(TOKEN.sub(one, code) + turn_prose(note, turned))
    return "\n".join(out)


def turn_prose(text, turned):
    """Code spans turn whole; elsewhere only names with a capital inside, which no prose has."""
    capital = {o: n for o, n in turned.items() if re.search(r"[a-z][A-Z]", o)}
    text = re.sub(r"`[^`\n]+`", lambda s: TOKEN.sub(lambda m: turned.get(m.group(0), m.group(0)), s.group(0)[1:-1]).join("``"), text)
    return TOKEN.sub(lambda m: capital.get(m.group(0), m.group(0)), text)


def main():
    turned, names = table()
    if "--check" in sys.argv:
        for old, new in turned.items():
            print(f"{old}\t{new}")
        return
    antt = list(files(".antt"))
    for path in antt:
        old = read(path)
        if path.endswith("Proof.antt"):
            new = turn_proof(old, turned)
        else:
            new = turn_code(old, turned)
        write(path, old, new)
    for path in files((".rt", ".edit")):
        old = read(path)
        write(path, old, turn_source(old, turned))
    for path in ["README.md", "CHANGELOG.md", *files(".md", ("docs",))]:
        old = read(path)
        write(path, old, turn_prose(old, turned))


def turn_proof(text, turned):
    """As turn_code, but what stands behind a dot of a proof's record is Rattle's, unless a dot and the name read as a field of this repository."""
    goals = {m.group(4) for m in map(SIGNATURE.match, without_comments(text).split("\n")) if m and re.match(r"(tie|goal)\.", m.group(6))}
    return turn_code(text, {o: n for o, n in turned.items() if o not in goals})


def turn_source(text, turned):
    """Clauses and imports of ghost names: hyphens and capitals inside a name do not occur in source code."""
    turned = {o: n for o, n in turned.items() if re.search(r"-|[a-z][A-Z]", o)}
    out = []
    for line in text.split("\n"):
        at = line.find("//")
        code, note = (line, "") if at < 0 else (line[:at], line[at:])
        out.append(TOKEN.sub(lambda m: turned.get(m.group(0), m.group(0)), code) + turn_prose(note, turned))
    return "\n".join(out)


def write(path, old, new):
    if new != old:
        with open(path, "w", encoding="utf-8") as f:
            f.write(new)


if __name__ == "__main__":
    main()

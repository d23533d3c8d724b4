#!/usr/bin/env python3
"""Lists the places of src/ that docs/DESIGN-PASS.md counts, point by point.

    python3 tools/places.py [FOLDER] [--list]

FOLDER is a checkout, this one if left out. A line for each count; with --list the places themselves as well.
"""
import pathlib
import re
import sys


def functions(text):
    """Each function of a file: its line, its name, its parameters, its clauses, its body."""
    found = []
    for start in re.finditer(r"^[ \t]*(?:pub(?:\(crate\))? )?(?:extern \"C\" )?fn (\w+)", text, re.M):
        at = text.index("(", start.end())
        depth, end = 0, at
        while True:
            depth += {"(": 1, ")": -1}.get(text[end], 0)
            end += 1
            if depth == 0:
                break
        body = re.search(r"^[ \t]*\{$|\{$", text[end:], re.M)
        opening = end + body.end() if body else end
        indent = re.match(r"[ \t]*", start.group(0).lstrip("\n")).group(0)
        closing = re.search(r"^" + indent + r"\}", text[opening:], re.M)
        stop = opening + closing.end() if closing else len(text)
        found.append((text.count("\n", 0, start.end()) + 1, start.group(1), text[at:end], text[end:opening], text[opening:stop]))
    return found


def shape(parameters, body):
    """A function with its names and numbers left out: twins have the same."""
    seen = {}
    tokens = re.findall(r"[A-Za-z_]\w*|\d+|[^\s\w]", re.sub(r"//.*", "", parameters + body))
    return " ".join(str(seen.setdefault(t, len(seen))) if re.match(r"\w", t) else t for t in tokens)


def main():
    arguments = [a for a in sys.argv[1:] if a != "--list"]
    top = pathlib.Path(arguments[0] if arguments else ".")
    places = {}

    def add(count, path, line, what):
        places.setdefault(count, []).append(f"{path.relative_to(top)}:{line}: {what.strip()}")

    patterns = [
        ("1 a number for a refusal, tested or joined by hand", r"rules::(?:next|first_code)\(|\b(?:code|plan|lent|length|found\.code|values\.code) != 0"),
        ("1 a number for a kind or a field, compared", r"\b(?:kind|field) [!=]= \d"),
        ("1 a flag with a value beside it", r"^\s*(?:pub )?valid: bool|return 65536|, 65536\)"),
        ("3 a loop that counts by hand", r"^\s*(?:'\w+: )?(?:while|loop)\b"),
        ("4 least, greatest, quotient, size, order, change of places, made by hand", r"\b(?:lesser|greater|ceiling_div|number::size|is_inside|above|swap)\("),
        ("7 a choice of a step by a value", r"\bmatch (?:method|step|direction)\b|\bfield == 4\b"),
    ]
    facts = r"\b(Planned|InRange|Weighted|RootPowers|Bound|Callable|IsGroup|Joinable|MadeFor|AllPlanned|LentLengths|StripLengths|StripOriginInRange|Grid|Square|Storable)\b"
    held = {}
    groups = {}
    shapes = {}
    for path in sorted(top.glob("crates/*/src/**/*.rt")):
        text = path.read_text()
        lines = text.split("\n")
        for number, line in enumerate(lines, 1):
            code = re.sub(r"//.*", "", line)
            if "ghost use" in code or re.match(r"\s*use ", code):
                continue
            for count, pattern in patterns:
                if re.search(pattern, code) and not re.match(r"\s*(?:pub(?:\(crate\))? )?fn ", code):
                    add(count, path, number, line)
        for line, name, parameters, clauses, body in functions(text):
            requires = "".join(re.findall(r"requires[^{]*\{.*", clauses))
            for fact in set(re.findall(facts, requires)):
                held.setdefault(fact, []).append((path, line, name))
            if re.match(r"\s*(?:self\.)?\w+_by\(Method::\w+, [^;{]*\)\s*\}$", body):
                add("2 an instance of a function at one constant", path, line, name)
            if len(body.split()) > 8:
                shapes.setdefault(shape(parameters, body), []).append((path, line, name))
            names = re.findall(r"(\w+): ", parameters)
            for buffer, place in (("lines", "at"), ("words", "at"), ("output", "at"), ("values", "from"), ("words", "from"), ("text", "at"), ("words", "count")):
                if buffer in names and place in names:
                    add("6 a place or a length beside a buffer", path, line, name)
                    break
            for group in (("bits", "bound"), ("lanes", "bits"), ("n", "halvings", "bits")):
                if all(g in names for g in group):
                    groups.setdefault(" ".join(group), []).append((path, line, name))
    for fact, where in held.items():
        if len(where) >= 3:
            for path, line, name in where:
                add("5 a fact in three contracts or more", path, line, f"{fact} in {name}")
    for group, where in groups.items():
        if len(where) >= 3:
            for path, line, name in where:
                add("5 parameters that travel together", path, line, f"{group} in {name}")
    for where in shapes.values():
        if len(where) > 1:
            for path, line, name in where:
                add("2 functions of one shape", path, line, f"{name}, as {', '.join(n for _, _, n in where if n != name)}")
    for path in sorted(top.glob("crates/*/proofs/**/*.antt")):
        if path.name in ("Answers.antt", "Invariants.antt", "Proof.antt"):
            for number, line in enumerate(path.read_text().split("\n")[:-1], 1):
                add("8 lines of answers and invariants", path, number, line)
    for count in sorted(places):
        print(f"{len(places[count]):4} {count}")
        if "--list" in sys.argv and not count.startswith("8"):
            for place in places[count]:
                print(f"       {place}")


main()

#!/usr/bin/env python3
"""Brings the repository's own definitions and lemmas to Rattle's spelling: snake case, and camel case for types and facts.

It was run once, at the top of the repository, directly after the kit's port.py, which respells only some of them. A name
with a dash that a file of specs/ or a lemma file of proofs/ declares becomes one without (`first-match` is `first_match`,
`First-match` is `FirstMatch`), in definitions, clauses, proofs and must-fail edits, and between backticks in README.md and
docs/. Names that Rattle makes of a function's steps and goals, and the names of std, keep their dashes. It stops where two
names that these files declare or bind would become one; it doesn't look whether src/ or std has the name. A name of std
with a dash would be turned where such a file begins a line with it and a bracket; none was. These files declare no name of
the code, so src/ changes in clauses alone.
"""

import glob
import re
import sys

NAME = r"[A-Za-z][A-Za-z0-9_'-]*"
TOKEN = re.compile(r"(?<![A-Za-z0-9_'-])" + NAME)
DECLARED = re.compile(r"\s*(?:(?:abbrev|unfoldable|opaque|pub|record|data)\s+)*(" + NAME + r")\s*[:({]")
BOUND = re.compile(r"\blet (" + NAME + r")\s*[:=]|\(((?:" + NAME + r" )+): |λ ((?:" + NAME + r" ?)+)\.")


def respelt(name):
    parts = name.split("-")
    if name[0].isupper():
        return "".join(p[0].upper() + p[1:] for p in parts)
    return "_".join(parts)


def read(path):
    with open(path, encoding="utf-8") as f:
        return f.read()


def declared(paths):
    """The names with and without a dash that these files declare or bind."""
    names = set()
    for path in paths:
        for line in read(path).split("\n"):
            if line.lstrip().startswith(("use ", "--")):
                continue
            if m := DECLARED.match(line):
                names.add(m[1])
            for m in BOUND.finditer(line):
                names.update(w for group in m.groups() if group for w in group.split())
    return names


def main():
    names = declared(glob.glob("crates/*/specs/*.antt") + glob.glob("crates/*/proofs/*.antt"))
    dashed = {n: respelt(n) for n in names if "-" in n}
    taken = {}
    for name in sorted(names):
        new = dashed.get(name, name)
        if taken.setdefault(new, name) != name:
            print(f"respell: {taken[new]} and {name} would both be {new}", file=sys.stderr)
            return 1
    turn = lambda m: dashed.get(m[0], m[0])  # noqa: E731
    count = 0
    for pattern in ("crates/*/specs/*.antt", "crates/*/proofs/**/*.antt", "crates/*/src/**/*.rt", "crates/*/must-fail/*.edit"):
        for path in sorted(glob.glob(pattern, recursive=True)):
            old = read(path)
            new = TOKEN.sub(turn, old)
            if new != old:
                count += 1
                with open(path, "w", encoding="utf-8") as f:
                    f.write(new)
    for path in ["README.md", *sorted(glob.glob("docs/*.md"))]:
        old = read(path)
        new = re.sub(r"`(" + NAME + r")`", lambda m: "`" + dashed.get(m[1], m[1]) + "`", old)
        if new != old:
            count += 1
            with open(path, "w", encoding="utf-8") as f:
                f.write(new)
    print(f"respell: {len(dashed)} names, {count} files")
    return 0


if __name__ == "__main__":
    sys.exit(main())

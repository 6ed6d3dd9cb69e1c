#!/usr/bin/env python3
"""Spells the repository's own definitions and lemmas as today's Rattle does: words in snake case, no dashes.

usage: respell.py [--check] [ROOT]        at the top of the repository, once, behind the toolchain's own script

A name is turned if a file of specs/, or a file of lemmas of proofs/, declares it. A lemma that would have a function's
name gets `_lem`, and so does a field: it is a name of its module too. Rust's names, strings, inputs and outputs stay. --check writes nothing and lists the names.
"""

import os
import re
import sys

NAME = r'[^\s(){}.;,@"«»\[\]`\']+\'*'
DECLARED = re.compile(rf"(?m)^ *(?:(?:abbrev|unfoldable|pub|data|record|ruleset) +)*({NAME})(?: *(?:\{{[^{{}}\n]*\}}|\([^()\n]*\)))* *:(?=\s)")
OF_A_FUNCTION = re.compile(r"/proofs/.*/(Proof|Answers|Invariants)\.antt$")
CAMEL = re.compile(r"(?<=[a-z0-9])[A-Z]")
COMMENT = re.compile(r"--[^\n]*")
# names of the library: a name of ours that would meet one gets `_lem`
LIBRARY = {"bit_and", "bit_or"}
# lemmas in plain words that would meet a function of the same file
MET = {
    "crates/flash/specs/Equal.antt": {"frame_back"},
    "crates/line/proofs/Examples.antt": {"typed_wrong"},
    "crates/demands/proofs/TypedWrong.antt": {"typed_wrong"},
    "crates/printing/proofs/RefusedExample.antt": {"typed_wrong"},
    "crates/machine/proofs/FlashWritten.antt": {"side_after"},
    "crates/machine/proofs/EachCycle.antt": {"store_by"},
    "crates/stamps/proofs/Keeping.antt": {"held_by"},
    "crates/meaning/proofs/Sums.antt": {"sum_over"},
}


def files(root, ends):
    for folder, dirs, names in os.walk(root):
        dirs[:] = sorted(d for d in dirs if d not in ("out", "target", ".git"))
        for n in sorted(names):
            if n.endswith(ends):
                yield os.path.join(folder, n)


def read(path):
    with open(path, encoding="utf-8") as f:
        return f.read()


def snake(name):
    if name[0].islower():
        name = CAMEL.sub(lambda m: "_" + m[0].lower(), name)
    return name.replace("-", "_")


def table(root):
    declared = set()
    for path in files(os.path.join(root, "crates"), (".antt",)):
        if OF_A_FUNCTION.search(path):
            continue
        declared |= set(DECLARED.findall(COMMENT.sub("", read(path))))
    plain = {n for n in declared if re.fullmatch(r"[A-Za-z][A-Za-z0-9_'-]*", n)}
    rows = {n: snake(n) for n in plain if "-" not in n and snake(n) != n}
    taken = set(rows.values()) | (plain - set(rows)) | LIBRARY
    made = set()
    for n in sorted(n for n in plain if "-" in n):
        new = snake(n)
        rows[n] = new + "_lem" if new in taken else new
        if rows[n] in made:
            raise SystemExit(f"respell: two lemmas would be {rows[n]}")
        made.add(rows[n])
    return rows


def words(text, rows):
    return re.sub(NAME, lambda m: rows.get(m[0], m[0]), text)


def quoted(text, rows):
    """Names of a comment or a page: in backticks every one, elsewhere those in camel case, which no prose has."""
    text = re.sub(r"`[^`\n]+`", lambda m: words(m[0], rows), text)
    return re.sub(r"(?<![\w-])[a-z]+[a-z0-9]*[A-Z][A-Za-z0-9]*(?![\w-])", lambda m: rows.get(m[0], m[0]), text)


def antt(text, rows):
    parts = re.split(r"(--[^\n]*)", text)
    return "".join(quoted(p, rows) if p.startswith("--") else words(p, rows) for p in parts)


def rattle(text, rows):
    parts = re.split(r'(//[^\n]*|b?"(?:\\.|[^"\\])*")', text)
    out = []
    for p in parts:
        if p.startswith("//"):
            out.append(quoted(p, rows))
        elif p.startswith(('"', 'b"')):
            out.append(p)
        else:
            out.append(words(p, rows))
    return "".join(out)


def main(argv):
    check = "--check" in argv
    rest = [a for a in argv if a != "--check"]
    root = rest[0] if rest else "."
    rows = table(root)
    if check:
        for old in sorted(rows):
            print(f"{old}\t{rows[old]}")
        return 0
    turned = 0
    for path in files(os.path.join(root, "crates"), (".antt", ".rt", ".edit")):
        old = read(path)
        own = MET.get(os.path.relpath(path, root), ())
        new = (antt if path.endswith(".antt") else rattle)(old, rows | {n: n + "_lem" for n in own})
        if new != old:
            with open(path, "w", encoding="utf-8") as f:
                f.write(new)
            turned += 1
    print(f"respell: {len(rows)} names, {turned} files")
    return 0


if __name__ == "__main__":
    raise SystemExit(main(sys.argv[1:]))

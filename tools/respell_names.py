#!/usr/bin/env python3
"""Brings the names of this repository's definitions and laws to the spelling of today's Rattle.

usage: tools/respell_names.py            in crates/: specs, proofs, clauses, edits
       tools/respell_names.py --list     prints the names, old and new

Words are in snake case: camelCase parts are split by `_`. A dash stands between two names of definitions, and `_`
before a plain word, as in `length-put_bits` and `with_field_lt`. Types and modules keep their capitals. Functions of
src/, exported names, strings and inputs are not touched. A name that would fall together with another keeps its
dashes. It is run once, after port.py, at the top of the repository: docs/PORT.md.
"""

import glob
import re
import sys

TOKEN = re.compile(r"[^\s(){}\[\].,;:«»\"⌜⌝]+")
CAMEL = re.compile(r"(?<=[a-z0-9])[A-Z]")
# words of the library that a dash may stand beside, as it does in the library's own names
WORDS = set("length take drop get_or set append map replicate lookup min max add mul sub div mod pow insert".split())
# laws that port.py left with the name that a definition has now, and the file of each
LAWS = {
    "is_digit": "crates/digits/proofs/Digits.antt",
    "first_byte": "crates/fits/proofs/FirstBytes.antt",
    "frame_step": "crates/frame/proofs/EitherRuleHolds.antt",
    "window_bytes": "crates/frame/proofs/PlainBytes.antt",
    "end_by": "crates/layout/proofs/Places.antt",
    "row_read": "crates/moves/proofs/ReadPieces.antt crates/moves/proofs/part/read_line/Proof.antt",
    "rows_written": "crates/rows/proofs/WholeBytes.antt crates/rows/proofs/write_rows/Proof.antt",
    "read_back": "crates/subheader/proofs/RoundTrip.antt",
    "before_last": "crates/windows/proofs/Cuts.antt crates/windows/proofs/Rectangles.antt",
    "store_by": "crates/writing/proofs/Stores.antt",
}


def files(*ends):
    found = []
    for end in ends:
        found += glob.glob("crates/**/*" + end, recursive=True)
    return sorted(p for p in found if "/out/" not in p)


def read(path):
    with open(path, encoding="utf-8") as f:
        return f.read()


def snake(name):
    name = re.sub(r"^getD(?![a-z])", "get_or", name)
    return CAMEL.sub(lambda m: "_" + m.group(0).lower(), name)


def defined():
    """The names that specs/ and proofs/ define: definitions, laws, fields, constructors; no answers of a function."""
    names = set()
    for path in files(".antt"):
        for line in read(path).splitlines():
            m = re.match(r"^(?:(?:abbrev|unfoldable|pub|irreducible) )*([^\s:(){}]+)(?: \{[^}]*\})? :(?! tie\.)", line)
            m = m or re.match(r"^    (?:pub )?([^\s:(){}]+) : ", line)
            m = m or re.match(r"^  (?:pub )?([^\s:(){}]+) : ", line)
            if m:
                names.add(m.group(1))
    return names


def dashes(name, functions):
    """Keeps a dash between two names of definitions, and writes `_` at the others."""
    parts = name.split("-")
    if parts[-1] == "spec":
        return name.replace("-", "_")
    if len(parts) == 1 or name[0].isupper() or not re.match(r"^[a-z]", name):
        return name
    out = parts[0]
    for left, right in zip(parts, parts[1:]):
        names = left in functions and right in functions
        plain = re.match(r"^[a-z0-9_]+$", left) and re.match(r"^[a-z0-9_]+$", right)
        out += ("_" if plain and not names else "-") + right
    return out


def table():
    names = defined()
    texts = {p: read(p) for p in files(".antt", ".rt")}
    tokens = set()
    for t in texts.values():
        tokens |= set(TOKEN.findall(t))
    turned = {n: snake(n) for n in names if not n[0].isupper() and snake(n) != n}
    functions = {snake(n) for n in names if "-" not in n} | WORDS
    taken = tokens | set(turned.values())
    for n in sorted(names):
        if n[0].isupper():
            continue
        s = turned.get(n, n)
        d = dashes(s, functions)
        if d != s and d not in taken:
            turned[n] = d
            taken.add(d)
    return turned, tokens


def main():
    turned, tokens = table()
    seen = {}
    for old, new in sorted(turned.items()):
        if new in tokens or new in seen:
            print(f"falls together: {old} -> {new}", "with " + seen.get(new, "a name that stands"), file=sys.stderr)
        seen[new] = old
    if "--list" in sys.argv:
        for old, new in sorted(turned.items()):
            print(old, new)
        return
    names = {n for n in defined() if not n[0].isupper()} | {"get_or"}
    for path in files(".antt", ".rt", ".edit"):
        text = read(path)
        code = path.endswith(".rt")

        def put(m):
            w = m.group(0)
            if path in LAWS.get(w, "").split() and text[m.start() - 1] != ".":
                return w + "_lem"
            if code and "-" in w:
                return w
            if path.endswith(".edit") and w not in turned and snake(w) in names:
                return snake(w)  # port.py turned it everywhere but in the edits
            return turned.get(w, w)

        new = TOKEN.sub(put, text)
        if new != text:
            with open(path, "w", encoding="utf-8") as f:
                f.write(new)


main()

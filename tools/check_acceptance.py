#!/usr/bin/env python3
"""Are the names in docs/ACCEPTANCE.md there?

Definitions, functions, edits, programs, paths, C functions and Rust functions. A name between backquotes is one of
these: `crate: definition`, `crate::module::function`, `crate/edit`, `gezdunar_..`, a crate, a path of the repository or
under crates/, or a word of a definition, of the source, of a law or of the Rust crate.
"""
import re
import sys
from pathlib import Path

ROOT = Path(__file__).resolve().parent.parent
CRATES = ROOT / "crates"
NAMES = {p.name for p in CRATES.iterdir()}
COMMANDS = ("rt ", "now", "N ")


def text_of(paths):
    return "\n".join(p.read_text() for p in sorted(paths))


def has_word(name, text):
    return re.search(r"(?<![\w-])" + re.escape(name) + r"(?![\w-])", text) is not None


def definitions(crate):
    return text_of((CRATES / crate / "specs").rglob("*.antt"))


def sources(crate):
    return text_of((CRATES / crate / "src").rglob("*.rt"))


SPECS = text_of(p for crate in NAMES for p in (CRATES / crate / "specs").rglob("*.antt"))
SOURCES = text_of(p for crate in NAMES for p in (CRATES / crate / "src").rglob("*.rt"))
LAWS = text_of(CRATES.glob("*/proofs/*.antt"))
HEADER = (ROOT / "include/gezdunar.h").read_text()
RUST = text_of((ROOT / "bindings/rust/src").glob("*.rs"))


def is_there(name):
    crate = name.split(": ")[0]
    if ": " in name:
        return crate in NAMES and has_word(name.split(": ")[1], definitions(crate))
    if name.startswith("gezdunar_"):
        return has_word(name, HEADER)
    if re.fullmatch(r"\w+/\w+", name) and name.split("/")[0] in NAMES:
        crate, edit = name.split("/")
        return (CRATES / crate / "must-fail" / (edit + ".edit")).exists() or (CRATES / name).exists()
    if "::" in name:
        crate, last = name.split("::")[0], name.split("::")[-1]
        return has_word(last, sources(crate) if crate in NAMES else SOURCES + RUST)
    if name in NAMES or any((place / name).exists() for place in (ROOT, CRATES, ROOT / "differential")):
        return True
    return any(has_word(name, text) for text in (SPECS, SOURCES, LAWS, RUST))


def is_name(name):
    return "NAME" not in name and re.fullmatch(r"[\w:/. -]+", name) and not name.startswith(COMMANDS)


def main():
    text = (ROOT / "docs/ACCEPTANCE.md").read_text()
    names = sorted(set(re.findall(r"`([^`]+)`", text)))
    paths = sorted(set(re.findall(r"(?<![\w/`])(?:crates|docs|bindings|tests|include)/[\w./]+\w", text)))
    missing = [n for n in names if is_name(n) and not is_there(n)]
    missing += [p for p in paths if not (ROOT / p).exists() and "NAME" not in p]
    for name in missing:
        print("not there:", name)
    print(f"{len(names) + len(paths)} names, {len(missing)} not there")
    return 1 if missing else 0


sys.exit(main())

#!/usr/bin/env python3
"""Respells this repository's own definitions and lemmas as today's Rattle spells names: words in snake case.

Run once at the top, after the kit's port.py. A dash stays where it joined two names, and each part `camelCase` of a name
becomes `camel_case`. Types, modules and one-letter variables (`tableT`, `in-X`) keep their capitals, and names of src/ have none.
Plain structs, which older Rattle copied without being told, derive `Clone, Copy`.

    tools/respell.py --dry     lists each new name, and the files where it stood before
    tools/respell.py           writes the files of crates/
    tools/respell.py --pages   writes README.md and docs/ too, but for the landing notes
"""

import re
import sys
from pathlib import Path

ROOT = Path(__file__).resolve().parent.parent
TOKEN = re.compile(r"[^\s(){}\[\].,;:\"`=&*!+|/λ→×≡≢≤<>←∷⊎¬]+")
PART = re.compile(r"^[a-z][a-z0-9]*(?:_[a-z0-9]+)*(?:[A-Z][a-z0-9]+)+'*$")


def snake(part):
    return re.sub(r"([A-Z])", lambda m: "_" + m.group(1).lower(), part) if PART.match(part) else part


def respelled(token):
    return "".join(snake(part) for part in re.split("([-◌])", token))


def proofs():
    for pattern in ("crates/*/specs/**/*.antt", "crates/*/proofs/**/*.antt"):
        yield from sorted(ROOT.glob(pattern))


def sources():
    yield from proofs()
    yield from sorted(ROOT.glob("crates/*/src/**/*.rt"))
    yield from sorted(ROOT.glob("crates/*/must-fail/*.edit"))


# Two lemmas that would now have the name of the definition that they are about.
LEMMAS = {"nothing_above": "nothing_above_lem", "with_pair": "with_pair_lem"}
LEMMA_FILES = ("members/proofs/Branching.antt", "search/proofs/Exact.antt", "search/proofs/Failing.antt")


def turn(path, text):
    lemmas = LEMMAS if str(path).endswith(LEMMA_FILES) else {}
    return TOKEN.sub(lambda m: lemmas.get(m.group(0)) or respelled(m.group(0)), text)


def derive(text):
    return text.replace("#[derive(Drop)]", "#[derive(Clone, Copy)]")


def main():
    names = {}
    for path in sources():
        for token in TOKEN.findall(path.read_text()):
            if respelled(token) != token:
                names[token] = respelled(token)
    if "--dry" in sys.argv:
        for path in sources():
            tokens = set(TOKEN.findall(path.read_text()))
            for old, new in sorted(names.items()):
                if old in tokens and new in tokens:
                    print(f"both in {path.relative_to(ROOT)}: {old} {new}")
        news = {}
        for old, new in names.items():
            news.setdefault(new, []).append(old)
        for new, olds in sorted(news.items()):
            if len(olds) > 1:
                print(f"fall together: {' '.join(olds)} as {new}")
        print(len(names), "names")
        return
    if "--pages" in sys.argv:
        for path in [ROOT / "README.md", *sorted((ROOT / "docs").glob("*.md"))]:
            text = path.read_text()
            path.write_text(TOKEN.sub(lambda m: names.get(m.group(0), m.group(0)), text))
    for path in sources():
        text = path.read_text()
        new = turn(path, text)
        if path.suffix == ".rt":
            new = derive(new)
        if new != text:
            path.write_text(new)


main()

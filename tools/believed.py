#!/usr/bin/env python3
"""What must be believed: every definition on which the statements of the product rest.

It starts at the statements that crates/theorems names, down to its heading APART, and at the
contracts of the public calls, follows each name to its definition, and prints the definitions by file with their lines (without
imports, comments and blank lines). It does not follow what the theorems say in full (`SAID`): whoever
believes the demands need not believe how `verdict` computes its answer.

    tools/believed.py            the page's block, for docs/ARCHITECTURE.md
    tools/believed.py --write    puts the block into the page
    tools/believed.py --check    fails if the page has another block
    tools/believed.py --why NAME the way from a statement to a name
"""

import re
import sys
import textwrap
from pathlib import Path

ROOT = Path(__file__).resolve().parent.parent
PAGE = ROOT / "docs/ARCHITECTURE.md"
BEGIN, END = "<!-- begin believed -->", "<!-- end believed -->"
WIDTH = 100

# the file that names every theorem; below the heading are those on which no demand rests
THEOREMS = ROOT / "crates/theorems/proofs/Theorems.antt"
APART = "-- APART"

# the public calls, whose contracts say what is proved of the code
CALLS = {
    "bwlchareg": None,
    "bwlchareg_c": None,
    "checks": ["check_table", "check_query", "check_request"],
    "verifier": ["verify"],
    "listing": ["list"],
    "writing": ["write"],
    "printing": ["answer"],
}

# what a call answers, by the theorem that says in full what it must be
SAID = {
    ("verifier", "Verdict", "verdict"): "DemandOne, DemandTwo, EveryRefusal",
    ("listing", "Minimal", "listing"): "DemandOne, DemandThree",
    ("listing", "Minimal", "buffer_after"): "DemandOne, DemandThree",
    ("writing", "Writing", "writing"): "WritesFirst",
    ("writing", "Writing", "record_after"): "WritesFirst",
}

KEYWORDS = ("use ", "pub mod ", "mod ", "infixr ", "infixl ", "infix ", "unfolding ", "module ")
# a definition's first line: how it may be opened, whether others see it, what it is, and its name
HEAD = re.compile(r"^(?:(?:abbrev|unfoldable|opaque)\s+)?(?:pub\s+)?(?:(record|data)\s+)?([^\s:(){}]+)(?=\s)")
TOKEN = re.compile(r"[^\s(){};,\[\]]+")


class Definition:
    def __init__(self, place, file):
        self.place, self.file = place, file
        self.lines, self.tokens = 0, []


class Module:
    """One file: what it defines, which constructor belongs to which type, and what it imports."""

    def __init__(self):
        self.defined, self.owner, self.imports, self.modules = {}, {}, {}, {}


def own_lines(text, comment):
    """The lines that say something, each without its comment."""
    for line in text.splitlines():
        line = line.split(comment)[0].rstrip() if line.lstrip().startswith(comment) else line.rstrip()
        if line:
            yield line


def words(line):
    return [t for t in TOKEN.findall(line) if not t.startswith(".")]


def imported(module, line):
    """Takes up one line `use PATH.{names}`, `use PATH as name` or `use PATH`."""
    path, _, names = line.partition(".{")
    path = path.strip().rstrip(";")
    path, _, alias = path.partition(" as ")
    parts = path.split(".")
    if len(parts) < 4 or parts[0] != "Rattle" or parts[2] != "specs":
        return
    crate, inside = parts[1], parts[3:]
    if not names:
        module.modules[alias or inside[-1]] = (crate, inside)
        return
    for item in names.rstrip(";").rstrip("}").split(","):
        name, _, local = item.strip().partition(" as ")
        module.imports[(local or name)] = (crate, inside, name)


def read_specs(crate, file, text=None):
    module = Module()
    current, in_data = None, False
    for line in own_lines(text or file.read_text(), "--"):
        if line.startswith("use "):
            imported(module, line[4:])
            continue
        if line.startswith(KEYWORDS):
            continue
        if not line.startswith(" "):
            head = HEAD.match(line)
            opens = re.match(r"^(abbrev|unfoldable|opaque|pub|record|data)\s", line) or re.match(r"^\S+\s+:\s", line)
            if head and opens:
                name = head.group(2)
                current = module.defined.setdefault(name, Definition((crate, file.stem, name), file))
                in_data = head.group(1) == "data"
        elif in_data and re.match(r"^  \S+\s*:", line):
            module.owner[line.split()[0]] = current.place[2]
        if current:
            current.lines += 1
            current.tokens += words(line)
    return module


def read_declared(crate, folder):
    """Structs and enums of the code, which specifications cite as `declared`."""
    found = {}
    for file in sorted(folder.glob("*.rt")):
        current = None
        for line in own_lines(file.read_text(), "//"):
            head = re.match(r"^pub (?:struct|enum) (\w+)", line)
            if head:
                current = Definition((crate, "src/" + file.stem, head.group(1)), file)
                found[head.group(1)] = current
            if current:
                current.lines += 1
                current.tokens += re.findall(r"\w+", line)
                if line in ("}",) or line.endswith(";") and head:
                    current = None
    return found


class Product:
    def __init__(self):
        self.crates = [l.split(":")[0].split()[0] for l in (ROOT / "crates.txt").read_text().splitlines() if l and l[0] != "#"]
        self.specs, self.declared = {}, {}
        for crate in self.crates:
            folder = ROOT / "crates" / crate
            for file in sorted((folder / "specs").glob("*.antt")):
                if file.stem != "Lib":
                    self.specs[crate, file.stem] = read_specs(crate, file)
            self.declared[crate] = read_declared(crate, folder / "src")

    def at(self, crate, inside, name):
        """The definition of a name that a path leads to; a constructor leads to its type."""
        if inside[0] == "declared":
            for part in [name] + inside[::-1]:
                if part in self.declared.get(crate, {}):
                    return self.declared[crate][part]
            return None
        module = self.specs.get((crate, inside[0]))
        if module is None:
            return None
        if len(inside) > 1 and inside[1] in module.defined:
            return module.defined[inside[1]]
        name = module.owner.get(name, name)
        return module.defined.get(name)

    def named(self, module, token):
        """The definition that a token of a file means, or None for the kit's names and for variables."""
        for spelling in (token, f"◌{token}◌"):
            if spelling in module.defined:
                return module.defined[spelling]
            if spelling in module.imports:
                return self.at(*module.imports[spelling])
        if token in module.owner:
            return module.defined[module.owner[token]]
        first, dot, rest = token.partition(".")
        if dot and first in module.modules:
            crate, inside = module.modules[first]
            return self.at(crate, inside, rest)
        # a field, which stands right after what has it
        return self.named(module, first) if dot and first else None

    def references(self, definition):
        crate, stem, _ = definition.place
        if stem.startswith("src/"):
            for token in definition.tokens:
                for other in [crate, "table", "automata", "sets"]:
                    if token in self.declared.get(other, {}) and self.declared[other][token] is not definition:
                        yield self.declared[other][token]
                        break
            return
        module = self.specs[crate, stem]
        for token in definition.tokens:
            found = self.named(module, token)
            if found is not None and found is not definition:
                yield found


def theorem_roots(product):
    """The statements that the theorems' file names: what stands in the types of its definitions."""
    module = read_specs("theorems", THEOREMS, THEOREMS.read_text().partition(APART)[0])
    for name, definition in module.defined.items():
        for token in definition.tokens:
            found = product.named(module, token)
            if found is not None and found.place[0] != "theorems":
                yield name, found


def call_roots(product):
    """What the contracts of the public calls cite."""
    for crate, calls in CALLS.items():
        text = (ROOT / "crates" / crate / "src/lib.rt").read_text()
        module = Module()
        for line in text.splitlines():
            if line.startswith("ghost use "):
                imported(module, line[len("ghost use "):])
        for call in re.finditer(r"^pub (?:extern \"C\" )?fn (\w+).*?^\{", text, re.S | re.M):
            if calls is None or call.group(1) in calls:
                for token in TOKEN.findall(call.group(0)):
                    found = product.named(module, token)
                    if found is not None:
                        yield call.group(1), found


def closure(product):
    came, todo = {}, []
    for name, found in list(theorem_roots(product)) + list(call_roots(product)):
        if found.place not in came:
            came[found.place] = (found, name)
            todo.append(found)
    while todo:
        definition = todo.pop()
        if definition.place in SAID:
            continue
        for found in product.references(definition):
            if found.place not in came:
                came[found.place] = (found, definition.place)
                todo.append(found)
    return came


def block(product, came):
    believed = [d for place, (d, _) in came.items() if place not in SAID]
    types = [d for d in believed if d.place[1].startswith("src/")]
    stated = [d for d in believed if d not in types]
    every = sum(d.lines for m in product.specs.values() for d in m.defined.values())
    longest = max(stated, key=lambda d: (d.lines, d.place[2]))
    files = {}
    for definition in believed:
        files.setdefault(definition.file, []).append(definition)
    yield textwrap.fill(
        f"What must be believed is {len(believed)} names in {len(files)} files, {count(believed)} lines without imports, "
        f"comments and blank lines: {len(stated)} definitions of `specs/` ({count(stated)} lines; the longest is "
        f"`{longest.place[2]}`, with {longest.lines}) and {len(types)} structs and enums of the code ({count(types)} lines). "
        f"The other definitions of `specs/` are {every - count(stated)} lines. `tools/believed.py` lists the names and "
        f"counts the lines, and the gate compares this page with it.",
        WIDTH,
    )
    yield ""
    yield "| file, below `crates/` | lines | names |"
    yield "|---|---|---|"
    order = {crate: i for i, crate in enumerate(product.crates)}
    for file in sorted(files, key=lambda f: (order[f.relative_to(ROOT).parts[1]], str(f))):
        names = ", ".join(f"`{d.place[2]}`" for d in sorted(files[file], key=lambda d: d.place[2].lower()))
        yield f"| `{file.relative_to(ROOT / 'crates')}` | {count(files[file])} | {names} |"
    yield ""
    known = "; ".join(f"`{place[2]}` ({SAID[place]})" for place in SAID if place in came)
    yield textwrap.fill(f"Not followed, since theorems say in full what they must be: {known}.", WIDTH)


def count(definitions):
    return sum(d.lines for d in definitions)


def main(args):
    product = Product()
    came = closure(product)
    text = "\n".join(block(product, came))
    page = PAGE.read_text()
    before, begin, rest = page.partition(BEGIN)
    inside, end, after = rest.partition(END)
    if args == ["--check"] or args == ["--write"]:
        if not begin or not end:
            print(f"{PAGE.relative_to(ROOT)} has no block for what must be believed")
            return 1
    if args == ["--check"]:
        if inside.strip() != text.strip():
            print(f"{PAGE.relative_to(ROOT)}: what must be believed is not as tools/believed.py counts it")
            return 1
        return 0
    if args == ["--write"]:
        PAGE.write_text(before + BEGIN + "\n" + text + "\n" + END + after)
        return 0
    if len(args) == 2 and args[0] == "--why":
        for place in [p for p in came if p[2] == args[1]]:
            way = [place]
            while isinstance(way[-1], tuple):
                way.append(came[way[-1]][1])
            print(" <- ".join(w if isinstance(w, str) else "/".join(w) for w in way))
        return 0
    if args:
        print(__doc__)
        return 2
    print(text)
    return 0


if __name__ == "__main__":
    sys.exit(main(sys.argv[1:]))

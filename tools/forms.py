#!/usr/bin/env python3
"""Counts the places in crates/*/src that have a form for which today's Rattle has a better one; docs/DESIGN-PASS.md says what the points are.

    tools/forms.py [--list] [COMMIT]      of the files here, or at a commit; --list prints each place

It reads text and nothing else, so it counts what looks like such a place; whether one is kept, and why, the page says.
"""
import re, subprocess, sys

KINDS = ("SIMPLE_MEMBERSHIP SIMPLE_CONTAINMENT LINKING_CONTAINMENT INTERSECTION_CONTAINMENT THIS_ROLE EVERY_ROLE OTHER_ROLES ROLES_OF_OWNER "
         "EVERY_WORD SOME_WORD").split()


def files(commit, glob):
    """Each file that fits the pathspec, with its text: here, or at a commit."""
    names = subprocess.run(["git", "ls-tree", "-r", "--name-only", commit] if commit else
                           ["git", "ls-files", "--cached", "--others", "--exclude-standard"], capture_output=True, text=True, check=True).stdout.split("\n")
    for name in sorted(set(names)):
        if not re.fullmatch(glob, name):
            continue
        if commit:
            text = subprocess.run(["git", "show", f"{commit}:{name}"], capture_output=True, text=True, check=True).stdout
        else:
            try:
                text = open(name).read()
            except FileNotFoundError:
                continue
        yield name, text


def code(text):
    """The text without comments and imports, line for line."""
    text = re.sub(r"//[^\n]*", "", text)
    return re.sub(r"^(?:pub )?use [^;]*;", lambda m: "\n" * m.group(0).count("\n"), text, flags=re.M)


def functions(text):
    """Each function: its line, name, parameters and clauses."""
    for m in re.finditer(r"\bfn (\w+)(?:<[^(]*?>)?\(", text):
        depth, at = 1, m.end()
        while depth and at < len(text):
            depth += {"(": 1, ")": -1}.get(text[at], 0)
            at += 1
        params = [re.sub(r"\s+", " ", p).strip() for p in re.split(r",(?![^<\[(]*[>\])])", text[m.end():at - 1]) if p.strip()]
        end = re.search(r"\n\s*\{\n|\{\n|;\n", text[at:])
        head = text[at:at + end.start()] if end else ""
        result = re.search(r"->\s*([^\n{]+)", head)
        clauses = re.findall(r"requires(?: (\w+))? (\{(?:[^{}]|\{[^{}]*\})*\})", head)
        yield (text.count("\n", 0, m.start()) + 1, m.group(1), params, [re.sub(r"\s+", " ", c[1]) for c in clauses],
               result.group(1).strip() if result else "()")


def matching(sources, pattern, flags=re.M):
    """Each match of a pattern in code, as file:line and the text."""
    found = []
    for name, text in sources:
        text = code(text)
        for m in re.finditer(pattern, text, flags):
            found.append(f"{name}:{text.count(chr(10), 0, m.start()) + 1}: {' '.join(m.group(0).split())}")
    return found


def named(sources, wanted, form):
    """Each function of a list whose parameters or answer still have the old form."""
    found = []
    for name, text in sources:
        crate = name.split("/")[1]
        for line, fn, params, _, result in functions(code(text)):
            if f"{crate}::{fn}" in wanted and form(params, result):
                found.append(f"{name}:{line}: {fn} -> {result}")
    return found


def repeated_clauses(sources):
    """Clauses of `requires` that stand in three or more functions."""
    seen = {}
    for name, text in sources:
        for line, fn, _, clauses, _ in functions(code(text)):
            for c in clauses:
                seen.setdefault(c, []).append(f"{name}:{line}: {fn}")
    return [f"{len(w)} functions: {c}" for c, w in sorted(seen.items(), key=lambda x: -len(x[1])) if len(w) > 2]


def travelling(sources):
    """Functions with eight or more parameters."""
    return [f"{name}:{line}: {fn}, {len(params)}" for name, text in sources for line, fn, params, _, _ in functions(code(text)) if len(params) > 7]


def shared_parameters(sources):
    """Runs of three or more parameters that stand side by side in three or more functions, the longest of each."""
    seen = {}
    for name, text in sources:
        for line, fn, params, _, _ in functions(code(text)):
            for i in range(len(params)):
                for j in range(i + 3, len(params) + 1):
                    seen.setdefault(tuple(params[i:j]), set()).add(f"{name}:{line}")
    runs = {k: v for k, v in seen.items() if len(v) > 2}
    top = [k for k in runs if not any(len(o) > len(k) and any(o[i:i + len(k)] == k for i in range(len(o) - len(k) + 1)) and runs[o] == runs[k] for o in runs)]
    return [f"{len(runs[k])} functions: {', '.join(k)}" for k in sorted(top, key=lambda k: (-len(k), -len(runs[k])))]


def main():
    args = [a for a in sys.argv[1:] if a != "--list"]
    commit = args[0] if args else None
    sources = list(files(commit, r"crates/[^/]+/src/.*\.rt"))
    proofs = list(files(commit, r"crates/[^/]+/proofs/.*\.antt"))
    uses = r"^(?!pub const )[^\n]*\b(?:" + "|".join(KINDS) + r")\b[^\n]*"
    points = [
        ("1 own enums of the shape of Result", matching(sources, r"^\s+Refused\(Refusal\)")),
        ("1 flags with a value beside them", matching(sources, r"^\s+(?:pub )?(?:applies|fails): bool,$|^\s+(?:pub )?refusal: (?:&mut )?u32,$")),
        ("1 refusals as numbers", matching(sources, r"halted\(1\d\b|=> 1?\d,$")),
        ("1 kinds, labels and marks as numbers", matching(sources, uses)),
        ("1 answers with a number that stands for none", named(sources, {"scans::first_bad", "scans::first_bad_chain", "cuts::unmet", "search::same_later",
            "indexing::role_at", "indexing::person_at", "families::next", "moves::find", "placing::find"}, lambda p, r: not r.startswith("Option"))),
        ("3 loops that count by hand", matching(sources, r"^\s*(?:'\w+: )?(?:while [^\n]*|loop )\{")),
        ("4 comparing and converting by hand", matching(sources, r"\bfn (?:same|same_goal|number|wide|states|number_of)\b")),
        ("4 fields that repeat a name, and copies of fields", matching(sources, r"^\s+(\w+): \1,$|^\s+let (\w+) = [\w.]+\.\2;$")),
        ("5 clauses in three functions or more", repeated_clauses(sources)),
        ("5 parameters that travel together", shared_parameters(sources)),
        ("5 functions of eight parameters or more", travelling(sources)),
        ("6 a length or count beside a buffer", matching(sources, r"^\s+pub len: usize,$|(?:\[[^\]]*\]|Set\]),\s*(?:count|found): (?:&mut )?usize")),
        ("6 parallel arrays", matching(sources, r"^\s+pub (persons|places): \[usize;")),
        ("6 buffers whose cells are reckoned", matching(sources, r"^(?:pub )?const (?:INDEX_CELLS|TABLE_CELLS|SLOT_CELLS)\b")),
        ("7 matches on which row to run", matching(sources, r"^\s+Row::\w+ =>")),
        ("8 proofs in the older form", [f"{n}: {len(re.findall(r'^[^ -]', t, re.M))}" for n, t in proofs if n.endswith("/Proof.antt")]),
        ("8 answers that are a bare search", matching(proofs, r"^\S+(?: (?:g|c|κs))+ = search rules$")),
    ]
    for what, places in points:
        print(f"{len(places):5}  {what}")
        if "--list" in sys.argv:
            print("".join(f"           {p}\n" for p in places), end="")


main()

"""Figures of the tree and of a gate's log, for tools/measure, tools/moved and tools/compare."""

import glob
import os
import re

ROOT = os.path.abspath(os.path.join(os.path.dirname(os.path.abspath(__file__)), ".."))
IMPORT = re.compile(r"(pub )?(ghost )?(use|mod) ")
DEFINITION = re.compile(r"(abbrev|unfoldable) |(pub )?(record|data) ")
LAW = re.compile(r"(pub )?[^\s:]+ :( |$)")


def read(path):
    with open(path, encoding="utf8") as file:
        return file.read().split("\n")


def files(crate, *parts):
    return sorted(glob.glob(os.path.join(ROOT, "crates", crate, *parts), recursive=True))


def counted(line):
    return bool(line.strip()) and not IMPORT.match(line)


def plain(paths):
    """The lines of files whose declarations are of one kind."""
    return sum(1 for path in paths for line in read(path) if counted(line))


def kinds_in(lines):
    """Of each line of a module: "definition", "law", or None where it is not counted."""
    kinds = []
    kind, comments = None, []
    for at, line in enumerate(lines):
        kinds.append(None)
        if IMPORT.match(line):
            comments = []
        elif line.startswith("--"):
            comments.append(at)
        elif line.strip():
            kind = "definition" if DEFINITION.match(line) else "law" if LAW.match(line) else kind
            for counted_at in comments + [at]:
                kinds[counted_at] = kind
            comments = []
    return kinds


def is_law_module(path):
    """What stands in such a module is counted with the laws, whatever it is."""
    return bool(re.search("/specs/(Laws|Proofs)/|/proofs/[^/]*$|/proofs/(Laws|Examples)/", path))


def is_function_proof(path):
    return bool(re.search("/proofs/[^/]+/", path)) and not is_law_module(path)


def spec_lines(crate):
    definitions = laws = 0
    modules = [path for path in files(crate, "proofs", "**", "*.antt") if is_law_module(path)]
    for path in files(crate, "specs", "**", "*.antt") + modules:
        found = [kind for kind in kinds_in(read(path)) if kind]
        here = 0 if is_law_module(path) else found.count("definition")
        definitions, laws = definitions + here, laws + len(found) - here
    return definitions, laws


def crates():
    """The crates of crates.txt, each behind those that it needs."""
    needs = {}
    for line in read(os.path.join(ROOT, "crates.txt")):
        match = re.match(r"(\w+)(?: staticlib)?:(.*)", line)
        if match:
            needs[match.group(1)] = match.group(2).split()
    order = []
    while len(order) < len(needs):
        order += [name for name in needs if name not in order and all(d in order or d not in needs for d in needs[name])][:1]
    return order


def times(log):
    """Of a log of rt: seconds of each crate's proof, seconds of each crate's edits, and what it is a log of."""
    proofs, edits = {}, {}
    for line in log:
        proved = re.match(r"rt: (\w+) proved \((\d+) s\)", line)
        refused = re.match(r"rt: must-fail (\w+)/\S+: refused, .*?(\d+) s\)", line)
        if proved:
            proofs[proved.group(1)] = int(proved.group(2))
        elif refused:
            edits.setdefault(refused.group(1), []).append(int(refused.group(2)))
    tally = [line for line in log if re.match(r"\d+ passed, \d+ failed$", line)]
    return proofs, edits, "The gate: %s." % tally[-1] if tally else "From a log that is not of a whole gate."


def table(rows):
    widths = [max(len(row[k]) for row in rows) for k in range(len(rows[0]))]
    written = ["| " + " | ".join(cell.ljust(width) for cell, width in zip(row, widths)) + " |" for row in rows]
    return "\n".join([written[0], "|" + "|".join("-" * (width + 2) for width in widths) + "|"] + written[1:])


def total(column):
    return "-" if "-" in column else str(sum(int(cell) for cell in column))

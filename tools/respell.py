#!/usr/bin/env python3
"""Brings the repository's own definitions and lemmas to today's spelling, snake case, after /opt/rattle/port/port.py; types and modules keep camel case.

It fits the repository as it was at the port (666120f after port.py), and not as it stands now.

usage: tools/respell.py          at the top of the repository, once
       tools/respell.py --list   what would be renamed, and which names would fall together

Renamed are the names that a file of specs/, or a file of lemmas in proofs/, declares: definitions, lemmas, fields, constructors, names in a `where`.
Functions of src/, strings, inputs and outputs keep their names; so does what Rattle makes. In a comment a name with a dash is a word of English unless
it stands in backticks.
"""
import os
import re
import sys

DECLARED = re.compile(r"^\s*(?:abbrev\s+|unfoldable\s+)?(?:pub\s+)?((?:[a-z][\w'-]*,?\s+)*?[a-z][\w'-]*)(?:\s+\{[^}]*\})?\s+:\s")
TOKEN = re.compile(r"[A-Za-z_][\w'-]*")
# Lemmas that would fall together with the definition that they are about, and examples with what they compute.
EXAMPLES = "fc-rule sim-rule fresh-process numbers-given object-bytes user-bytes open-marks refused-setup trusted-logins".split()
LAWS = """add-object bit-or add-user by-class few-calls is-clone is-create is-login is-on-object kind-at mac-object mark-place may-read may-write new-clone
new-login new-parent no-request object-entered object-gains objects-section parent-fits process-bytes process-gains refused-length set-of switches-entered
user-entered users-section word-at""".split()
APART = {n: n.replace("-", "_") + "_example" for n in EXAMPLES} | {n: n.replace("-", "_") + "_law" for n in LAWS}
# The same for names that port.py had brought to snake case: in the file that declares them, and in those that import them from there.
THERE = {
    "crates/modules/specs/Laws/Parts.antt": ("Rattle.modules.specs.Laws.Parts", ("answers_by", "moved_by")),
    "crates/history/specs/Laws/CallBytes.antt": ("Rattle.history.specs.Laws.CallBytes", ("four_bytes",)),
    "crates/rules/specs/Proofs/Records.antt": ("Rattle.rules.specs.Proofs.Records", ("kept_byte",)),
    "crates/rules/specs/Proofs/Flags.antt": ("Rattle.rules.specs.Proofs.Flags", ("source_in",)),
    "crates/state/specs/Laws/ReadBack.antt": ("Rattle.state.specs.Laws.ReadBack", ("one_more",)),
}


def snake(name):
    name = re.sub(r"(?<=[a-z0-9])(?=[A-Z])", "_", name)
    return name.replace("-", "_").lower()


def files(endings):
    for folder, dirs, names in os.walk("crates"):
        dirs[:] = sorted(d for d in dirs if d != "out")
        for name in sorted(names):
            if name.endswith(endings):
                yield os.path.join(folder, name)


def of_a_function(path):
    return "/proofs/" in path and os.path.basename(path) in ("Proof.antt", "Answers.antt", "Invariants.antt")


def declared():
    found = {}
    for path in files(".antt"):
        if of_a_function(path):
            continue
        for line in open(path, encoding="utf-8"):
            if line.lstrip().startswith(("--", "use ", "ghost use ")):
                continue
            m = DECLARED.match(line)
            if m:
                for name in re.split(r"[,\s]+", m.group(1)):
                    found.setdefault(name, set()).add(path)
    return {n: ps for n, ps in found.items() if n not in ("pub", "mod", "abbrev", "unfoldable", "record", "data", "where")}


def renamed(names):
    return {n: APART.get(n, snake(n)) for n in names if APART.get(n, snake(n)) != n}


def turn(text, table, dashes=True):
    def one(m):
        word = m.group(0)
        return table[word] if word in table and (dashes or "-" not in word) else word

    return TOKEN.sub(one, text)


def turn_comment(text, table):
    parts = re.split(r"(`[^`]*`)", text)
    return "".join(turn(p, table, dashes=p.startswith("`")) for p in parts)


def turn_line(line, table, mark):
    """Strings stay; what stands behind `mark` is a comment."""
    out = []
    rest = line
    while rest:
        at = min((i for i in (rest.find('"'), rest.find(mark)) if i >= 0), default=-1)
        if at < 0:
            out.append(turn(rest, table))
            break
        out.append(turn(rest[:at], table))
        if rest[at] == '"':
            end = at + 1
            while end < len(rest) and rest[end] != '"':
                end += 2 if rest[end] == "\\" else 1
            out.append(rest[at : end + 1])
            rest = rest[end + 1 :]
        else:
            out.append(turn_comment(rest[at:], table))
            break
    return "".join(out)


def apart_there():
    for declares, (module, names) in THERE.items():
        for path in files(".antt"):
            with open(path, encoding="utf-8") as f:
                text = f.read()
            brought = [n for n in names if path == declares or re.search(rf"(?m)^use {re.escape(module)}\.\{{[^}}]*(?<![\w'-]){n}(?![\w'-])", text)]
            new = re.sub(r"(?<![.\w'-])[a-z][\w'-]*", lambda m: m.group(0) + "_law" if m.group(0) in brought else m.group(0), text)
            if new != text:
                with open(path, "w", encoding="utf-8") as f:
                    f.write(new)


def main(argv):
    if argv != ["--list"]:
        apart_there()
    names = declared()
    table = renamed(names)
    if argv == ["--list"]:
        meets = {}
        for n in names:
            meets.setdefault(table.get(n, n), []).append(n)
        for new, olds in sorted(meets.items()):
            if len(olds) > 1:
                print("together:", new, {o: sorted(names[o])[:4] for o in olds})
        print(len(table), "names")
        return
    for path in files((".antt", ".rt")):
        with open(path, encoding="utf-8") as f:
            text = f.read()
        mark = "--" if path.endswith(".antt") else "//"
        new = "".join(turn_line(line, table, mark) for line in text.splitlines(keepends=True))
        if new != text:
            with open(path, "w", encoding="utf-8") as f:
                f.write(new)


main(sys.argv[1:])

"""Measures and prints the tables of docs/PERFORMANCE.md; with --page it also puts them between the page's markers. Run by bench/run."""

import os
import re
import subprocess
import sys

import programs

ROOT = programs.ROOT
PAGE = os.path.join(ROOT, "docs", "PERFORMANCE.md")
ASKED_IN_PLACE, ASKED_TO_INLINED, ASKED_OF_PROGRAM = 2.0, 3.0, 2.5
CHAIN = 127                   # directories above the file; DEPTH in bench.c


def pin():
    """Stays on one core, so that no program is moved while it is timed. Whether it can."""
    try:
        os.sched_setaffinity(0, {max(os.sched_getaffinity(0))})
        return True
    except (AttributeError, OSError):
        return False


def lines(program):
    """The fields of each line that a program of target/bench prints."""
    got = subprocess.run([os.path.join(ROOT, "target", "bench", program)], stdout=subprocess.PIPE, check=False, text=True)
    if got.returncode != 0:
        sys.exit("%s: %s" % (program, got.stdout))
    return [line.split("\t") for line in got.stdout.splitlines()]


def table(head, rows):
    """A table of Markdown; `-` where nothing was measured."""
    cells = [head] + [["-" if cell is None else str(cell) for cell in row] for row in rows]
    widths = [max(len(row[k]) for row in cells) for k in range(len(head))]
    written = ["| " + " | ".join(cell.ljust(width) for cell, width in zip(row, widths)) + " |" for row in cells]
    return "\n".join([written[0], "|" + "|".join("-" * (width + 2) for width in widths) + "|"] + written[1:])


def number(text):
    return None if text == "-" else float(text)


def tenths(x):
    return None if x is None else "%.1f" % x


def ratio(a, b):
    return None if a is None or b is None else tenths(a / b)


def spread(*pairs):
    """By how much the median of the rounds is above the best one, of the worst."""
    known = [100 * (median / best - 1) for best, median in pairs if best is not None]
    return "%.0f %%" % max(known) if known else None


def timed(fields):
    """Of a line of bench: name, and best and median of where it is (proved, plain, inlined) and by value (proved, plain)."""
    figures = [number(x) for x in fields[2:]]
    return fields[1], [tuple(figures[k:k + 2]) for k in range(0, len(figures), 2)]


def call_rows(rows):
    for name, (at, plain, inlined, value, plain_value) in rows:
        rate = None if at[0] is None else "%.1f" % (1e3 / at[0])
        yield [name, tenths(at[0]), tenths(plain[0]), ratio(at[0], plain[0]), tenths(inlined[0]), ratio(at[0], inlined[0]), rate,
               spread(at, plain, inlined), tenths(value[0]), tenths(plain_value[0]), ratio(value[0], plain_value[0]), spread(value, plain_value)]


def for_each(above, below):
    """Nanoseconds for each directory; 0.00 and not -0.00 where both take the same."""
    return "%.2f" % (round((below - above) / CHAIN, 2) + 0.0)


def chain_rows(flat, deep):
    """The same call on a file without a parent and below 127 directories; nanoseconds for each directory, proved, plain and inlined."""
    for (name, above), (other, below) in zip(flat, deep):
        if name != other:
            sys.exit("bench: %s beside %s" % (name, other))
        for directories, (at, plain, inlined, _, _) in ((0, above), (CHAIN, below)):
            each = [for_each(here[0], there[0]) for here, there in zip(above[:3], below[:3])] if directories else [None] * 3
            yield [name, directories, tenths(at[0]), tenths(plain[0]), ratio(at[0], plain[0]), tenths(inlined[0]), ratio(at[0], inlined[0]), *each,
                   spread(at, plain, inlined)]


def whole_rows(rows):
    for name, (at, plain, inlined, value, _) in rows:
        yield [name, tenths(at[0]), tenths(plain[0]), ratio(at[0], plain[0]), tenths(inlined[0]), ratio(at[0], inlined[0]),
               tenths(value[0]), ratio(value[0], plain[0]), spread(at, plain, inlined, value)]


def against(asked, taken, plain):
    return "%.2f, %s" % (taken / plain, "reached" if taken <= asked * plain else "missed")


def target_rows(rows, times):
    for name, (at, plain, inlined, value, plain_value) in rows:
        yield [name, ASKED_IN_PLACE, against(ASKED_IN_PLACE, at[0], plain[0]), ASKED_TO_INLINED, against(ASKED_TO_INLINED, at[0], inlined[0]),
               ratio(value[0], plain[0]), ratio(plain_value[0], plain[0])]
    proved, plain, inlined = (times[name][0] for name in ("proved", "plain", "inlined"))
    yield ["run program", ASKED_OF_PROGRAM, against(ASKED_OF_PROGRAM, proved, plain), None, "%.2f" % (proved / inlined), None, None]


def run_rows(times):
    for name, key in (("proved", "proved"), ("plain C", "plain"), ("plain C, inlined", "inlined"), ("model", "model")):
        best, median = times[key]
        yield [name, "%.3f" % best, "%.0f" % (programs.CALLS / best), ratio(best, times["plain"][0]), ratio(best, times["inlined"][0]),
               spread((best, median))]


def machine(pinned, load):
    """What it is measured on; a load above 0.5 before the start says that something else was running."""
    try:
        with open("/proc/cpuinfo", encoding="utf8") as file:
            names = [line.split(":", 1)[1].strip() for line in file if line.startswith("model name")]
    except OSError:
        names = []
    return "%s, %d cores, %s, load average %.1f before it" % (
        names[0] if names else "processor not known", os.cpu_count(), "pinned to one" if pinned else "not pinned", load)


def sections():
    """The text of each part of the page, by its marker's name."""
    load = os.getloadavg()[0]
    pinned = pin()
    measured = lines("bench")
    calls = [timed(line) for line in measured if line[0] == "call"]
    wholes = [timed(line) for line in measured if line[0] == "whole"]
    flat, deep = ([timed(line) for line in measured if line[0] == sort] for sort in ("flat", "deep"))
    trials, taken = [line[1:] for line in measured if line[0] == "agreement"][0]
    copies = [line[1:] for line in lines("copies")]
    times, accepted = programs.measured()
    return {
        "agreement": "Measured on: %s.\nAgreement before it: %s random calls, %s accepted, none differs." % (machine(pinned, load), trials, taken),
        "calls": table(["ns for each call", "where it is: proved", "plain C", "ratio", "inlined", "ratio", "million/s", "spread", "by value: proved",
                        "plain C", "ratio", "spread"], call_rows(calls)),
        "chains": table(["ns for each call, where it is", "directories", "proved", "plain C", "ratio", "inlined", "ratio",
                         "for each directory: proved", "plain C", "inlined", "spread"], chain_rows(flat, deep)),
        "wholes": table(["ns", "where it is: proved", "plain C", "ratio", "inlined", "ratio", "by value: proved", "ratio to plain C", "spread"],
                        whole_rows(wholes)),
        "programs": table(["program", "seconds", "calls/s", "to plain C", "to inlined", "spread"], run_rows(times))
                    + "\n\n%d calls, %d accepted; the model's seconds are ten times those of a tenth of the calls." % (programs.CALLS, accepted),
        "copies": table(["call", "copies"], copies),
        "targets": table(["", "asked for", "to plain C", "asked for", "to inlined", "by value", "plain C by value"], target_rows(calls, times)),
    }


def put_page(parts):
    with open(PAGE, encoding="utf8") as file:
        page = file.read()
    for name, text in parts.items():
        begin, end = "<!-- bench/run: %s -->" % name, "<!-- end -->"
        page, found = re.subn(re.escape(begin) + ".*?" + re.escape(end), lambda _, t=text: "%s\n%s\n%s" % (begin, t, end), page, flags=re.S)
        if found != 1:
            sys.exit("%s: no place for %s" % (PAGE, name))
    with open(PAGE, "w", encoding="utf8") as file:
        file.write(page)


def main():
    parts = sections()
    print("\n\n".join(parts.values()))
    if sys.argv[1:] == ["--page"]:
        put_page(parts)


if __name__ == "__main__":
    main()

"""The run program of the paper: python3 model/run.py SETUP_FILE < CALLS"""

import sys

import model


def run(setup, calls):
    """The lines printed; with the facility and the account after the calls
    (both None for a refused set-up)."""
    number, index, facility = model.read_setup(setup)
    if number != 0:
        return ["set-up %d %d" % (number, index)], None, None   # reading 10
    account = model.Account(setup)
    lines = []
    whole = len(calls) // 4
    for i in range(whole):
        call = tuple(calls[4 * i:4 * i + 4])
        outcome = model.enforce(facility, call)
        account.note(call, outcome.number == 0)
        lines.append("%d %d %d %d %d %d %d %s" % (
            (i + 1,) + call + (outcome.number, outcome.combined,
                               level_of(facility, call[1]))))
    if len(calls) % 4 != 0:
        lines.append("short")                                   # reading 11
    return lines, facility, account


def level_of(facility, p):
    """reading 12"""
    if p >= model.PROCESSES or facility.processes[p] is None:
        return "-"
    # "The run program prints the level alone."
    return str(facility.processes[p].current.level)


def read_file(name):
    """A set-up that cannot be read counts as empty."""
    try:
        with open(name, "rb") as file:
            return file.read()
    except OSError:
        return b""


def main():
    name = sys.argv[1] if len(sys.argv) > 1 else "setup.bin"
    setup = read_file(name)
    lines, _, _ = run(setup, sys.stdin.buffer.read())
    sys.stdout.write("".join(line + "\n" for line in lines))


if __name__ == "__main__":
    main()

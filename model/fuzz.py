"""Compares the run program, and the run in words, with the model: python3 -B model/fuzz.py SEED CALLS

Fresh set-ups and lists of calls from the seed, until CALLS calls were made: those of vectors.py, among them set-ups full of parents, with
chains as deep as 127 directories, creates at every depth and deleted directories, and lists rich in signals, between windows at one label
and at others, of trusted owners too, to itself, with what channels hold carried on, and lists rich in moves, whose processes go up by reads
and down by writes as often as they may, with clones, and lists rich in labels of which neither dominates the other; most set-ups have
categories, some none. The same with set-ups and calls damaged, cut short or made longer, and lists of random
bytes. Of every list the number of moves that the model's processes carry is held against their history and their bound. The programs are
target/bin/run and target/bin/run_words (`tools/programs` builds them). Then the hostile inputs: no `setup.bin`, a folder of that
name, one that is empty, cut, too long or unreadable, no calls, and an output that nobody reads. Ends with the number of comparisons, or at
the first difference, which it leaves in a folder.
"""

import os
import random
import subprocess
import sys
import tempfile
import time

import moves
import run
import vectors
import words

ROOT = os.path.join(os.path.dirname(os.path.abspath(__file__)), "..")
RUN = os.path.abspath(os.path.join(ROOT, "target", "bin", "run"))
TREES = 0.25                  # the share of set-ups full of parents
SIGNALS = 0.25                # the share of lists rich in signals
MOVES = 0.2                   # the share of lists rich in moves
LABELS = 0.1                  # the share of lists rich in labels
WORDS = os.path.abspath(os.path.join(ROOT, "target", "bin", "run_words"))


def text(lines):
    return "".join(line + "\n" for line in lines).encode("ascii")


def output(program, folder, calls, told=""):
    """What a program prints; on standard error it must tell this."""
    made = subprocess.run([program], cwd=folder, input=calls, capture_output=True, check=True)
    if made.stderr != told.encode():
        sys.exit("told on standard error: %r" % made.stderr)
    return made.stdout


def place(folder, setup):
    with open(os.path.join(folder, "setup.bin"), "wb") as file:
        file.write(setup)


def compare(folder, setup, calls, in_words):
    """Gives how many signals were accepted."""
    place(folder, setup)
    lines = run.run(setup, calls)[0]
    same(folder, calls, output(RUN, folder, calls), text(lines))
    if in_words:
        same(folder, calls, output(WORDS, folder, calls), text(words.tell(setup, calls)))
    fields = [line.split() for line in lines]
    return sum(1 for line in fields if line[1:2] == ["16"] and line[5:6] == ["0"])


def same(folder, calls, got, expected):
    if got == expected:
        return
    for name, data in (("calls", calls), ("got", got), ("expected", expected)):
        with open(os.path.join(folder, name), "wb") as file:
            file.write(data)
    sys.exit("differs: see " + folder)


def damage(rng, data):
    """One of: a byte changed, cut short, bytes behind it, all of it random."""
    data = bytearray(data)
    way = rng.randrange(4)
    if way == 0 and data:
        data[rng.randrange(len(data))] = rng.randrange(256)
    elif way == 1:
        del data[rng.randrange(len(data) + 1):]
    elif way == 2:
        data += rng.randbytes(rng.randrange(1, 12))
    else:
        data = bytearray(rng.randbytes(len(data)))
    return bytes(data)


def one_case(rng):
    chance = rng.random()
    if chance < TREES:
        return vectors.tree_case(rng, rng.randrange(48))
    if chance < TREES + SIGNALS:
        return vectors.signal_case(rng, rng.randrange(48))
    if chance < TREES + SIGNALS + MOVES:
        return vectors.move_case(rng, rng.randrange(48))
    if chance < TREES + SIGNALS + MOVES + LABELS:
        return vectors.label_case(rng, rng.randrange(48))
    return vectors.some_case(rng)


def cases(rng):
    """Cases without end: a set-up and calls."""
    while True:
        for _ in range(60):
            setup, calls = one_case(rng)
            yield setup, calls
            yield setup, damage(rng, calls)
            if rng.random() < 0.3:
                yield damage(rng, setup), calls
        yield setup, rng.randbytes(rng.choice((4096, 4095, 4097, 8192, 40000)))


def hostile(folder):
    """The inputs that are no set-up, each with what must be printed."""
    calls = bytes(range(64))
    name = os.path.join(folder, "setup.bin")
    refused = b"set-up 14 0\n"
    tries = 0

    def check(expected, given=calls, why=None):
        nonlocal tries
        tries += 1
        same(folder, given, output(RUN, folder, given, "setup.bin: %s\n" % why if why else ""), expected)

    if os.path.exists(name):
        os.remove(name)
    check(refused, why="No such file or directory")
    os.mkdir(name)
    check(refused, why="Is a directory")
    os.rmdir(name)
    os.symlink("nowhere", name)
    check(refused, why="No such file or directory")
    os.remove(name)
    for data in (b"", bytes(7), bytes(1161), bytes(1168), bytes(4096), bytes(10000000)):
        place(folder, data)
        check(refused)
    os.chmod(name, 0)
    if os.geteuid() != 0:
        check(refused, why="Permission denied")
    os.chmod(name, 0o644)
    setup = b"".join((vectors.switches_record(1, 1, 1, 1), vectors.user_record(2, 0, 0)))
    place(folder, setup)
    check(b"", b"")
    check(b"short\n", b"\1")
    unread = subprocess.Popen([RUN], cwd=folder, stdin=subprocess.PIPE, stdout=subprocess.PIPE)
    unread.stdout.close()
    try:
        unread.stdin.write(bytes(1000000))
        unread.stdin.close()
    except BrokenPipeError:
        pass
    unread.wait(timeout=60)
    return tries + 1


def main():
    seed, most = int(sys.argv[1]), int(sys.argv[2])
    rng = random.Random(seed)
    begun, made, compared, told, signals, counts = time.time(), 0, 0, 0, 0, [0] * 5
    folder = tempfile.mkdtemp(prefix="fuzz-")
    for setup, calls in cases(rng):
        in_words = rng.random() < 0.2
        signals += compare(folder, setup, calls, in_words)
        counts = [sum(pair) for pair in zip(counts, moves.of_list(setup, calls))]
        compared += 1
        told += in_words
        made += len(calls) // 4
        if made >= most:
            break
    tries = hostile(folder)
    print("seed %d: %d calls in %d lists, %d lists in words too, %d signals accepted, %d calls with categories in the set-up, %d moves, "
          "%d of them of the set, %d lists at the bound, %d of them with categories, %d hostile inputs; none differs; %.0f s" % (
              seed, made, compared, told, signals, *counts, tries, time.time() - begun))


if __name__ == "__main__":
    main()

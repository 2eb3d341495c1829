"""The run program, the same in plain C compiled in two ways, and the model in Python, on the same calls: the same output, and how long each takes."""

import os
import random
import statistics
import subprocess
import sys
import tempfile
import time

ROOT = os.path.abspath(os.path.join(os.path.dirname(os.path.abspath(__file__)), ".."))
sys.path.insert(0, os.path.join(ROOT, "model"))

from records import object_record, switches_record, user_record  # noqa: E402

PROVED = [os.path.join(ROOT, "target", "bin", "run")]
PLAIN = [os.path.join(ROOT, "target", "bench", "plain_run")]
INLINED = [os.path.join(ROOT, "target", "bench", "inlined_run")]
MODEL = [sys.executable, "-B", os.path.join(ROOT, "model", "run.py")]
CALLS, MODEL_CALLS, ROUNDS, MODEL_ROUNDS = 1000000, 100000, 25, 5


def setup(rng):
    """All four modules on, few flags, half of the objects in a directory before them."""
    data = switches_record(1, 1, 1, 1) + b"".join(user_record(rng.randrange(6), rng.randrange(3), n == 0) for n in range(4))
    directories = []
    for number in range(24):
        kind = rng.randrange(4)
        flags = rng.choice((0, 0, 0, 0, 0, 1, 2, 4, 8)) + rng.choice((0, 128, 128))
        parent = rng.choice(directories) if directories and rng.randrange(2) else 0
        data += object_record(kind, rng.randrange(6), rng.randrange(3), rng.randrange(4) == 0, flags, parent)
        directories += [number + 1] if kind == 1 else []
    return data


def calls(rng, count):
    """Mostly good numbers: few processes, few objects. Of set-level (17) t is the set, and the set-up has no categories."""
    made = bytearray(byte for _ in range(count) for byte in (rng.randrange(22), rng.randrange(4), rng.randrange(24), rng.randrange(4)))
    for k in range(0, len(made), 4):
        if made[k] == 17:
            made[k + 2] = 0
    return bytes(made)


def output(program, folder, data):
    return subprocess.run(program, cwd=folder, input=data, stdout=subprocess.PIPE, check=True).stdout


def seconds(program, folder, path):
    """One run on the calls of a file, its output thrown away."""
    with open(path, "rb") as file:
        begun = time.perf_counter()
        subprocess.run(program, cwd=folder, stdin=file, stdout=subprocess.DEVNULL, check=True)
        return time.perf_counter() - begun


def in_turns(folder, path, part):
    """Rounds in which each program takes its turn, the model in the first ones; best and median of each."""
    taken = {"proved": [], "plain": [], "inlined": [], "model": []}
    for k in range(ROUNDS):
        taken["proved"].append(seconds(PROVED, folder, path))
        taken["plain"].append(seconds(PLAIN, folder, path))
        taken["inlined"].append(seconds(INLINED, folder, path))
        if k < MODEL_ROUNDS:
            taken["model"].append(seconds(MODEL, folder, part) * CALLS / MODEL_CALLS)
    return {name: (min(t), statistics.median(t)) for name, t in taken.items()}


def write(path, data):
    with open(path, "wb") as file:
        file.write(data)
    return path


def measured():
    """Best and median of each program in seconds for all calls; the calls that were accepted. Ends where two outputs differ."""
    rng = random.Random(1)
    with tempfile.TemporaryDirectory(prefix="bench-") as folder:
        write(os.path.join(folder, "setup.bin"), setup(rng))
        data = calls(rng, CALLS)
        part = data[:MODEL_CALLS * 4]
        got = output(PROVED, folder, data)
        if got != output(PLAIN, folder, data) or got != output(INLINED, folder, data):
            sys.exit("the run programs differ")
        modelled = output(MODEL, folder, part)
        if modelled != b"".join(line + b"\n" for line in got.split(b"\n")[:MODEL_CALLS]):
            sys.exit("the model differs")
        accepted = sum(1 for line in got.split(b"\n") if line.split(b" ")[5:6] == [b"0"])
        return in_turns(folder, write(os.path.join(folder, "calls"), data), write(os.path.join(folder, "part"), part)), accepted

"""Compares the library for C with the model: python3 -B model/through_library.py SEED CALLS

Set-ups and lists of calls from the seed, until CALLS calls were made, through model/library.c: those of fuzz.py, as many in which many users and
objects meet calls that the modules judge, and as many in which labels move; most set-ups have categories. Each call is made by value and where the
facility is, and before that on a copy at another seat, where it must be refused and change nothing. Before each call and after it what is told of why
it is refused is compared, as bytes and in words, and of each call both lines in words. After each call its outcome, the sixteen counters of
refusals, for each user how often its processes
move at most, for every process the number of moves and all labels, level and set, the calling process, the target as a process and the target as an
object are compared, the object with its effective flags and where each comes from; after the last call the set-up written out, which must be read
back, also into buffers that are too short or longer: of the first lists of each kind into those of every length up to 8 bytes beyond the need. Half
of the lists begin with counters that C put into the facility, at their stop, next to it, or anywhere; in some C puts in marks of open objects, so
that a write meets a read-only file, which no list of calls has open for writing, or levels and sets of a process, so that with MAC off there are
labels other than the first ones, which no list of calls gives, or a number of moves, at its stop, next to it, or any, or sets of any byte for a
process, an object or a clearance. Where C put in no labels and no moves, each number of moves is held against the history of its process, and is at
most the owner's clearance's level plus its number of categories plus 1. Of some lists with accepted signals hv_holds is asked who holds whose matter,
which it works out from the set-up and the calls. The words of roles, categories and data types are compared once, of every byte. examples/c/library
makes the library; cc, or what CC names, builds the program. Ends with the number of calls, or at the first difference.
"""

import collections
import os
import random
import subprocess
import sys
import time

import fuzz
import model
import moves
import reasons
import vectors
from model import Label
from records import object_record, switches_record, user_record
from words import Told, category_words, data_type_words, role_words, why_words

ROOT = os.path.abspath(os.path.join(os.path.dirname(os.path.abspath(__file__)), ".."))
PROGRAM = os.path.join(ROOT, "target", "c", "library")
STOP = model.COUNTER_STOP
OPENS = 254                   # a call of this request, which is none: C puts in marks of an open object before it
LEVELS = 253                  # the same for the levels and marks of a process
MOVES = 252                   # the same for the number of moves of a process
SETS = 251                    # the same for the sets of its labels
OBJECT_SET = 250              # the same for the set of an object's label
CLEARANCE_SET = 249           # the same for the set of a user's clearance
BATCH = 100
EVERY = 12                    # so many lists are written out into buffers of every length
BEYOND = 8
OTHER = 165                   # what stands in a buffer before
JUDGED = (model.READ_OPEN, model.READ_OPEN, model.SEARCH, model.GET_STATUS, model.WRITE_OPEN, model.READ_WRITE_OPEN)
PAIRS = 6                     # so many times the account is asked of a list at most
ASKED = 16                    # of objects below this number
STATUSES = {1: "differs: by value and where the facility is", 3: "differs: a set-up written out is not read back", 4: "differs: a text cut off",
            5: "differs: a call at a seat that has no process"}


def build():
    subprocess.run(["examples/c/library"], cwd=ROOT, check=True)
    os.makedirs(os.path.dirname(PROGRAM), exist_ok=True)
    subprocess.run([os.environ.get("CC", "cc"), "-std=c11", "-O2", "-Wall", "-Wextra", "-Iinclude", "-o", PROGRAM, "model/library.c",
                    "target/staticlib/libhvozdalka.a"], cwd=ROOT, check=True)


def words(numbers):
    return b"".join(n.to_bytes(4, "little") for n in numbers)


def counters(rng):
    """What C puts into the counters."""
    if rng.random() < 0.5:
        return [0] * model.MAX_USERS
    return [rng.choice((STOP - rng.randrange(3), rng.randrange(STOP + 1), rng.randrange(2))) for _ in range(model.MAX_USERS)]


def busy(rng):
    """Many users and objects, and calls most of which the modules judge."""
    users, objects, processes = rng.randrange(1, 17), rng.randrange(4, 24), rng.randrange(1, 9)
    sets = vectors.some_sets(rng)
    setup = switches_record(*(rng.random() < 0.8 for _ in range(4)))
    setup += b"".join(user_record(rng.randrange(6), rng.randrange(3), rng.random() < 0.1, vectors.clearance_set(rng, sets)) for _ in range(users))
    directories = [0]
    for number in range(objects):
        kind = rng.randrange(4)
        flags = rng.choice((0, rng.randrange(16))) + rng.choice((0, model.ADD_INHERITED))
        level = rng.choice((0, 1, 2, 3, 4, 5, model.UNSET))
        # now and then a set where the level is unset, which is refused
        setup += object_record(kind, level, rng.choice((0, 0, 1, 2, model.UNSET)), rng.random() < 0.3, flags, rng.choice(directories),
                               rng.choice(sets) if level != model.UNSET or rng.random() < 0.02 else 0)
        directories += [number + 1] if kind == model.DIRECTORY else []
    calls, put_sets = [(model.LOGIN, p, 0, rng.randrange(users)) for p in range(processes)], rng.random() < 0.3
    for _ in range(rng.randrange(20, 200)):
        request = rng.choice(tuple(range(22)) + (model.READ_OPEN, model.WRITE_OPEN, model.SET_LEVEL, model.SEND_SIGNAL))
        extra = rng.randrange(users) if request == model.LOGIN else rng.randrange(4)
        p, t = rng.randrange(processes + 1), rng.randrange(objects + 1)
        if request in (model.READ, model.WRITE, model.CLOSE) and rng.random() < 0.5:
            calls.append((OPENS, p, t, rng.randrange(4)))
        if put_sets and rng.random() < 0.2:
            some = rng.choice((rng.choice(sets), rng.choice(sets), rng.randrange(256)))
            calls.append(rng.choice(((SETS, p, some, rng.randrange(8)), (OBJECT_SET, 0, t, some), (CLEARANCE_SET, rng.randrange(users), some, 0))))
            # what the labels then decide, also where current is no longer under write mark and clearance
            calls += [(rng.choice(JUDGED), p, rng.randrange(objects), 0) for _ in range(3)]
        if request == model.SEND_SIGNAL:
            calls += meeting(rng, p, rng.randrange(processes + 1), sets)
        elif request == model.SET_LEVEL:
            calls.append((request, p, rng.choice((rng.choice(sets), rng.choice(sets), rng.randrange(256))), extra))
        else:
            calls.append((request, p, t, extra))
    return setup, b"".join(map(bytes, calls))


def meeting(rng, p, q, sets):
    """A signal from p to q, mostly at one label: what they have, or a set one, or one that C puts in; then what q's mark decides."""
    level, held, way = rng.randrange(4), rng.choice(sets), rng.random()
    calls = []
    if way < 0.3:
        calls += [(model.SET_LEVEL, n, held if rng.random() < 0.9 else rng.choice(sets), level) for n in sorted({p, q})]
    elif way < 0.5:
        # current and read mark by e, write mark by t, now and then of the sender another current
        calls += [(LEVELS, q, rng.choice((15, rng.randrange(16))), level + 16 * rng.randrange(16)),
                  (LEVELS, p, 15, rng.choice((level, level, level, rng.randrange(16))) + 16 * rng.randrange(level + 1))]
        calls += [(SETS, n, rng.choice((held, held, rng.choice(sets))), 1) for n in (p, q)] * (rng.random() < 0.7)
    calls.append((model.SEND_SIGNAL, p, q if rng.random() < 0.9 else p, rng.randrange(256)))
    return calls + [(model.SET_LEVEL, q, rng.choice((0, held)), rng.randrange(4))] * (rng.random() < 0.5)


# requests of each class, by kind; few deletes, so that something is left
BY_CLASS = {letter: {kind: [request for request, of in requests.items() if of == letter and request != model.DELETE]
                     for kind, requests in model.CLASSES.items()} for letter in "RWB"}


def way(rng, clearance, kinds):
    """Calls of a process, without it: up by reads, up by a write, down by writes to what was read, each label in turn or some left out, and
    some that would move it once more. Labels are told by their place in a chain; objects 2 * L, a file, and 2 * L + 1 are of the one at place L."""
    each = rng.random() < 0.7
    read = rng.randrange(max(1, clearance)) if each else rng.randrange(clearance + 1)
    high = clearance if each else rng.randrange(read, clearance + 1)
    steps = [(level, "R") for level in range(1, read + 1)] + [(level, "W") for level in range(high, read - 1, -1)]
    steps[-1] = (steps[-1][0], rng.choice("WB"))
    steps = [step for step in steps if each or rng.random() < 0.6]
    steps += [(rng.randrange(len(kinds) // 2), rng.choice("RWB")) for _ in range(rng.randrange(4))]
    calls = []
    for level, letter in steps:
        t = 2 * level + rng.randrange(2)
        t = t if BY_CLASS[letter][kinds[t]] else 2 * level
        request = rng.choice(BY_CLASS[letter][kinds[t]])
        calls.append((request, t, rng.randrange(2)))
    return calls


def label_chain(rng, most):
    """Labels, each with one level or one category more than that before it: so many steps and one more, where there is room; often levels alone."""
    steps = min(most + 1, model.TOP_LEVEL + 8)
    least = max(0, steps - model.TOP_LEVEL)
    categories = least if rng.random() < 0.4 else rng.randint(least, min(8, steps))
    return vectors.chain(rng, Label(steps - categories, sum(1 << n for n in rng.sample(range(8), categories))))


def moving(rng):
    """Few users, objects of each label of a chain, and processes and their clones that go such ways, one call of one and one of another."""
    clearances = [rng.choice((0, 1, 2, 3, 3, 5, 15)) for _ in range(rng.randrange(1, 5))] + [23] * (rng.random() < 0.1)
    labels = label_chain(rng, max(clearances))
    kinds = [kind for _ in labels for kind in (model.FILE, rng.randrange(4))]
    setup = switches_record(rng.random() < 0.9, *(rng.random() < 0.2 for _ in range(3)))
    setup += b"".join(user_record(labels[place].level, rng.randrange(3), rng.random() < 0.1, labels[place].set) for place in clearances)
    setup += b"".join(object_record(kind, labels[n // 2].level, rng.random() < 0.05, 0, rng.random() < 0.05, 0, labels[n // 2].set)
                      for n, kind in enumerate(kinds))
    put_in, calls, left, most = rng.random() < 0.3, [], {}, rng.randrange(40, 200)
    while len(calls) < most:
        chance = rng.random()
        p = rng.choice(sorted(left)) if left else rng.randrange(8)
        if chance < 0.15 or not left:
            p, user = rng.randrange(8), rng.randrange(len(clearances))
            calls += [(model.TERMINATE, p, 0, 0), (model.LOGIN, p, 0, user)]
            left[p] = way(rng, clearances[user], kinds)
        elif chance < 0.2:
            q = rng.randrange(8, 12)
            calls += [(model.TERMINATE, q, 0, 0), (model.CLONE, p, q, 0)]
            left[q] = list(left[p])
        elif chance < 0.23:
            label = rng.choice(labels)
            calls.append(rng.choice(((model.SET_LEVEL, p, label.set, label.level), (model.SEND_SIGNAL, p, rng.randrange(12), 0))))
        elif chance < 0.28 and put_in:
            calls.append((MOVES, p, rng.choice((253, 254, 255, rng.randrange(256))), 0))
        elif left[p]:
            request, t, e = left[p].pop(0)
            calls.append((request, p, t, e))
        else:
            del left[p]
    return setup, b"".join(map(bytes, calls))


def record(facility, p):
    """A process as C is given it."""
    process = facility.processes[p] if p < model.PROCESSES else None
    if process is None:
        return bytes(10)
    return bytes((1, process.owner, *label_bytes(process), process.automatic, process.moves))


def label_bytes(process):
    return [byte for label in (process.current, process.read_mark, process.write_mark) for byte in (label.level, label.set)]


def object_bytes(facility, t):
    """An object as C is given it, its effective flags, and where each flag comes from."""
    if t >= len(facility.objects):
        return bytes(9) + bytes([model.NO_OBJECT] * 5)
    obj = facility.objects[t]
    sources = [model.flag_source(facility, t, flag) for flag in model.FLAGS]
    return bytes((obj.live, obj.kind, obj.label.level, obj.label.set, obj.category, obj.data_type, obj.flags,
                  0 if obj.parent is None else obj.parent + 1, model.effective_flags(facility, t),
                  *(model.NO_OBJECT if source is None else source for source in sources)))


def put_levels(facility, p, t, e):
    """What C does before a call of request LEVELS."""
    if p < model.PROCESSES and facility.processes[p] is not None:
        process = facility.processes[p]
        process.current, process.read_mark = Label(e % 16, process.current.set), Label(e // 16, process.read_mark.set)
        process.write_mark = Label(t % 16, process.write_mark.set)


def put_moves(facility, p, t):
    """What C does before a call of request MOVES."""
    if p < model.PROCESSES and facility.processes[p] is not None:
        facility.processes[p].moves = t


def put_sets(facility, p, t, e):
    """What C does before a call of request SETS."""
    if p < model.PROCESSES and facility.processes[p] is not None:
        for bit, name in enumerate(("current", "read_mark", "write_mark")):
            if e >> bit & 1:
                setattr(facility.processes[p], name, Label(getattr(facility.processes[p], name).level, t))


def put_object_set(facility, t, e):
    """What C does before a call of request OBJECT_SET."""
    if t < len(facility.objects) and facility.objects[t].live and facility.objects[t].label.level != model.UNSET:
        facility.objects[t].label = Label(facility.objects[t].label.level, e)


def put_clearance_set(facility, p, t):
    """What C does before a call of request CLEARANCE_SET."""
    if p < len(facility.users):
        facility.users[p].clearance = Label(facility.users[p].clearance.level, t)


def put_marks(facility, p, t, marks):
    """What C does before a call of request OPENS."""
    if p < model.PROCESSES and facility.processes[p] is not None and t < len(facility.objects) and facility.objects[t].live:
        for held, bit in ((facility.processes[p].open_reading, 1), (facility.processes[p].open_writing, 2)):
            held.discard(t)
            held |= {t} if marks & bit else set()


def rooms_of(rng, need, every):
    """Lengths of buffers: every one, or some around the need and below it."""
    return list(range(need + BEYOND + 1)) if every else [rng.randrange(need), need - 1, need, need + rng.randrange(1, BEYOND + 1)]


def into(facility, room):
    """What the library gives of a buffer of so many bytes, and the bytes behind it."""
    buffer = bytearray([OTHER] * room)
    number, length = model.write_setup(facility, buffer)
    return bytes([number]) + length.to_bytes(2, "little") + bytes(buffer) + bytes([OTHER] * BEYOND)


def pairs_of(rng, account, without):
    """Who is asked whether it holds whose matter: first those that do by a signal, then some that do, then any."""
    objects = range(min(ASKED, len(account.object_sets)))
    held = [(x, c) for x in objects for c in objects if x != c and account.object_holds(x, c)]
    by_signal = [(x, c) for x, c in held if not without.object_holds(x, c)]
    pairs = [rng.choice(some) for some in (by_signal, by_signal, held) if some]
    return pairs + [(rng.choice(objects), rng.choice(objects)) for _ in range(PAIRS - len(pairs))] if objects else []


def put_in(facility, call):
    """What C puts in before a call."""
    request, p, t, e = call
    if request == OPENS:
        put_marks(facility, p, t, e)
    elif request == LEVELS:
        put_levels(facility, p, t, e)
    elif request == MOVES:
        put_moves(facility, p, t)
    elif request == SETS:
        put_sets(facility, p, t, e)
    elif request == OBJECT_SET:
        put_object_set(facility, t, e)
    elif request == CLEARANCE_SET:
        put_clearance_set(facility, p, t)


def why_bytes(facility, call):
    """What the library tells of why a call is refused: bytes, and words behind their length."""
    failed = reasons.failed(facility, call)
    text = why_words(facility, call, failed).encode("ascii")
    return bytes(failed) + len(text).to_bytes(2, "little") + text


def line_bytes(told, index, outcome):
    """Both lines in words, behind their lengths."""
    lines = [line.encode("ascii") + b"\n" for line in (told.short(index, outcome), told.full(index, outcome))]
    return b"".join(len(line).to_bytes(2, "little") + line for line in lines)


def call_bytes(facility, call, outcome):
    """What the library gives of a call after it."""
    most = bytes(model.most_moves(facility, user) for user in range(model.MAX_USERS)) + words([model.most_moves(facility, call[3])])
    carried = b"".join(bytes((process.moves, *label_bytes(process))) if process else bytes(7) for process in facility.processes)
    return (bytes(outcome) + words(facility.refusals) + most + carried + record(facility, call[1]) + record(facility, call[2])
            + object_bytes(facility, call[2]))


class Seen:
    """What a call did, for the counts of the last line."""

    def __init__(self, seen, facility, call):
        self.seen, self.facility, self.call = seen, facility, call
        self.refusals = list(facility.refusals)
        self.caller, self.receiver = (facility.processes[n] if n < model.PROCESSES else None for n in call[1:3])
        self.mark = self.receiver and self.receiver.read_mark

    def after(self, outcome):
        request, p, t, _ = self.call
        seen, facility = self.seen, self.facility
        if outcome.number in (12, 13):
            seen["denied"] += 1
            failed = reasons.failed(facility, self.call)
            seen.update(name for name, value in zip(failed._fields, failed) if value)
            seen["at a stop"] += facility.refusals == self.refusals
            seen["by FF"] += outcome.ff == model.NOT_GRANTED
            seen["write"] += outcome.ff == model.NOT_GRANTED and request == model.WRITE and facility.objects[t].kind != model.DIRECTORY
        if outcome.number != 0:
            return
        if request == model.SEND_SIGNAL:
            seen["signals"] += 1
            seen["raised"] += self.receiver.read_mark != self.mark
        if model.needs_object(request, self.call[3]) and facility.processes[p].current != self.caller.current:
            seen["moves"] += 1
            seen["moves of the set"] += facility.processes[p].current.set != self.caller.current.set
            seen["moves at the stop"] += self.caller.moves == model.MOVES_STOP


def follow(setup, facility, calls, out, seen):
    """Enforces a list, and puts what the library gives of each call behind `out`. The account after it, and the one without its signals."""
    account, without = model.Account(setup), model.Account(setup)
    # the history knows nothing of what C puts in
    fresh = not any(request in (LEVELS, MOVES, SETS, OBJECT_SET, CLEARANCE_SET) for request in calls[:len(calls) // 4 * 4:4])
    held = moves.Held(facility, setup)
    seen["with categories"] += len(calls) // 4 if moves.with_categories(facility) else 0
    for i in range(0, len(calls) - 3, 4):
        call = tuple(calls[i:i + 4])
        put_in(facility, call)
        before, why, told = Seen(seen, facility, call), why_bytes(facility, call), Told(facility, call)
        outcome = held.enforce(call) if fresh else model.enforce(facility, call)
        before.after(outcome)
        out.append(why + why_bytes(facility, call) + line_bytes(told, i // 4 + 1, outcome) + call_bytes(facility, call, outcome))
        account.note(call, outcome.number == 0)
        if call[0] != model.SEND_SIGNAL:
            without.note(call, outcome.number == 0)
    if fresh:
        held.hold_all()
        seen["histories"] += held.compared
        seen["at the bound"] += held.at_bound
        seen["at the bound with categories"] += held.at_bound_with_categories
    return account, without


def expected(rng, setup, begin, calls, every, seen):
    """What the library gives of a list, of its set-up, each call, and then, and the lengths of buffers and the pairs of the account that it is asked for."""
    number, index, facility = model.read_setup(setup)
    out = [bytes((number, index % 256, index // 256))]
    if number != 0:
        return out, [], []
    facility.refusals = list(begin)
    signals = seen["signals"]
    account, without = follow(setup, facility, calls, out, seen)
    written = model.setup_bytes(facility)
    rooms = rooms_of(rng, len(written), every)
    out += [len(written).to_bytes(2, "little") + written] + [into(facility, room) for room in rooms]
    seen["buffers"] += len(rooms)
    seen["of every length"] += every
    pairs = []
    # the account knows nothing of what C puts in
    if seen["signals"] > signals and not any(CLEARANCE_SET <= request <= OPENS for request in calls[:len(calls) // 4 * 4:4]):
        pairs = pairs_of(rng, account, without)
        out.append(bytes(account.object_holds(x, c) for x, c in pairs))
        seen["asked"] += len(pairs)
        seen["by a signal"] += sum(account.object_holds(x, c) and not without.object_holds(x, c) for x, c in pairs)
    return out, rooms, pairs


def compare(rng, cases, seen):
    wants = [expected(rng, setup, begin, calls, seen["of every length"] < EVERY, seen) for setup, begin, calls in cases]
    given = b"".join(len(setup).to_bytes(2, "little") + setup + words(begin) + (len(calls) // 4).to_bytes(4, "little")
                     + calls[:len(calls) // 4 * 4] + b"".join(n.to_bytes(2, "little") for n in [len(rooms)] + rooms)
                     + bytes([len(pairs)]) + b"".join(map(bytes, pairs))
                     for (setup, begin, calls), (_, rooms, pairs) in zip(cases, wants))
    run = subprocess.run([PROGRAM], input=given, stdout=subprocess.PIPE)
    if run.returncode != 0:
        sys.exit(STATUSES.get(run.returncode, "the program failed: status %d" % run.returncode))
    at = 0
    for (setup, begin, calls), (wanted, _, _) in zip(cases, wants):
        for n, want in enumerate(wanted):
            got = run.stdout[at:at + len(want)]
            at += len(want)
            if got != want:
                place = "at the set-up" if n == 0 else "at call %d of %d" % (n - 1, len(calls) // 4) if n <= len(calls) // 4 else "behind the calls"
                sys.exit("differs %s: got\n%s, wanted\n%s;\nset-up %s\ncounters %s\ncalls %s" % (
                    place, got.hex(), want.hex(), setup.hex(), begin, calls.hex()))
    if at != len(run.stdout):
        sys.exit("differs: bytes behind the last call")


def compare_words():
    """The words of every byte as a role, a category and a data type."""
    run = subprocess.run([PROGRAM, "words"], stdout=subprocess.PIPE)
    wanted = "".join("%s,%s,%s\n" % (role_words(byte), category_words(byte), data_type_words(byte)) for byte in range(256))
    if run.returncode != 0 or run.stdout != wanted.encode("ascii"):
        sys.exit(STATUSES.get(run.returncode, "differs: the words of roles, categories and data types"))


def main():
    seed, most = int(sys.argv[1]), int(sys.argv[2])
    build()
    compare_words()
    rng = random.Random(seed)
    begun, made, lists, seen, batch = time.time(), 0, 0, collections.Counter(), []
    for case in fuzz.cases(rng):
        for setup, calls in (case, busy(rng), moving(rng)):
            batch.append((setup, counters(rng), calls))
            made += len(calls) // 4
            lists += 1
        if len(batch) >= BATCH or made >= most:
            compare(rng, batch, seen)
            batch = []
        if made >= most:
            break
    told = ", ".join("%s %d" % (name, seen[name]) for name in reasons.Failed._fields)
    print("seed %d: %d calls in %d lists through the library, %d denied (%s), %d of them at a stop, %d by FF, %d of these a write; "
          "%d signals accepted, %d of them raised a mark; %d calls with categories in the set-up; %d moves, %d of them of the set, %d at the stop, "
          "%d numbers held against their history, %d lists at the bound, %d of them with categories; "
          "the account asked %d times, %d of them true by a signal alone; written into %d buffers, of every length for %d lists; none differs; %.0f s" % (
              seed, made, lists, seen["denied"], told, seen["at a stop"], seen["by FF"], seen["write"], seen["signals"], seen["raised"],
              seen["with categories"], seen["moves"], seen["moves of the set"], seen["moves at the stop"], seen["histories"], seen["at the bound"],
              seen["at the bound with categories"], seen["asked"], seen["by a signal"], seen["buffers"], seen["of every length"], time.time() - begun))


if __name__ == "__main__":
    main()

"""Test vectors: python3 model/vectors.py SEED CASES OUTDIR

Writes OUTDIR/stdin and OUTDIR/stdout (formats in README.md) and prints
the coverage counts to standard error.  With 240 cases or more the coverage is
asserted.
"""

import collections
import os
import random
import sys

import model
import run
import setups
import trees
from model import (ADD_INHERITED, CHANNEL, CLASSES, CLONE, CLOSE, CONTROL, CREATE,
                   DELETE, DIRECTORY, EXECUTE, FILE, FLAGS, GET_STATUS, LOGIN,
                   MODIFY_ACCESS, NO_DELETE, NO_EXECUTE, READ, READ_ONLY, READ_OPEN,
                   READ_WRITE_OPEN, SEARCH, SEARCH_ONLY, SEND_SIGNAL, SET_LEVEL,
                   TERMINATE, UNSET, WRITE, WRITE_OPEN, Label)
from records import object_record, switches_record, user_record

FULL_COVERAGE = 240           # from so many cases on, coverage is asserted
SIZE_LIMIT = 700 * 1000       # of expected, at 240 cases
TOP = 3                       # of the levels where processes signal each other

# --- Labels ---------------------------------------------------------------


def some_sets(rng, none=0.4):
    """The sets that the labels of a set-up have: with chance `none` the empty one alone, or those of few categories, so that equal sets occur and
    many of which neither contains the other; now and then any."""
    if rng.random() < none:
        return [0]
    bits = [1 << n for n in rng.sample(range(8), rng.choice((1, 2, 2, 2, 3, 3)))]
    sets = [0]
    for bit in bits:
        sets += [held + bit for held in sets]
    return sets + [0, 0] + ([rng.randint(0, 255)] if rng.random() < 0.2 else [])


def all_of(sets):
    return sum(bit for bit in (1 << n for n in range(8)) if any(held & bit for held in sets))


def clearance_set(rng, sets):
    """Mostly all that are in use."""
    return rng.choice((all_of(sets), all_of(sets), all_of(sets), rng.choice(sets), 255 if sets != [0] else 0))


def above(label, other):
    """Whether the one label dominates the other, and is not it."""
    return label.dominates(other) and label != other


def rank(label):
    return label.level + sum(label.set >> n & 1 for n in range(8))


def chain(rng, label):
    """Labels from 0 with no category up to that one, each with one level or one category more than that before it."""
    steps = [(1, 0)] * label.level + [(0, 1 << n) for n in range(8) if label.set >> n & 1]
    rng.shuffle(steps)
    labels = [model.BOTTOM]
    for level, bit in steps:
        labels.append(Label(labels[-1].level + level, labels[-1].set + bit))
    return labels


# --- Set-ups --------------------------------------------------------------


def random_setup(rng, switches, users=None, objects=None):
    top = rng.choice((1, 2, 3, 3, 5, 15))
    trusting = rng.choice((0.0, 0.1, 0.4))
    unset = rng.choice((0.0, 0.05, 0.15))
    secret = rng.choice((0.1, 0.2, 0.6))
    # with FF on few flags, so that calls are accepted; with FF off they forbid nothing
    flagged = rng.choice((0.02, 0.05, 0.12)) if switches[3] else 0.3
    in_directories = rng.choice((0.2, 0.5, 0.8))
    sets = some_sets(rng)
    if users is None:
        users = rng.choice((1, 1, 2, 2, 3, 4, 5, 8, 16))
    if objects is None:
        objects = rng.choice((3, 6, 9, 12, 16, 20, 24, 40))
    data = switches_record(*switches)
    for _ in range(users):
        clearance = rng.choice((rng.randint(0, top), top, top, rng.randint(0, 15)))
        data += user_record(clearance, rng.choice((0, 0, 1, 1, 2)),
                            int(rng.random() < trusting), clearance_set(rng, sets))
    directories = []
    for number in range(objects):
        # the first four are one of each kind, so that each request has a target
        kind = number if number < 4 else rng.choice((0, 0, 0, 1, 2, 2, 3))
        level = UNSET if rng.random() < unset else rng.randint(0, top)
        category = UNSET if rng.random() < unset else rng.choice((0, 0, 0, 1, 2))
        flags = sum(flag for flag in FLAGS[:4] if rng.random() < flagged)
        flags += ADD_INHERITED if rng.random() < 0.6 else 0
        parent = 0
        if directories and rng.random() < in_directories:
            parent = rng.choice((rng.choice(directories), directories[-1])) + 1
        data += object_record(kind, level, category, int(rng.random() < secret), flags, parent,
                              0 if level == UNSET else rng.choice(sets))
        directories += [number] if kind == DIRECTORY else []
    return data


def signal_setup(rng, switches, none=0.4):
    """Users most of whom may read what there is, and objects of a few labels, channels among them."""
    top = rng.choice((1, 2, TOP, TOP))
    trusting = rng.choice((0.0, 0.3, 0.5))
    sets = some_sets(rng, none)
    data = switches_record(*switches) + user_record(top, rng.choice((0, 1)), 0, all_of(sets))
    for _ in range(rng.randint(1, 3)):
        data += user_record(rng.choice((top, top, rng.randint(0, 15))), rng.randint(0, 2), int(rng.random() < trusting), clearance_set(rng, sets))
    for number in range(rng.choice((8, 12, 16))):
        kind = number if number < 4 else rng.choice((FILE, FILE, CHANNEL, CHANNEL, DIRECTORY, CONTROL))
        level = UNSET if rng.random() < 0.02 else rng.randint(0, top)
        data += object_record(kind, level, 0 if rng.random() < 0.8 else rng.randint(0, 2), int(rng.random() < 0.1), 0, 0,
                              0 if level == UNSET else rng.choice(sets))
    return data


def move_labels(rng, clearance):
    """Labels of objects for moves: step by step from 0 to the clearance, and some beside the way, above it, or of one category alone."""
    way = chain(rng, clearance)
    beside = [Label(min(clearance.level + 1, model.TOP_LEVEL), clearance.set), Label(rng.randint(0, clearance.level), rng.randint(0, 255))]
    alone = [Label(0, 1 << n) for n in range(8) if clearance.set >> n & 1]
    return way * (3 if len(way) < 20 else 2) + beside * rng.randint(1, 3) + rng.sample(alone, rng.randint(0, min(len(alone), 3)))


# of the first user of a set-up for moves: the clearance's level, and how many categories it has
MOVE_CLEARANCES = ((3, 0), (1, 0), (2, 2), (3, 3), (15, 0), (0, 1), (2, 0), (0, 2), (3, 8), (1, 2), (5, 0), (15, 8))


def move_setup(rng, switches, clearance=None):
    """Users most of whom are untrusted, and objects of each label on a way up to a clearance, so that a label can move step by step."""
    top, categories = clearance or rng.choice(MOVE_CLEARANCES)
    held = sum(1 << n for n in rng.sample(range(8), categories))
    data = switches_record(*switches) + user_record(top, rng.choice((0, 1)), 0, held)
    for _ in range(rng.randint(0, 3)):
        data += user_record(rng.choice((top, top, rng.randint(0, 15))), rng.randint(0, 2), int(rng.random() < 0.3),
                            rng.choice((held, held, held & rng.randint(0, 255))))
    for number, label in enumerate(move_labels(rng, Label(top, held))):
        kind = FILE if number % 3 == 0 else rng.randrange(4)
        category = 0 if rng.random() < 0.9 else rng.choice((1, 2, UNSET))
        flags = rng.choice((READ_ONLY, NO_EXECUTE, NO_DELETE, SEARCH_ONLY)) if rng.random() < 0.1 else 0
        data += object_record(kind, label.level, category, int(rng.random() < 0.1), flags, 0, label.set)
    return data


def all_switches():
    return [(mac, fc, sim, ff) for mac in (0, 1) for fc in (0, 1) for sim in (0, 1)
            for ff in (0, 1)]


def switches_of(serial):
    """All combinations in turn, with those of a few cases far from each other."""
    return all_switches()[serial * 5 % 16]


def damaged_setups(rng):
    """(name, set-up, number, index): one for each way a set-up is refused."""
    cases = []

    def base(users=None, objects=None):
        users = rng.randint(2, 4) if users is None else users
        objects = rng.randint(5, 9) if objects is None else objects
        data = random_setup(rng, rng.choice(all_switches()), users, objects)
        return bytearray(data), users, objects

    def damage(name, record_kind, place, value, number):
        data, users, objects = base()
        if record_kind == "switches":
            index = 0
        elif record_kind == "user":
            index = rng.randint(1, users)
        else:
            index = rng.randint(users + 1, users + objects)
        data[8 * index + place] = value
        cases.append(("%s %s byte %d" % (name, record_kind, place), bytes(data),
                      number, index))

    # the kind byte
    damage("damaged", "switches", 0, rng.choice((0, 1, 2, 4, 255)), 15)
    damage("damaged", "user", 0, rng.choice((0, 4, 5, 255)), 15)
    damage("damaged", "object", 0, rng.choice((0, 4, 5, 255)), 15)
    # every field one past its range
    for kind, place, past in (("switches", 1, 2), ("switches", 2, 2),
                              ("switches", 3, 2), ("switches", 4, 2), ("user", 1, 16),
                              ("user", 2, 3), ("user", 3, 2), ("object", 1, 4),
                              ("object", 2, 16), ("object", 3, 3),
                              ("object", 4, 2)):
        damage("one past", kind, place, past, 17)
    # unset where it is not allowed
    for kind, place in (("switches", 1), ("switches", 2), ("switches", 3),
                        ("switches", 4), ("user", 1), ("user", 2), ("user", 3),
                        ("object", 1), ("object", 4), ("object", 5)):
        damage("unset", kind, place, 255, 17)
    # a bit of byte 5 that is no flag
    for bit in (16, 32, 64):
        damage("bit %d of" % bit, "object", 5, bit + sum(f for f in FLAGS if rng.random() < 0.5), 17)
    # a byte that must be 0
    for kind, places in (("switches", (5, 6, 7)), ("user", (5, 6, 7))):
        for place in places:
            damage("not zero", kind, place, rng.randint(1, 255), 17)
    # a set where the level is unset
    for name, value in (("set 1", 1), ("set 128", 128), ("some set", rng.randint(1, 255))):
        data, users, objects = base()
        index = rng.randint(users + 1, users + objects)
        data[8 * index + 2], data[8 * index + 7] = UNSET, value
        cases.append(("%s with an unset level, object byte 7" % name, bytes(data), 17, index))
    # lengths
    cases.append(("length 0", b"", 14, 0))
    for over in range(1, 8):
        data = bytes(base()[0])
        cut = 8 * rng.randint(0, len(data) // 8 - 1) + over
        cases.append(("length %d over" % over, data[:cut], 14, 0))
    data = bytes(base(16, 128)[0])
    cases.append(("length 1168", data + data[-8:], 14, 0))
    # places and numbers of records
    data = bytes(base(16, 3)[0])
    cases.append(("17 users", data[:136] + user_record(1, 0, 0) + data[136:], 16, 17))
    cases.append(("17 users, the last damaged", data[:136] + user_record(16, 3, 2),
                  16, 17))
    data, users, objects = base(rng.randint(0, 3), 129)
    cases.append(("129 objects", bytes(data), 16, users + 129))
    data, users, objects = base()
    place = rng.randint(1, users + objects + 1)
    cases.append(("kind 3 twice", bytes(data[:8 * place]) + switches_record(0, 0, 0)
                  + bytes(data[8 * place:]), 15, place))
    data, users, objects = base()
    place = rng.randint(users + 2, users + objects + 1)
    cases.append(("user after object", bytes(data[:8 * place]) + user_record(0, 0, 0)
                  + bytes(data[8 * place:]), 15, place))
    # the earlier record is judged whole before the later one
    data, users, objects = base()
    data[8 + 2], data[16] = 9, 3
    cases.append(("17 before a later 15", bytes(data), 17, 1))
    data, users, objects = base()
    data[16], data[17] = 7, 99
    cases.append(("15 before 17", bytes(data), 15, 2))

    # a parent that is no earlier directory; objects 0 to 3 are one of each kind
    def parent(name, number, value, refused_with=19, also=()):
        data, users, _ = base(None, 8)
        index = users + 1 + number
        data[8 * index + 6] = value
        for place, byte in also:
            data[8 * index + place] = byte
        cases.append(("%s, object byte 6" % name, bytes(data), refused_with, index))

    parent("a later directory", 0, 2)
    parent("a later object", rng.randint(4, 6), 8)
    parent("itself", 1, 2)
    parent("a file", rng.randint(4, 7), FILE + 1)
    parent("a channel", rng.randint(4, 7), CHANNEL + 1)
    parent("control data", rng.randint(4, 7), CONTROL + 1)
    parent("not entered", rng.randint(0, 7), 9)
    for value in (128, 129, 130, 255):
        parent("number %d" % value, rng.randint(0, 7), value)
    parent("number above 130", rng.randint(0, 7), rng.randint(131, 254))
    parent("a bad flag with", 5, 1, 17, [(5, 16)])
    parent("a bad kind with", 5, 255, 17, [(1, 4)])
    parent("a set with an unset level with", 5, 1, 17, [(2, UNSET), (7, 1)])
    parent("a bad record kind with", 5, 1, 15, [(0, 4)])
    data, users, _ = base(None, 8)
    data[8 * (users + 5) + 6], data[8 * (users + 6) + 1] = 1, 4
    cases.append(("19 before a later 17", bytes(data), 19, users + 5))
    data, users, _ = base(None, 8)
    data[8 * (users + 5) + 1], data[8 * (users + 6) + 6] = 4, 1
    cases.append(("17 before a later 19", bytes(data), 17, users + 5))
    data, users, _ = base(rng.randint(0, 3), 129)
    data[8 * (users + 129) + 6] = 255
    cases.append(("16 before 19", bytes(data), 16, users + 129))
    return cases


# --- Calls ----------------------------------------------------------------


class Caller:
    """Makes a list of calls by asking the model what fits its state."""

    def __init__(self, rng, setup):
        number, _, self.facility = model.read_setup(setup)
        assert number == 0
        self.rng = rng
        self.setup = setup
        self.calls = []
        self.ended = set()                   # numbers of terminated processes

    def give(self, call):
        self.calls.append(call)
        outcome = model.enforce(self.facility, call)
        if call[0] == TERMINATE and outcome.number == 0:
            self.ended.add(call[1])
        return outcome

    def answer(self, call):
        return model.query(self.facility, call).number

    def running(self):
        return [p for p, process in enumerate(self.facility.processes) if process]

    def free(self):
        return [p for p, process in enumerate(self.facility.processes) if not process]

    def live(self, kinds=(0, 1, 2, 3)):
        return [n for n, obj in enumerate(self.facility.objects)
                if obj.live and obj.kind in kinds]

    def one_of(self, choices, otherwise=255):
        return self.rng.choice(choices) if choices else self.rng.randint(0, otherwise)

    def labels(self):
        """Of the live objects, the unset ones left out, in an order that the seed alone gives."""
        found = {self.facility.objects[t].label for t in self.live() if self.facility.objects[t].label.level != UNSET}
        return sorted(found, key=lambda label: (label.level, label.set))

    def clearance(self, p):
        process = self.facility.processes[p] if p < model.PROCESSES else None
        return self.facility.users[process.owner].clearance if process else model.BOTTOM

    def set_to(self, p, label):
        return self.give((SET_LEVEL, p, label.set, label.level))

    def some_label(self, p, least=0):
        """A label for process p, mostly with a set under its clearance."""
        held = self.clearance(p).set
        process = self.facility.processes[p] if p < model.PROCESSES else None
        current = process.current.set if process else 0
        return Label(self.rng.randint(least, TOP), self.rng.choice((0, current, current, held & self.rng.randint(0, 255), held,
                                                                    self.rng.randint(0, 255) if held else 0)))

    def unused(self):
        """a byte that is not looked at"""
        return 0 if self.rng.random() < 0.7 else self.rng.randint(0, 255)

    def fitting(self, request):
        """A call of this request that asks for something that is there."""
        rng = self.rng
        p = self.one_of(self.running(), 31)
        t, e = self.unused(), self.unused()
        if request == LOGIN:
            # few process numbers, so that they are used again
            low = [n for n in self.free() if n < 6] or self.free()
            p = self.one_of(low if rng.random() < 0.7 else self.free(), 31)
            e = self.one_of(range(len(self.facility.users)))
        elif request == CLONE:
            low = [n for n in self.free() if n < 8] or self.free()
            t = self.one_of(low if rng.random() < 0.7 else self.free(), 31)
        elif request == SEND_SIGNAL:
            t = self.one_of(self.running(), 31)
        elif request == SET_LEVEL:
            e, t = rng.randint(0, rng.choice((1, 3, 15))), self.some_label(p).set
        elif request == CREATE:
            e = rng.randint(0, 3)
            if e < 2:
                t = self.one_of(self.live([DIRECTORY]))
        elif request != TERMINATE:
            kinds = [kind for kind in CLASSES if request in CLASSES[kind]]
            targets = self.live(kinds)
            process = self.facility.processes[p]
            if process:
                opened = {READ: process.open_reading, WRITE: process.open_writing,
                          CLOSE: process.open_reading | process.open_writing}
                held = sorted(opened.get(request, ()))
                if held and rng.random() < 0.8:
                    targets = held
            if request == DELETE and rng.random() < 0.5:
                shared = [n for n in targets if open_at(self.facility, n) > 1]
                targets = shared or targets
            t = self.one_of(targets)
        return (request, p, t, e)

    def arbitrary(self):
        rng = self.rng
        if rng.random() < 0.3:
            return tuple(rng.randint(0, 255) for _ in range(4))
        return (rng.choice((rng.randint(0, 21), rng.randint(0, 24))),
                rng.choice((rng.randint(0, 3), rng.randint(0, 33))),
                rng.randint(0, len(self.facility.objects) + 2) & 255,
                rng.choice((rng.randint(0, 4), rng.randint(0, 17))))

    def aimed(self, number):
        """A call refused with this number, where one is found."""
        rng = self.rng
        call = self.arbitrary()
        for _ in range(25):
            if number == 1:
                call = (rng.choice((22, 23, 255, rng.randint(22, 255))),
                        *self.arbitrary()[1:])
            elif number == 2:
                request = rng.randint(0, 21)
                call = list(self.fitting(request))
                place = 2 if request in (CLONE, SEND_SIGNAL) and rng.random() < 0.6 else 1
                call[place] = rng.choice((32, 255, rng.randint(32, 255)))
            elif number == 3:
                call = list(self.fitting(rng.choice((SEND_SIGNAL, rng.randint(0, 20)))))
                place = 2 if call[0] == SEND_SIGNAL and rng.random() < 0.5 else 1
                call[place] = self.one_of(self.free(), 31)
            elif number == 4:
                request = rng.choice((LOGIN, CLONE))
                call = list(self.fitting(request))
                call[1 if request == LOGIN else 2] = self.one_of(self.running(), 31)
                if request == CLONE and rng.random() < 0.4:
                    call[2] = call[1]
            elif number == 5:
                call = list(self.fitting(LOGIN))
                call[3] = rng.choice((len(self.facility.users), 255, rng.randint(0, 255)))
            elif number == 6:
                call = list(self.fitting(rng.randint(0, 20)))
                dead = [n for n, obj in enumerate(self.facility.objects) if not obj.live]
                call[2] = rng.choice((len(self.facility.objects), self.one_of(dead)))
            elif number == 7:
                call = list(self.fitting(rng.randint(0, 20)))
                call[2] = self.one_of(self.live())
            elif number == 8:
                call = list(self.fitting(CREATE))
                call[3] = rng.choice((4, 255, rng.randint(4, 255)))
            elif number == 9:
                request = rng.choice((READ, WRITE, CLOSE))
                call = list(self.fitting(request))
                call[2] = self.one_of(self.live([FILE, CHANNEL]))
            elif number == 11:
                call = list(self.fitting(SET_LEVEL))
                call[3] = rng.choice((16, 255, rng.randint(16, 255)))
            else:
                call = self.fitting(CREATE if number == 10 else rng.randint(0, 20))
            call = tuple(call)
            if self.answer(call) == number:
                break
        if rng.random() < 0.35:
            call = self.spoilt(call)
        return call

    def spoilt(self, call):
        """The call with a second fault, so that the order of the questions
        shows: another byte is out of its range or points nowhere."""
        call = list(call)
        place = self.rng.randint(1, 3)
        call[place] = self.rng.choice((
            (32, 31, 255), (32, 255, len(self.facility.objects)),
            (4, 16, 255, len(self.facility.users)))[place - 1])
        return tuple(call)

    def sensible(self):
        """Mostly accepted: the request is chosen first, then what fits it."""
        rng = self.rng
        running = len(self.running())
        if running == 0 or (running < 3 and rng.random() < 0.3):
            return self.fitting(LOGIN)
        request = rng.choice((0, 1, 3, 4, 5, 6, 7, 8, 9, 10, 11, 12, 12, 13, 13, 14,
                              15, 16, 19, 19, 20, 20, 2, 17, 18, 21))
        # few terminates, deletes and set-levels, so that something goes on
        if request in (TERMINATE, DELETE, SET_LEVEL) and rng.random() < 0.4:
            request = rng.choice((READ_OPEN, WRITE_OPEN, READ, WRITE))
        call = self.fitting(request)
        moving = rng.random() < 0.6
        for _ in range(12):
            again = self.fitting(request)
            if self.answer(call) != 0 or (moving and not self.moves_a_mark(call)
                                          and self.moves_a_mark(again)):
                call = again
        return call

    def moves_a_mark(self, call):
        """whether the call is accepted and moves a level or a mark"""
        outcome, moved = model.decide(self.facility, call)
        return (outcome.number == 0 and moved is not None
                and marks(moved) != marks(self.facility.processes[call[1]]))

    def step(self):
        chance = self.rng.random()
        if chance < 0.80:
            call = self.sensible()
        elif chance < 0.94:
            call = self.aimed(self.rng.randint(1, 13))
        else:
            call = self.arbitrary()
        outcome = self.give(call)
        # an open in one mode is none in the other
        across = {READ_OPEN: WRITE, WRITE_OPEN: READ}
        if outcome.number == 0 and call[0] in across and self.rng.random() < 0.1:
            self.give((across[call[0]], call[1], call[2], self.unused()))

    def shared_delete(self):
        """Open one object at several processes, then delete it."""
        rng = self.rng
        for _ in range(2):
            self.give(self.fitting(LOGIN))
        targets = self.live([FILE, CHANNEL])
        if not targets:
            return
        t = rng.choice(targets)
        for p in self.running()[:4]:
            for request in rng.sample((READ_OPEN, READ_WRITE_OPEN, WRITE_OPEN), 3):
                if self.answer((request, p, t, 0)) == 0:
                    self.give((request, p, t, 0))
                    break
        for p in self.running():
            if self.answer((DELETE, p, t, 0)) == 0:
                self.give((DELETE, p, t, 0))
                break
        for p in self.running()[:3]:
            self.give((rng.choice((READ, WRITE, CLOSE)), p, t, 0))

    def fixed_level(self):
        """Set-level, then what only the automatic could have granted."""
        if self.free():
            self.give(self.fitting(LOGIN))
        p = self.one_of(self.running(), 31)
        tried = []
        for request in (WRITE_OPEN, READ_OPEN, READ_WRITE_OPEN):
            calls = [(request, p, t, self.unused()) for t in self.live([FILE])]
            tried += [call for call in calls if self.moves_a_mark(call)][:2]
        label = self.some_label(p)
        self.set_to(p, Label(min(label.level, 2), label.set))
        for call in tried:
            self.give(call)

    def pair(self):
        """Two processes that run, different ones where there are two: p one that has read, q one that has read less, where there is one."""
        running, processes = self.running(), self.facility.processes
        read = [p for p in running if processes[p].read_mark != model.BOTTOM]
        p = self.one_of(read if read and self.rng.random() < 0.6 else running, 31)
        others = [q for q in running if q != p] or running
        less = [q for q in others if above(processes[p].read_mark, processes[q].read_mark)
                and processes[q].write_mark.dominates(processes[p].read_mark)]
        return p, self.one_of(less if less and self.rng.random() < 0.8 else others, 31)

    def read_object(self, p):
        """Process p reads an object, above its level where it may."""
        ways = {FILE: (READ_OPEN, READ), CHANNEL: (READ_WRITE_OPEN, READ), DIRECTORY: (SEARCH,), CONTROL: (GET_STATUS,)}
        kind = self.rng.choice((FILE, FILE, CHANNEL, DIRECTORY, CONTROL))
        able = [t for t in self.live([kind]) if self.answer((ways[kind][0], p, t, 0)) == 0]
        above = [t for t in able if self.moves_a_mark((ways[kind][0], p, t, 0))]
        t = self.one_of(above or able or self.live([kind]))
        for request in ways[kind]:
            self.give((request, p, t, self.unused()))

    def write_object(self, p, t=None):
        """Process p writes an object, one that it may where none is given."""
        ways = {FILE: (WRITE_OPEN, WRITE), CHANNEL: (READ_WRITE_OPEN, WRITE), DIRECTORY: (WRITE,), CONTROL: (MODIFY_ACCESS,)}
        kind = self.rng.choice((FILE, FILE, CHANNEL, DIRECTORY, CONTROL)) if t is None else self.facility.objects[t].kind
        able = [n for n in self.live([kind]) if self.answer((ways[kind][0], p, n, 0)) == 0]
        t = self.one_of(able or self.live([kind])) if t is None else t
        for request in ways[kind]:
            self.give((request, p, t, self.unused()))

    def label_below(self, label):
        """One that the label dominates, another where there is one."""
        for _ in range(8):
            below = Label(self.rng.randint(0, label.level), label.set & self.rng.choice((255, self.rng.randint(0, 255))))
            if below != label:
                break
        return below

    def try_below(self, p):
        """What a read mark below the current label would let process p do."""
        process = self.facility.processes[p]
        if process is None or process.current == model.BOTTOM:
            return
        below = [t for t in self.live([FILE]) if above(process.current, self.facility.objects[t].label)]
        if below and process.automatic:
            self.give((WRITE_OPEN, p, self.rng.choice(below), self.unused()))
        if self.rng.random() < 0.6:
            self.set_to(p, self.label_below(process.current))

    def meet(self):
        """Two processes at one label, by a read or a set-level; one signals the other, which then tries what it might before."""
        p, q = self.pair()
        processes = self.facility.processes
        if self.rng.random() < 0.5:
            self.read_object(p)
        if processes[p] is None or processes[q] is None:
            return
        label = processes[p].current
        there = [t for t in self.live([FILE]) if self.facility.objects[t].label == label]
        reads = [t for t in there if self.answer((READ_OPEN, q, t, 0)) == 0]
        writes = [t for t in there if self.answer((WRITE_OPEN, q, t, 0)) == 0]
        way = self.rng.random()
        if processes[q].current != label and reads and way < 0.2:
            self.give((READ_OPEN, q, self.rng.choice(reads), self.unused()))
        elif processes[q].current != label and writes and way < 0.5:
            self.give((WRITE_OPEN, q, self.rng.choice(writes), self.unused()))
        else:
            self.set_to(q, label)
        sender, receiver = (p, q) if self.rng.random() < 0.8 else (q, p)
        self.give((SEND_SIGNAL, sender, receiver, self.unused()))
        if self.rng.random() < 0.7:
            self.try_below(receiver)
        if self.rng.random() < 0.5:
            self.write_object(receiver)

    def apart(self):
        """A signal between two labels, now and then of one level."""
        p, q = self.pair()
        if self.facility.processes[q] is None:
            return
        current = self.facility.processes[p].current
        if current == self.facility.processes[q].current:
            label = self.some_label(q)
            self.set_to(q, label if self.rng.random() < 0.5 else Label(current.level, label.set))
        self.give((SEND_SIGNAL, p, q, self.unused()))
        self.try_below(q)
        self.write_object(q)

    def across_trust(self):
        """A trusted owner's process signals another's, which set its level; or is signalled, at the level of the other."""
        users, processes = self.facility.users, self.facility.processes
        if self.free():
            able = [n for n, user in enumerate(users) if user.trusted]
            self.give((LOGIN, self.rng.choice(self.free()), self.unused(), self.one_of(able or range(len(users)))))
        trusted = [p for p in self.running() if users[processes[p].owner].trusted]
        others = [p for p in self.running() if p not in trusted]
        if not trusted or not others:
            return
        p, q = self.rng.choice(trusted), self.rng.choice(others)
        if self.rng.random() < 0.5:
            label = self.some_label(q, 1)
            self.set_to(q, self.clearance(q).greatest_below(label))
            self.give((SEND_SIGNAL, p, q, self.unused()))
            self.try_below(q)
        else:
            self.set_to(p, processes[q].current)
            self.give((SEND_SIGNAL, q, p, self.unused()))
            self.try_below(p)

    def to_itself(self):
        """A signal to itself, at a label that was set or written to."""
        p, _ = self.pair()
        if self.facility.processes[p] is None:
            return
        if self.rng.random() < 0.5:
            self.set_to(p, self.some_label(p, 1))
        else:
            self.write_object(p)
        self.give((SEND_SIGNAL, p, p, self.unused()))
        self.try_below(p)

    def carry_a_channel(self):
        """A channel's matter into another object, by a second process that is signalled."""
        objects, users = self.facility.objects, self.facility.users
        labelled = [t for t in self.live() if objects[t].label.level != UNSET]
        channels = [t for t in labelled if objects[t].kind == CHANNEL]
        free = [n for n in self.free() if n < 8]
        if not channels or len(free) < 2:
            return
        p, q = self.rng.sample(free, 2)
        a = self.rng.choice(channels)
        over = above if self.rng.random() < 0.5 else Label.dominates
        higher = [t for t in labelled if t != a and over(objects[t].label, objects[a].label)]
        files = [t for t in higher if objects[t].kind == FILE]
        b = self.one_of((files if files and self.rng.random() < 0.7 else higher) or labelled)
        both = objects[a].label.least_above(objects[b].label)
        cleared = [n for n, user in enumerate(users) if user.clearance.dominates(both)] or [0]
        for n in (q, p):
            self.give((LOGIN, n, self.unused(), self.rng.choice(cleared)))
        self.set_to(q, objects[a].label)
        self.give((READ_WRITE_OPEN, p, a, self.unused()))
        self.give((READ, p, a, self.unused()))
        self.give((SEND_SIGNAL, p, q, self.unused()))
        self.set_to(q, objects[b].label)
        self.write_object(q, b)
        for n in (q, p):
            if self.rng.random() < 0.6:
                self.give((TERMINATE, n, self.unused(), self.unused()))

    def to_label(self, p, label, letters):
        """A call of process p, of one of these classes, on an object of that label where there is one. Few deletes, so that something is left."""
        rng = self.rng
        found = [(request, t) for t in self.live() if self.facility.objects[t].label == label
                 for request, letter in CLASSES[self.facility.objects[t].kind].items()
                 if letter in letters and (request != DELETE or rng.random() < 0.05)]
        accepted = [(request, t) for request, t in found if self.answer((request, p, t, 0)) == 0]
        found = accepted if accepted and rng.random() < 0.8 else found
        request, t = rng.choice(found or [(READ_OPEN, self.one_of(self.live()))])
        self.give((request, p, t, rng.randint(0, 1) if request == CREATE else self.unused()))

    def nearest(self, labels, distance):
        """One of those at the least distance."""
        least = min(map(distance, labels))
        return self.rng.choice([label for label in labels if distance(label) == least])

    def way_of_moves(self, clearance):
        """Labels and classes: up by reads, up by a write, and down by writes to what was read, step by step or some left out."""
        labels = [label for label in self.labels() if clearance.dominates(label)]
        way, current = [], model.BOTTOM
        back = self.rng.random() < 0.6       # only to labels that can be written to on the way down
        for _ in range(self.rng.randint(0, max(0, rank(clearance) - 1))):
            higher = [label for label in labels if not current.dominates(label) and (not back or current.least_above(label) in labels)]
            if higher:
                label = self.nearest(higher, lambda label: rank(current.least_above(label)))
                way, current = way + [(label, "R")], current.least_above(label)
        read = current
        written = [label for label in labels if label.dominates(read)]
        while written:
            label = self.nearest(written, lambda label: -rank(label))
            way.append((label, "W"))
            written = [lower for lower in written if above(label, lower)]
        if way and self.rng.random() < 0.5:
            way[-1] = (way[-1][0], "B")
        each = self.rng.random() < (0.7 if rank(clearance) < 10 else 0.9)
        return [step for step in way if each or self.rng.random() < 0.6]

    def settle(self):
        """A login whose label moves to where it settles; clones made on the way go the rest of it too; then calls that would move it."""
        rng, users = self.rng, self.facility.users
        untrusted = [n for n, user in enumerate(users) if not user.trusted]
        user = rng.choice(untrusted if untrusted and rng.random() < 0.85 else range(len(users)))
        p = self.one_of([n for n in self.free() if n < 8] or self.free(), 31)
        self.give((LOGIN, p, self.unused(), user))
        group = [p]
        for label, letters in self.way_of_moves(users[user].clearance):
            for q in group:
                self.to_label(q, label, letters)
                if rng.random() < 0.1:
                    self.to_label(q, label, "R")
            if self.free() and rng.random() < 0.12 and len(group) < 3:
                group.append(rng.choice(self.free()))
                self.give((CLONE, rng.choice(group[:-1]), group[-1], self.unused()))
            if rng.random() < 0.04:
                other = self.some_label(p)
                self.give(rng.choice(((SET_LEVEL, p, label.set, label.level), (SEND_SIGNAL, p, p, 0), (SET_LEVEL, p, other.set, other.level))))
        for q in group:
            self.wander(q)
            if rng.random() < 0.6:
                self.give((TERMINATE, q, self.unused(), self.unused()))

    def wander(self, p=None):
        """A call of any class at the label of any object, mostly under the clearance."""
        p = self.one_of(self.running(), 31) if p is None else p
        labels = self.labels() or [model.BOTTOM]
        under = [label for label in labels if self.clearance(p).dominates(label)]
        self.to_label(p, self.rng.choice(under if under and self.rng.random() < 0.8 else labels), self.rng.choice(("R", "W", "W", "B")))

    def try_set(self):
        """A call that the levels may allow and the sets may not: on an object of another set than the clearance or the current label has,
        of one level where there is one, or a set-level to another set."""
        rng, users = self.rng, self.facility.users
        untrusted = [p for p in self.running() if not users[self.facility.processes[p].owner].trusted]
        if not untrusted:
            return
        p = rng.choice(untrusted)
        current, clearance = self.facility.processes[p].current, self.clearance(p)
        labels = [label for label in self.labels() if label.level <= clearance.level]
        outside = [label for label in labels if not clearance.dominates(label)]
        other = [label for label in labels if not current.dominates(label) and not label.dominates(current)]
        level = [label for label in other if label.level == current.level]
        chosen = rng.choice((outside, other, level)) or other or outside
        if chosen and rng.random() < 0.8:
            self.to_label(p, rng.choice(chosen), rng.choice("RRWB"))
        else:
            self.set_to(p, Label(current.level, rng.choice((clearance.set, rng.randint(0, 255)))))

    def signals(self):
        """Signals between two processes, before and after one of them moves."""
        for _ in range(2):
            if self.free():
                self.give(self.fitting(LOGIN))
        running = self.running()
        if len(running) < 2:
            return
        p, q = self.rng.sample(running, 2)
        users, processes = self.facility.users, self.facility.processes
        trusted = [n for n in running if n != p and users[processes[n].owner].trusted]
        if self.rng.random() < 0.5:
            q = self.one_of(trusted or [q])
        self.give((SEND_SIGNAL, p, q, self.unused()))
        label = self.some_label(p, 1)
        calls = [(READ_OPEN, p, t, 0) for t in self.live([FILE])]
        calls = [call for call in calls if self.moves_a_mark(call)] + [(SET_LEVEL, p, label.set, label.level)]
        self.give(self.rng.choice(calls))
        self.give((SEND_SIGNAL, p, q, self.unused()))
        self.give((SEND_SIGNAL, q, p, self.unused()))

    def close_and_try(self):
        """Close drops both modes."""
        call = self.fitting(READ_WRITE_OPEN)
        for _ in range(10):
            if self.answer(call) == 0:
                break
            call = self.fitting(READ_WRITE_OPEN)
        p, t = call[1], call[2]
        self.give(call)
        self.give((CLOSE, p, t, self.unused()))
        for request in self.rng.sample((READ, WRITE, CLOSE), 2):
            self.give((request, p, t, self.unused()))

    def clone_and_try(self):
        """A clone has its parent's marks and opens."""
        p = self.one_of(self.running(), 31)
        used = [n for n in self.free() if n in self.ended]
        t = self.one_of(used or self.free(), 31)
        self.give((CLONE, p, t, self.unused()))
        for request in (READ, WRITE, WRITE_OPEN, READ_OPEN, CLOSE):
            self.give((request, t, self.fitting(request)[2], self.unused()))

    def again(self):
        """Terminate, try, login on the same number, try."""
        p = self.one_of(self.running(), 31)
        self.give((TERMINATE, p, self.unused(), self.unused()))
        self.give((READ, p, self.one_of(self.live([FILE])), 0))
        self.give((LOGIN, p, self.unused(), self.one_of(range(len(self.facility.users)))))
        self.give((READ, p, self.one_of(self.live([FILE])), 0))

    def creates(self, count):
        for _ in range(count):
            call = self.fitting(CREATE)
            if self.running() and self.answer(call) not in (0, 10):
                call = (CREATE, call[1], self.unused(), self.rng.choice((CHANNEL, CONTROL)))
            if self.answer(call) == 10 and self.rng.random() < 0.4:
                call = (CREATE, call[1], self.rng.randint(0, 130), self.rng.randint(0, 4))
            self.give(call)

    def caller_for(self, request, t, e=0):
        """A process whose call is accepted, where there is one."""
        running = self.running()
        able = [p for p in running if self.answer((request, p, t, e)) == 0]
        return self.one_of(able or running, 31)

    def make_and_try(self):
        """Create in a directory, the deepest ones too, and try at once what its flags forbid."""
        directories = self.live([DIRECTORY])
        shielded = [n for n in directories if model.effective_flags(self.facility, n) & NO_EXECUTE]
        t = self.one_of(shielded if shielded and self.rng.random() < 0.8 else directories)
        e = self.rng.choice((FILE, FILE, DIRECTORY))
        p = self.caller_for(CREATE, t, e)
        outcome = self.give((CREATE, p, t, e))
        if outcome.number == 0:
            made = outcome.object_number
            if e == DIRECTORY:
                inside = self.give((CREATE, p, made, FILE))
                made = inside.object_number if inside.number == 0 else made
            for request in (EXECUTE, self.rng.choice((WRITE_OPEN, READ_OPEN, SEARCH, DELETE))):
                self.give((request, p, made, self.unused()))

    def end_a_shield(self):
        """Execute a file that inherits no-execute, delete a directory that it inherits through, execute it again."""
        objects = self.facility.objects
        found = []
        for t in self.live([FILE]):
            source = model.flag_source(self.facility, t, NO_EXECUTE)
            number = t
            while source is not None and number != source:
                number = objects[number].parent
                p = self.caller_for(DELETE, number)
                if self.answer((DELETE, p, number, 0)) == 0:
                    found.append((t, number, p))
        if not found:
            return
        t, directory, p = self.rng.choice(found)
        p_execute = self.one_of([q for q in self.running() if self.answer((EXECUTE, q, t, 0)) in (0, 12)], 31)
        self.give((EXECUTE, p_execute, t, self.unused()))
        self.give((DELETE, p, directory, self.unused()))
        self.give((EXECUTE, p_execute, t, self.unused()))
        self.give((EXECUTE, self.caller_for(EXECUTE, t), t, self.unused()))

    def delete_below(self):
        """Delete what inherits from a directory that has no-delete."""
        objects = self.facility.objects
        below = [n for n in self.live() if objects[n].flags & ADD_INHERITED and objects[n].parent is not None
                 and objects[objects[n].parent].live and objects[objects[n].parent].flags & NO_DELETE]
        if below:
            t = self.rng.choice(below)
            self.give((DELETE, self.caller_for(DELETE, t), t, self.unused()))

    def delete_directory(self):
        """Delete a directory, first of all one that others lie in."""
        objects = self.facility.objects
        directories = self.live([DIRECTORY])
        parents = [n for n in directories if any(obj.live and obj.parent == n for obj in objects)]
        t = self.one_of(parents if parents and self.rng.random() < 0.7 else directories)
        self.give((DELETE, self.caller_for(DELETE, t), t, self.unused()))

    def try_flagged(self):
        """A request that an effective flag forbids, or another one on the same object."""
        flag, own = self.rng.choice(FLAGS[:4]), self.rng.random() < 0.5
        found = []
        for t in self.live():
            obj = self.facility.objects[t]
            if model.flag_source(self.facility, t, flag) is not None and (obj.flags & flag != 0) == own:
                found += [(request, t) for request in CLASSES[obj.kind] if model.forbids(flag, obj.kind, request)]
        if not found:
            return
        request, t = self.rng.choice(found)
        if self.rng.random() < 0.3:
            request = self.rng.choice(sorted(CLASSES[self.facility.objects[t].kind]))
        e = self.rng.randint(0, 1) if request == CREATE else self.unused()
        able = [p for p in self.running() if self.answer((request, p, t, e)) in (0, 12)]
        self.give((request, self.one_of(able or self.running(), 31), t, e))

    def go(self, count):
        while len(self.calls) < count:
            if self.rng.random() < 0.05:
                self.rng.choice((self.shared_delete, self.fixed_level, self.signals,
                                 self.close_and_try, self.clone_and_try,
                                 self.again, self.make_and_try, self.end_a_shield,
                                 self.try_flagged, self.try_set, self.try_set, self.try_set))()
            else:
                self.step()

    def go_with_signals(self, count):
        ways = (self.meet, self.meet, self.meet, self.meet, self.across_trust, self.across_trust, self.apart, self.to_itself, self.carry_a_channel,
                self.across_trust, self.signals, self.again, self.again, self.try_set, self.try_set, self.step, self.step)
        while len(self.calls) < count:
            if len(self.running()) < 3:
                self.give(self.fitting(LOGIN))
            self.rng.choice(ways)()

    def go_with_moves(self, count):
        ways = (self.settle, self.settle, self.settle, self.settle, self.wander, self.wander, self.wander, self.wander, self.again,
                self.clone_and_try, self.fixed_level, self.try_set, self.try_set, self.step, self.step)
        while len(self.calls) < count:
            if not self.running():
                self.give(self.fitting(LOGIN))
            self.rng.choice(ways)()

    def go_with_labels(self, count):
        ways = (self.wander, self.wander, self.wander, self.try_set, self.try_set, self.settle, self.meet, self.apart, self.carry_a_channel,
                self.clone_and_try, self.again, self.step, self.step, lambda: self.creates(1))
        while len(self.calls) < count:
            if len(self.running()) < 3:
                self.give(self.fitting(LOGIN))
            self.rng.choice(ways)()

    def go_in_tree(self, count):
        ways = (self.make_and_try, self.make_and_try, self.end_a_shield, self.delete_directory, self.delete_below,
                self.try_flagged, self.try_flagged, self.step, self.step)
        while len(self.calls) < count:
            if not self.running():
                self.give(self.fitting(LOGIN))
            self.rng.choice(ways)()

    def bytes(self):
        return b"".join(bytes(call) for call in self.calls)


def marks(process):
    return process.current, process.read_mark, process.write_mark


def open_at(facility, number):
    """at how many processes an object is open"""
    return sum(1 for process in facility.processes if process
               and number in process.open_reading | process.open_writing)


# --- Cases ----------------------------------------------------------------


def refused_case(rng, setup, number, index):
    assert model.read_setup(setup)[:2] == (number, index)
    calls = bytes(rng.randint(0, 30) for _ in range(rng.randint(0, 9)))
    return setup, calls


def ordinary_case(rng, serial):
    switches = switches_of(serial)
    if serial % 48 >= 32:
        switches = (1,) + switches[1:]       # MAC on more often than not
    caller = Caller(rng, random_setup(rng, switches))
    return finish(rng, caller, serial, rng.randint(90, 200))


def full_case(rng, serial):
    """Creates to the 128th and the refused 129th."""
    users = 16 if serial % 4 == 0 else rng.randint(1, 3)
    objects = 128 if serial % 8 == 0 else rng.choice((120, 124, 126, 127, 128))
    setup = random_setup(rng, switches_of(serial), users, objects)
    caller = Caller(rng, setup)
    caller.give(caller.fitting(LOGIN))
    caller.give(caller.fitting(LOGIN))
    caller.go(30)
    caller.creates(14)
    return finish(rng, caller, serial, 90)


def growing_case(rng, serial):
    """From a small set-up, or one without objects, up by creates."""
    setup = random_setup(rng, switches_of(serial), rng.randint(1, 2),
                         rng.choice((0, 0, 1, 4)))
    caller = Caller(rng, setup)
    caller.give(caller.fitting(LOGIN))
    caller.creates(132 if serial % 2 == 0 else 20)
    return finish(rng, caller, serial, 180 if serial % 2 == 0 else 90)


def bare_case(rng, serial):
    """No users: no login is accepted."""
    setup = random_setup(rng, switches_of(serial), 0, rng.choice((0, 4)))
    caller = Caller(rng, setup)
    for _ in range(10):
        caller.step()
    return finish(rng, caller, serial, 0)


def answers_case(rng, serial):
    """Objects of every level, category and data type, so that the modules'
    answers meet in every way."""
    # FF on in all; all four in five cases, the others in other combinations
    setup = switches_record(*(all_switches()[-1] if serial < 5 else all_switches()[(2 * serial + 7) % 16]))
    for role in (0, 1, 2):
        setup += user_record(1, role, 0) + user_record(1, role, 1)
    objects = [(kind, level, category, data_type) for kind in range(4)
               for level in (0, 1, 3, UNSET) for category in (0, 1, 2, UNSET)
               for data_type in (0, 1)]
    rng.shuffle(objects)
    directories = [0]
    for number, fields in enumerate(objects):
        # read-only of its own, or from a parent that has it, or not at all
        setup += object_record(*fields, rng.choice((0, 0, NO_DELETE, READ_ONLY, READ_ONLY, ADD_INHERITED, ADD_INHERITED + SEARCH_ONLY)),
                               rng.choice(directories))
        directories += [number + 1] if fields[0] == DIRECTORY else []
    caller = Caller(rng, setup)
    for number in range(6):
        caller.give((LOGIN, number, 0, number))
    seen = set()
    while len(caller.calls) < 140:
        call = caller.fitting(rng.choice([n for n in range(22) if n not in
                                          (CLONE, SEND_SIGNAL, TERMINATE, LOGIN)]))
        # keep what has not been answered so before
        outcome = tuple(model.query(caller.facility, call))
        row = outcome[:4] + outcome[6:]
        if row not in seen or rng.random() < 0.02:
            seen.add(row)
            caller.give(call)
        elif rng.random() < 0.002:
            seen.clear()
    return finish(rng, caller, serial, 0)


def tree_case(rng, serial):
    """Chains and trees of directories, FF on in three of four."""
    switches = all_switches()[(serial + serial // 4) % 8 * 2][:3] + (int(serial % 4 != 0),)
    chain = serial % 3 == 0
    setup = trees.chain_setup(rng, switches, 127 if serial % 4 == 3 else None) if chain else trees.tree_setup(rng, switches)
    caller = Caller(rng, setup)
    for p in range(min(3, len(caller.facility.users))):
        caller.give((LOGIN, p, 0, p))
    if chain:                                # at its end, before a directory is deleted
        for t in caller.live()[-3:]:
            for request in rng.sample(sorted(CLASSES[caller.facility.objects[t].kind]), 4) + [EXECUTE, SEARCH]:
                caller.give((request, rng.choice((0, 0, 1)), t, 0))
    caller.go_in_tree(rng.randint(80, 150))
    return finish(rng, caller, serial, 0)


def signal_case(rng, serial):
    """Windows that signal each other, MAC on in five of six, mostly alone."""
    mac = int(serial % 6 != 5)
    others = rng.choice(((0, 0, 0), (0, 0, 0), (1, 0, 0), (0, 1, 1))) if mac else all_switches()[(6 + serial // 6 * 2) % 8][1:]
    caller = Caller(rng, signal_setup(rng, (mac,) + others))
    for p in range(rng.randint(3, 5)):
        caller.give((LOGIN, p, 0, rng.randrange(len(caller.facility.users))))
    caller.go_with_signals(rng.randint(110, 190))
    return finish(rng, caller, serial, 0)


def move_case(rng, serial):
    """Processes whose level moves, MAC on in seven of eight, mostly alone."""
    mac = int(serial % 8 != 7)
    others = rng.choice(((0, 0, 0), (0, 0, 0), (0, 0, 1), (1, 0, 0), (1, 1, 1))) if mac else all_switches()[(6 + serial // 8 * 3) % 8][1:]
    caller = Caller(rng, move_setup(rng, (mac,) + others, MOVE_CLEARANCES[serial % 12]))
    caller.go_with_moves(rng.randint(110, 190))
    return finish(rng, caller, serial, 0)


def label_case(rng, serial):
    """Labels of few levels and categories, none without, MAC on in seven of eight, mostly alone."""
    mac = int(serial % 8 != 7)
    others = rng.choice(((0, 0, 0), (0, 0, 0), (1, 0, 0), (0, 0, 1))) if mac else all_switches()[serial // 8 % 8][1:]
    caller = Caller(rng, signal_setup(rng, (mac,) + others, 0.0))
    caller.go_with_labels(rng.randint(110, 190))
    return finish(rng, caller, serial, 0)


def finish(rng, caller, serial, count):
    caller.go(count)
    left_over = serial % 8 if serial % 8 < 4 else 0
    return caller.setup, caller.bytes() + bytes(
        rng.randint(0, 255) for _ in range(left_over))


MAKERS = {"full": full_case, "growing": growing_case, "bare": bare_case,
          "answers": answers_case, "tree": tree_case, "signals": signal_case,
          "moves": move_case, "labels": label_case, "ordinary": ordinary_case}


def some_case(rng):
    """A set-up and calls of any sort, without end for fuzz.py."""
    sort = rng.choice(("ordinary", "ordinary", "ordinary", "ordinary", "full", "growing", "answers", "bare", "refused"))
    if sort == "refused":
        return refused_case(rng, *rng.choice(damaged_setups(rng))[1:])
    return MAKERS[sort](rng, rng.randrange(48))


def make_cases(rng, count):
    damaged = damaged_setups(rng)
    plan = [("refused", case) for case in damaged]
    plan += [("full", n) for n in range(12)]
    plan += [("growing", n) for n in range(8)]
    plan += [("bare", n) for n in range(4)]
    plan += [("answers", n) for n in range(12)]
    plan += [("tree", n) for n in range(32)]
    plan += [("signals", n) for n in range(24)]
    plan += [("moves", n) for n in range(24)]
    plan += [("labels", n) for n in range(16)]
    plan += [("worked example", 0)]
    plan = plan[:count]
    plan += [("ordinary", n) for n in range(count - len(plan))]
    rng.shuffle(plan)
    cases = []
    for sort, detail in plan:
        if sort == "refused":
            name, setup, number, index = detail
            cases.append((name,) + refused_case(rng, setup, number, index))
        elif sort == "worked example":
            setup = (switches_record(1, 0, 0) + user_record(2, 0, 0)
                     + b"".join(object_record(0, level, 0, 0) for level in (1, 2, 0)))
            calls = bytes([21, 0, 0, 0, 13, 0, 1, 0, 20, 0, 0, 0, 12, 0, 1, 0,
                           19, 0, 0, 0])
            cases.append((sort, setup, calls))
        else:
            cases.append((sort,) + MAKERS[sort](rng, detail))
    return cases


# --- The two files --------------------------------------------------------


def trial_bytes(setup, calls):
    return (len(setup).to_bytes(2, "little") + setup
            + len(calls).to_bytes(4, "little") + calls)


def expected_lines(number, setup, calls):
    lines, facility, account = run.run(setup, calls)
    if facility is None:
        return ["case %d" % number] + lines
    fresh = model.read_setup(setup)[2]
    same = "same" if model.setup_bytes(fresh) == setup else "touched"
    lines = ["case %d" % number, "0 %d %s" % (len(model.setup_bytes(fresh)), same),
             "18 0 untouched"] + lines
    entered = len(facility.objects)
    out = model.setup_bytes(facility)
    weighed = sum((i + 1) * byte for i, byte in enumerate(out)) % 4294967296
    refusals = " ".join(str(n) for n in facility.refusals)
    flags = sum((t + 1) * model.effective_flags(facility, t) for t in range(entered)
                if facility.objects[t].live) % 4294967296
    moves = sum((p + 1) * process.moves for p, process in enumerate(facility.processes) if process) % 4294967296
    sets = [sum((p + 1) * part(process).set for p, process in enumerate(facility.processes) if process) % 4294967296 for part in (
        lambda process: process.current, lambda process: process.read_mark, lambda process: process.write_mark)]
    lines.append("state %d %s %d %d %d %d %d %d %d %d" % (len(calls) // 4, refusals, entered, len(out), weighed, flags, moves, *sets))
    holds = sum(1 for x in range(entered) for c in range(entered)
                if account.object_holds(x, c))
    lines.append("matter %d" % holds)
    return lines


# --- Coverage -------------------------------------------------------------


def coverage(cases):
    """Counts taken from the finished cases by a run of their own."""
    count = collections.Counter()
    for name, setup, calls in cases:
        count["set-ups"] += 1
        number, _, facility = model.read_setup(setup)
        if number != 0:
            count["set-ups refused with %d" % number] += 1
            count["refused: " + name] += 1
            if len(calls) % 4:
                count["refused set-up with left-over bytes"] += 1
            continue
        count["set-ups accepted"] += 1
        count["switches %d%d%d%d" % (facility.mac_on, facility.fc_on, facility.sim_on, facility.ff_on)] += 1
        if len(setup) == model.MAX_SETUP:
            count["longest set-up"] += 1
        if len(calls) % 4:
            count["left-over bytes %d" % (len(calls) % 4)] += 1
        ended = set()
        account = model.Account(setup)
        sent, moved, labelled = Sent(count, facility, account), Moved(count, facility, setup), Labelled(count, facility)
        set_up = len(facility.objects)
        for i in range(0, len(calls) - 3, 4):
            call = tuple(calls[i:i + 4])
            cover_flags(count, facility, call, model.query(facility, call), set_up)
            sent.before(call)
            moved.before(call)
            labelled.before(call)
            outcome = cover_call(count, facility, account, call, ended)
            sent.after(call, outcome)
            moved.after(call, outcome)
            labelled.after(call, outcome)
        cover_writing(count, facility, set_up)
    return count


def cover_writing(count, facility, set_up):
    """The set-up written out after the calls: parents that were deleted, have a new number, or were created; sets of labels."""
    sets = {record[7] for record in model.records(model.setup_bytes(facility)) if record[0] == model.KIND_OBJECT}
    count["written with no set"] += sets == {0}
    count["written with sets"] += len(sets) > 1
    count["written with a created object's set"] += any(obj.live and obj.label.set for obj in facility.objects[set_up:])
    for obj in facility.objects:
        if obj.live and obj.parent is not None:
            deleted = not facility.objects[obj.parent].live
            count["written with a deleted parent"] += deleted
            count["written with a parent's new number"] += not deleted and not all(o.live for o in facility.objects[:obj.parent])
            count["written with a created parent"] += not deleted and obj.parent >= set_up


def depth(facility, t):
    """through how many parents object t inherits"""
    steps = 0
    while facility.objects[t].flags & ADD_INHERITED and model.live_parent(facility, facility.objects[t]) is not None:
        t, steps = facility.objects[t].parent, steps + 1
    return steps


def cover_flags(count, facility, call, outcome, set_up):
    """What the file flags did with a call on an object, before it is enforced. `set_up`: how many objects the set-up entered."""
    request, _, t, e = call
    if outcome.number not in (0, 12, 13) or not facility.ff_on or not model.needs_object(request, e):
        return
    obj = facility.objects[t]
    effective = model.effective_flags(facility, t)
    forbidding = model.forbidding_flags(facility, request, t)
    for flag in forbidding:
        source = model.flag_source(facility, t, flag)
        sort = "own" if source == t else "inherited"
        count["flag %d forbids, %s" % (flag, sort)] += 1
        count["flag %d forbids, kind %d" % (flag, obj.kind)] += 1
        count["flag %d alone refuses" % flag] += forbidding == [flag] and outcome.mac < 2 and outcome.fc < 2 and outcome.sim < 2
        if source != t:
            count["a created file inherits"] += t >= set_up and obj.kind == FILE
            count["inherits through a created directory"] += obj.parent >= set_up
            count["forbidden from 100 directories above"] += depth(facility, t) >= 100
            count["forbidden in a set-up's chain of 127"] += depth(facility, t) == 127
    if outcome.number != 0:
        return
    count["accepted below 100 directories"] += depth(facility, t) >= 100
    count["search in a search-only directory"] += request == SEARCH and effective & SEARCH_ONLY != 0
    count["a file under search-only"] += obj.kind == FILE and effective & SEARCH_ONLY != 0
    count["a read of a read-only file"] += request == READ_OPEN and effective & READ_ONLY != 0
    parent = model.live_parent(facility, obj)
    if parent is not None:
        above = model.effective_flags(facility, parent)
        inherits = obj.flags & ADD_INHERITED != 0
        count["delete below no-delete"] += request == DELETE and inherits and above & NO_DELETE != 0
        count["accepted only without the object's own 128"] += not inherits and any(
            above & flag and flag != NO_DELETE and model.forbids(flag, obj.kind, request) for flag in FLAGS)
    # with the deleted ones live again the request would be forbidden
    dead = [other for other in facility.objects if not other.live]
    for other in dead:
        other.live = True
    count["accepted only since a parent is deleted"] += bool(model.forbidding_flags(facility, request, t))
    for other in dead:
        other.live = False


def cover_call(count, facility, account, call, ended):
    request, p, t, e = call
    process = facility.processes[p] if p < 32 else None
    owner = facility.users[process.owner] if process else None
    opened = open_at(facility, t)
    other = facility.processes[t] if t < 32 else None
    before = marks(process) if process else None
    held = sum(len(s) for s in account.object_sets)
    entered = len(facility.objects)
    with_automatic = None
    if process and not process.automatic:
        process.automatic = True
        with_automatic = model.query(facility, call).number
        process.automatic = False
    _, mac_move = (model.mac_answer(facility, *call)
                   if model.query(facility, call).number in (0, 12, 13) else (0, None))
    outcome = model.enforce(facility, call)
    number = outcome.number
    account.note(call, number == 0)
    count["calls"] += 1
    count["number %d" % number] += 1
    if number in (0, 12, 13):
        count["answers %d%d%d%d" % (outcome.mac, outcome.fc, outcome.sim, outcome.ff)] += 1
    # where accepted: request, class by kind, owner
    if number == 0:
        count["request %d accepted" % request] += 1
        if model.needs_object(request, e):
            count["kind %d request %d accepted" % (facility.objects[t].kind, request)] += 1
        if owner:
            count["role %d accepted" % owner.role] += 1
            count["trusted owner accepted"] += owner.trusted
        if before and facility.processes[p] and before != marks(facility.processes[p]):
            count["level or mark moved"] += 1
        if sum(len(s) for s in account.object_sets) > held + (request == CREATE):
            count["matter moved into an object"] += 1
    if owner and number in (12, 13):
        count["role %d refused" % owner.role] += 1
        count["trusted owner refused"] += owner.trusted
    if model.needs_object(request, e) and number == 13:
        count["unset level met"] += outcome.mac == 3
        count["unset category met"] += outcome.fc == 3
        count["unset level met by a trusted owner"] += outcome.mac == 3 and owner.trusted
    if number == 12 and outcome.mac == 1:
        count["MAC's yes, another's no"] += 1
        if mac_move and before != marks(mac_move):
            count["MAC's yes with a move, another's no"] += 1
    if number == 12 and with_automatic == 0:
        count["refused only since automatic is off"] += 1
    if request == LOGIN and number == 0:
        count["login again after terminate"] += p in ended
        count["trusted login"] += facility.users[e].trusted
    if request == TERMINATE and number == 0:
        ended.add(p)
    if request == CREATE and number == 0:
        count["128th object"] += entered == 127
    if request == CREATE and number == 10:
        count["129th object refused"] += 1
    if request == DELETE and number == 0:
        count["delete of an object open at several"] += opened > 1
    if request == CLONE and number == 4 and p == t:
        count["clone onto itself"] += 1
    if request == SEND_SIGNAL and number in (0, 12) and facility.mac_on:
        sort = "trusted" if owner.trusted else "untrusted"
        equal = "equal" if process.current == other.current else "different"
        count["signal, %s, %s labels" % (sort, equal)] += 1
    return outcome


class Sent:
    """What signals did in a list: marks that they raised or left, and matter that a process has by them alone."""

    def __init__(self, count, facility, account):
        self.count, self.facility, self.account = count, facility, account
        self.lowest = {}                     # by process: its read mark by its own calls, where a signal raised it
        self.left = {}                       # by process of a trusted owner: the label to which a signal would have raised it
        self.gained = collections.defaultdict(set)

    def before(self, call):
        """What the marks decide of a call, before it is enforced."""
        p, t = call[1], call[2]
        process = self.facility.processes[p] if p < model.PROCESSES else None
        if process is not None:
            number = model.query(self.facility, call).number
            if p in self.lowest and number == 12 and self.number_with(process, self.lowest[p], call) == 0:
                self.count["refused only since a signal raised the mark"] += 1
            if p in self.left and number == 0 and self.number_with(process, self.left[p], call) == 12:
                self.count["accepted only since a trusted receiver's mark stays"] += 1
        self.receiver = self.facility.processes[t] if t < model.PROCESSES else None
        self.mark = self.receiver.read_mark if self.receiver else None
        self.held = set(self.account.process_sets[t]) if t < model.PROCESSES else set()
        self.held_by_object = set(self.account.object_sets[t]) if t < len(self.account.object_sets) else set()

    def number_with(self, process, mark, call):
        kept, process.read_mark = process.read_mark, mark
        number = model.query(self.facility, call).number
        process.read_mark = kept
        return number

    def after(self, call, outcome):
        request, p, t, _ = call
        if request == SEND_SIGNAL:
            self.signal(p, t, outcome)
        if outcome.number != 0:
            return
        if request in (LOGIN, TERMINATE):
            for of in (self.lowest, self.left, self.gained):
                of.pop(p, None)
        if request == CLONE:
            for of in (self.lowest, self.left, self.gained):
                of.pop(t, None)
                if p in of:
                    of[t] = set(of[p]) if of is self.gained else of[p]
        if model.needs_object(request, call[3]):
            if p in self.lowest and CLASSES[self.account.kinds[t]][request] in ("R", "B"):
                self.lowest[p] = self.lowest[p].least_above(self.facility.objects[t].label)
            self.written(p, t)

    def signal(self, p, t, outcome):
        count = self.count
        count["signal, number %d" % outcome.number] += 1
        if outcome.number != 0:
            return
        owner = self.facility.users[self.receiver.owner]
        below = above(self.receiver.current, self.mark)
        sort = "MAC off" if not self.facility.mac_on else "a trusted receiver" if owner.trusted else "an untrusted receiver"
        sender = self.facility.users[self.facility.processes[p].owner]
        if self.receiver.read_mark != self.mark:
            count["signal raised the mark"] += 1
            count["signal raised the mark's set"] += self.receiver.read_mark.set != self.mark.set
            count["signal raised the mark's set alone"] += self.receiver.read_mark.level == self.mark.level
            count["signal to itself raised the mark"] += p == t
            count["signal of a trusted sender raised the mark"] += sender.trusted
            self.lowest.setdefault(t, self.mark)
        else:
            count["signal left the mark, %s" % sort] += 1
            count["signal left a mark below the level, %s" % sort] += below
            count["signal to itself left the mark"] += p == t
        if self.facility.mac_on and owner.trusted and below:
            self.left[t] = self.receiver.current
        new = self.account.process_sets[t] - self.held
        count["signal carried matter"] += bool(new)
        count["signal carried matter, MAC off"] += bool(new) and not self.facility.mac_on
        count["signal carried matter to a trusted receiver"] += bool(new) and self.facility.mac_on and owner.trusted
        count["signal joined matter"] += bool(new) and bool(self.held - self.account.process_sets[p])
        self.gained[t] |= new

    def written(self, p, t):
        """An object that gained what its writer has by a signal alone."""
        new = (self.account.object_sets[t] - self.held_by_object) & self.gained[p]
        for c in new:
            kind, objects = self.account.kinds[t], self.facility.objects
            self.count["matter of a signal reached an object"] += 1
            if self.account.kinds[c] == CHANNEL and kind == FILE:
                self.count["a channel's matter reached a file by a signal"] += 1
                self.count["a channel's matter reached a higher file by a signal"] += self.facility.mac_on and above(objects[t].label, objects[c].label)


class Moved:
    """What moves a list has, and what changes or could change a label and is none; the number of each process against its history."""

    def __init__(self, count, facility, setup):
        self.count, self.facility, self.history = count, facility, model.History(setup)
        self.cloned = set()                  # processes that are clones
        self.last = collections.Counter()    # by process number: the moves of the process that ended there

    def before(self, call):
        request, p, t, e = call
        self.currents = model.currents(self.facility)
        self.process = self.facility.processes[p] if p < model.PROCESSES else None
        judged = model.query(self.facility, call).number in (0, 12, 13)
        self.letter = model.class_of(self.facility, request, t, e) if judged else None
        self.label = self.facility.objects[t].label if self.letter else None
        self.foreseen = model.mac_answer(self.facility, *call)[1] if judged else None

    def after(self, call, outcome):
        request, p, t, _ = call
        after = model.currents(self.facility)
        self.history.note(call, outcome.number == 0, self.currents, after)
        for q, process in enumerate(self.facility.processes):
            if process:
                assert process.moves == self.history.moves(q) <= model.most_moves(self.facility, process.owner), (call, q, process.moves)
        if self.letter in ("R", "W", "B"):
            self.by_class(p, outcome, after)
        if outcome.number != 0:
            return
        if request == SET_LEVEL:
            self.count["set-level changed the level"] += after[p].level != self.currents[p].level
            self.count["set-level changed the set"] += after[p].set != self.currents[p].set
        elif request == CLONE:
            self.cloned.add(t)
            self.count["clone of a process that moved"] += self.process.moves > 0
        elif request == LOGIN:
            self.cloned.discard(p)
            self.count["login after a process that moved"] += self.last[p] > 0
        elif request == TERMINATE:
            self.last[p] = self.process.moves

    def by_class(self, p, outcome, after):
        count, owner = self.count, self.facility.users[self.process.owner]
        if outcome.number != 0:
            # MAC's yes and a move, another module's no
            count["a move refused by another module"] += self.foreseen is not None and self.foreseen.current != self.currents[p]
        elif not self.facility.mac_on or owner.trusted:
            sort = "MAC off" if not self.facility.mac_on else "a trusted owner"
            count["no move at another level, %s" % sort] += self.label.level != self.currents[p].level
            count["no move at another set, %s" % sort] += self.label.set != self.currents[p].set
        elif after[p] == self.currents[p]:
            count["%s left the label" % self.letter] += 1
            count["%s left the label where it had moved" % self.letter] += self.process.moves > 0
            count["left the label, clearance 0"] += owner.clearance == model.BOTTOM
        else:
            self.move(p, self.currents[p], after[p], owner.clearance)

    def move(self, p, before, after, clearance):
        count = self.count
        way = "up" if after.dominates(before) else "down" if before.dominates(after) else "aside"
        at_bound = self.facility.processes[p].moves == rank(clearance) + 1
        sort = "both parts" if before.level != after.level and before.set != after.set else "the set" if before.level == after.level else "the level"
        count["move %s by %s" % (way, self.letter)] += 1
        count["move of %s by %s" % (sort, self.letter)] += 1
        count["move to more than the object's label by R"] += after != self.label
        count["move of a clone"] += p in self.cloned
        count["move to the bound by %s" % self.letter] += at_bound
        count["move of a clone to the bound"] += at_bound and p in self.cloned
        count["move to the bound, clearance %d" % clearance.level] += at_bound and clearance.set == 0
        count["move to the bound, %d categories" % (rank(clearance) - clearance.level)] += at_bound


class Labelled:
    """What the sets of labels decide: calls that by the levels alone, or by an order that takes the set as a number, come out otherwise."""

    def __init__(self, count, facility):
        self.count, self.facility = count, facility

    def before(self, call):
        request, p, t, e = call
        self.process = self.facility.processes[p] if p < model.PROCESSES else None
        outcome = model.query(self.facility, call)
        self.alone = None
        if self.process is None or outcome.number not in (0, 12, 13) or not self.facility.mac_on:
            return
        self.needed = self.facility.objects[t].label if model.needs_object(request, e) else Label(e, t) if request == SET_LEVEL else None
        self.letter = "set-level" if request == SET_LEVEL else "a signal" if request == SEND_SIGNAL else model.class_of(self.facility, request, t, e)
        self.alone = self.by_level(call)
        if outcome.mac == model.NOT_GRANTED and self.alone == model.GRANTED:
            self.count["%s refused by the sets alone" % self.letter] += 1
            self.refused(self.facility.users[self.process.owner].clearance)

    def by_level(self, call):
        """MAC's answer with every set taken away."""
        kept = [(x, name, getattr(x, name)) for x in (*self.facility.objects, *self.facility.users, *filter(None, self.facility.processes))
                for name in ("label", "clearance", "current", "read_mark", "write_mark") if hasattr(x, name)]
        for x, name, label in kept:
            setattr(x, name, Label(label.level))
        answer = model.mac_answer(self.facility, *call[:2], 0 if call[0] == SET_LEVEL else call[2], call[3])[0]
        for x, name, label in kept:
            setattr(x, name, label)
        return answer

    def refused(self, clearance):
        """Which of the three bounds it was that the set did not keep to."""
        if self.needed is None:
            return
        label = self.process.current.least_above(self.needed) if self.letter == "R" else self.needed
        kept = {"clearance": clearance.dominates(label), "write mark": self.process.write_mark.dominates(label),
                "read mark": self.letter == "R" or label.dominates(self.process.read_mark)}
        broken = [name for name, keeps in kept.items() if not keeps]
        if len(broken) == 1 and (self.process.automatic or self.letter == "set-level"):
            self.count["%s refused by the set of the %s" % (self.letter, broken[0])] += 1

    def after(self, call, outcome):
        request, p, t, e = call
        count = self.count
        if outcome.number != 0 or self.alone is None:
            return
        if request == CREATE:
            count["created with a set"] += self.facility.objects[-1].label.set != 0
            count["created with a set, in no directory"] += self.facility.objects[-1].label.set != 0 and e > 1
        if request == CLONE:
            count["clone of a process with sets"] += self.process.current.set != 0 and self.process.read_mark.set != 0
        if request == SEND_SIGNAL:
            count["signal at one label with a set"] += self.process.current.set != 0
        if self.letter == "R" and not self.facility.users[self.process.owner].trusted:
            apart = not self.needed.dominates(self.process.current) and not self.process.current.dominates(self.needed)
            count["R of a label that is neither above nor below"] += apart
            count["R of another set at one level"] += apart and self.needed.level == self.process.current.level


def assert_labels(count, least):
    for letter in ("R", "W", "B", "set-level", "a signal"):
        least("%s refused by the sets alone" % letter, 10)
    for letter in ("R", "W", "set-level"):
        least("%s refused by the set of the clearance" % letter, 5)
        least("%s refused by the set of the write mark" % letter, 3)
    for letter in ("W", "set-level"):
        least("%s refused by the set of the read mark" % letter, 5)
    for letter in ("R", "W"):
        for part in ("the set", "the level", "both parts"):
            least("move of %s by %s" % (part, letter), 10)
    least("move of the set by B", 3)
    for key in ("R of a label that is neither above nor below", "R of another set at one level", "move to more than the object's label by R",
                "created with a set", "created with a set, in no directory", "clone of a process with sets", "signal at one label with a set",
                "signal raised the mark's set", "set-level changed the set", "no move at another set, MAC off", "no move at another set, a trusted owner",
                "written with no set", "written with sets", "written with a created object's set"):
        least(key, 10)
    least("signal raised the mark's set alone", 3)
    for categories in (1, 2, 3, 8):
        least("move to the bound, %d categories" % categories, 1)


def assert_moves(count, least):
    for key in ("move up by R", "move up by W", "move down by W", "move up by B", "move down by B", "R left the label", "W left the label",
                "B left the label", "R left the label where it had moved", "W left the label where it had moved",
                "B left the label where it had moved", "left the label, clearance 0", "no move at another level, MAC off",
                "no move at another level, a trusted owner", "a move refused by another module", "set-level changed the level",
                "clone of a process that moved", "move of a clone", "login after a process that moved", "move to the bound by W",
                "move to the bound by B", "move of a clone to the bound"):
        least(key, 10)
    for clearance in (1, 2, 3, 15):
        least("move to the bound, clearance %d" % clearance, 1)
    assert not any(count[key] for key in ("move down by R", "move aside by R", "move aside by W", "move aside by B", "move to the bound by R",
                                          "move to the bound, clearance 0"))


def assert_coverage(count):
    def least(key, number):
        assert count[key] >= number, "coverage: %s is %d, below %d" % (
            key, count[key], number)

    least("set-ups", 200)
    least("calls", 20000)
    for request in range(22):
        least("request %d accepted" % request, 50)
    for number in range(14):
        least("number %d" % number, 20)
    for kind, requests in CLASSES.items():
        for request in requests:
            least("kind %d request %d accepted" % (kind, request), 10)
    for number in (14, 15, 16, 17, 19):
        least("set-ups refused with %d" % number, 1)
    for name, _, _, _ in damaged_setups(random.Random(0)):
        least("refused: " + name, 1)
    for record_kind in ("switches", "user", "object"):
        for place in range(8):
            if (record_kind, place) == ("user", 4):
                continue                     # any byte is a set
            assert any(key.startswith("refused: ")
                       and key.endswith("%s byte %d" % (record_kind, place))
                       for key in count), (record_kind, place)
    for switches in all_switches():
        least("switches %d%d%d%d" % switches, 5)
    for role in range(3):
        least("role %d accepted" % role, 100)
        least("role %d refused" % role, 20)
    for left in (1, 2, 3):
        least("left-over bytes %d" % left, 5)
    for key in ("trusted owner accepted", "trusted owner refused", "trusted login",
                "unset level met", "unset level met by a trusted owner",
                "unset category met", "login again after terminate",
                "129th object refused", "delete of an object open at several",
                "clone onto itself", "refused only since automatic is off",
                "MAC's yes with a move, another's no", "level or mark moved",
                "matter moved into an object", "signal, untrusted, equal labels",
                "signal, untrusted, different labels",
                "signal, trusted, different labels"):
        least(key, 10)
    for key in ("signal, number 0", "signal, number 2", "signal, number 3", "signal, number 12", "signal raised the mark",
                "signal left the mark, MAC off", "signal left the mark, an untrusted receiver", "signal left the mark, a trusted receiver",
                "signal left a mark below the level, a trusted receiver", "signal to itself left the mark",
                "refused only since a signal raised the mark", "accepted only since a trusted receiver's mark stays",
                "signal carried matter", "signal carried matter, MAC off", "signal carried matter to a trusted receiver",
                "signal joined matter", "matter of a signal reached an object", "a channel's matter reached a file by a signal"):
        least(key, 10)
    least("signal to itself raised the mark", 5)
    least("signal of a trusted sender raised the mark", 5)
    least("a channel's matter reached a higher file by a signal", 5)
    assert count["signal left a mark below the level, an untrusted receiver"] == 0
    assert_moves(count, least)
    assert_labels(count, least)
    least("128th object", 5)
    least("longest set-up", 1)
    least("refused set-up with left-over bytes", 5)
    # every row of answers the four modules can give together; FF does not grant
    for mac in range(4):
        for fc in range(4):
            for sim in range(3):
                for ff in (0, 2):
                    least("answers %d%d%d%d" % (mac, fc, sim, ff), 1)
    for flag in (READ_ONLY, NO_EXECUTE, SEARCH_ONLY):
        least("flag %d forbids, inherited" % flag, 10)
    for flag in FLAGS[:4]:
        least("flag %d forbids, own" % flag, 10)
        least("flag %d alone refuses" % flag, 10)
    for kind in range(4):
        least("flag %d forbids, kind %d" % (READ_ONLY, kind), 10)
        least("flag %d forbids, kind %d" % (NO_DELETE, kind), 3)
    least("inherits through a created directory", 3)
    for key in ("a created file inherits", "forbidden from 100 directories above",
                "accepted below 100 directories", "search in a search-only directory", "a file under search-only",
                "a read of a read-only file", "delete below no-delete", "accepted only without the object's own 128",
                "accepted only since a parent is deleted", "written with a deleted parent", "written with a parent's new number",
                "written with a created parent"):
        least(key, 10)
    least("forbidden in a set-up's chain of 127", 1)
    assert count["flag %d forbids, inherited" % NO_DELETE] == 0
    assert not any(count["flag %d forbids, kind %d" % (SEARCH_ONLY, kind)] for kind in (FILE, CHANNEL, CONTROL))


def main():
    seed, number, folder = int(sys.argv[1]), int(sys.argv[2]), sys.argv[3]
    cases = make_cases(random.Random(seed), number)
    count = coverage(cases)
    cases += [("set-up alone", setup, b"") for setup in setups.all_setups()]
    trials = b"".join(trial_bytes(setup, calls) for _, setup, calls in cases)
    lines = []
    for i, (_, setup, calls) in enumerate(cases):
        lines += expected_lines(i + 1, setup, calls)
    expected = "".join(line + "\n" for line in lines).encode("ascii")
    os.makedirs(folder, exist_ok=True)
    with open(os.path.join(folder, "stdin"), "wb") as file:
        file.write(trials)
    with open(os.path.join(folder, "stdout"), "wb") as file:
        file.write(expected)
    for key in sorted(count, key=natural):
        print("%s: %d" % (key, count[key]), file=sys.stderr)
    print("stdin: %d bytes, stdout: %d bytes" % (len(trials), len(expected)),
          file=sys.stderr)
    if number >= FULL_COVERAGE:
        assert_coverage(count)
        assert len(expected) * FULL_COVERAGE < SIZE_LIMIT * number, len(expected)
        print("coverage: complete", file=sys.stderr)


def natural(key):
    return [word.rjust(4, "0") if word.isdigit() else word for word in key.split()]


if __name__ == "__main__":
    main()

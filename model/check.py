"""Self-check of the model against the paper: python3 model/check.py"""

import os
import random
import subprocess
import sys
import tempfile

import model
import reasons
import run
import story
import vectors
import words
from model import (CLONE, CLOSE, CREATE, DELETE, EXECUTE, LOGIN, READ, READ_OPEN,
                   READ_WRITE_OPEN, SEND_SIGNAL, SET_LEVEL, TERMINATE,
                   WRITE, WRITE_OPEN, Label)

passed = 0


def check(got, wanted, what):
    global passed
    assert got == wanted, "%s: got %r, wanted %r" % (what, got, wanted)
    passed += 1


def switches(mac, fc, sim, ff=0):
    return bytes([3, mac, fc, sim, ff, 0, 0, 0])


def user(clearance, role=0, trusted=0, categories=0):
    return bytes([1, clearance, role, trusted, categories, 0, 0, 0])


def thing(kind, level, category=0, data_type=0, flags=0, parent=0, categories=0):
    return bytes([2, kind, level, category, data_type, flags, parent, categories])


def after(setup, *calls):
    """The facility of a set-up after calls that are all accepted."""
    number, _, facility = model.read_setup(setup)
    assert number == 0
    for call in calls:
        outcome = model.enforce(facility, call)
        assert outcome.number == 0, (call, outcome.number)
    return facility


def answers(setup, calls, last):
    """number and combined answer of the last call, by query and by enforce"""
    facility = after(setup, *calls)
    asked = tuple(model.query(facility, last))
    done = tuple(model.enforce(facility, last))
    assert asked == done
    return done[0], done[4]


# --- The worked example, to the byte --------------------------------------

EXAMPLE = (switches(1, 0, 0) + user(2)
           + thing(0, 1) + thing(0, 2) + thing(0, 0))
EXAMPLE_CALLS = bytes([21, 0, 0, 0, 13, 0, 1, 0, 20, 0, 0, 0, 12, 0, 1, 0,
                       19, 0, 0, 0])
EXAMPLE_LINES = b"""1 21 0 0 0 0 1 0
2 13 0 1 0 0 1 2
3 20 0 0 0 12 2 2
4 12 0 1 0 0 1 2
5 19 0 0 0 9 0 2
"""


def program(setup, calls):
    here = os.path.dirname(os.path.abspath(__file__))
    with tempfile.TemporaryDirectory() as folder:
        name = os.path.join(folder, "setup.bin")
        if setup is not None:
            with open(name, "wb") as file:
                file.write(setup)
        return subprocess.run([sys.executable, os.path.join(here, "run.py"), name],
                              input=calls, stdout=subprocess.PIPE,
                              check=True).stdout


check(program(EXAMPLE, EXAMPLE_CALLS), EXAMPLE_LINES, "worked example")
check(program(EXAMPLE, EXAMPLE_CALLS + b"\0\1\2"), EXAMPLE_LINES + b"short\n",
      "short")
check(program(EXAMPLE, b""), b"", "no calls")
check(program(EXAMPLE, b"\7"), b"short\n", "short alone")
check(program(None, EXAMPLE_CALLS), b"set-up 14 0\n", "unreadable set-up")
check(program(EXAMPLE[:16] + b"\2\4\0\0\0\0\0\0", b"\0"), b"set-up 17 2\n",
      "refused set-up")
check(run.run(EXAMPLE, bytes([21, 0, 0, 0, 21, 0, 0, 0, 18, 0, 9, 9, 18, 0, 0,
                              0, 21, 32, 0, 0, 22, 200, 0, 0]))[0],
      ["1 21 0 0 0 0 1 0", "2 21 0 0 0 4 0 0", "3 18 0 9 9 0 1 -",
       "4 18 0 0 0 3 0 -", "5 21 32 0 0 2 0 -", "6 22 200 0 0 1 0 -"],
      "level or hyphen")

# --- Edges ----------------------------------------------------------------

# Files of levels 0 to 3 have the numbers 0 to 3.
FILES = switches(1, 0, 0) + user(2) + b"".join(thing(0, n) for n in range(4))
IN = (LOGIN, 0, 0, 0)
YES, NO, OPEN_QUESTION = (0, 1), (12, 2), (13, 3)

check(answers(FILES, [IN], (READ_OPEN, 0, 2, 0)), YES, "edge 1")
check(answers(FILES, [IN], (READ_OPEN, 0, 3, 0)), NO, "edge 1, level 3")
READ_2 = [IN, (READ_OPEN, 0, 2, 0), (READ, 0, 2, 0)]
check(answers(FILES, READ_2, (WRITE_OPEN, 0, 1, 0)), NO, "edge 2")
check(answers(FILES, READ_2, (WRITE_OPEN, 0, 2, 0)), YES, "edge 2, level 2")
check(answers(FILES, READ_2 + [(CLOSE, 0, 2, 0)], (WRITE_OPEN, 0, 1, 0)), NO,
      "edge 2, closed")
WROTE_1 = [IN, (WRITE_OPEN, 0, 1, 0)]
check(answers(FILES, WROTE_1, (READ_OPEN, 0, 2, 0)), NO, "edge 3")
check(answers(FILES, WROTE_1, (READ_OPEN, 0, 1, 0)), YES, "edge 3, level 1")
for level in (0, 1):
    check(answers(FILES, [IN, (SET_LEVEL, 0, 0, level), (SET_LEVEL, 0, 0, level)],
                  (WRITE_OPEN, 0, level + 1, 0)), NO, "edge 4")
check(model.combine(3, 2), 3, "edge 5")
check(model.combine(0, 1), 1, "edge 5, granted")
check(answers(FILES, READ_2 + [(CLONE, 0, 7, 0)], (WRITE_OPEN, 7, 1, 0)), NO,
      "edge 6")
check(answers(FILES, READ_2 + [(CLONE, 0, 7, 0)], (READ, 7, 2, 0)), YES,
      "clone copies opens")
check(answers(FILES, [IN], (CLONE, 0, 0, 0)), (4, 0), "clone onto itself")
for e in range(4):
    for held in (126, 127, 128):
        setup = switches(1, 1, 1) + user(0) + thing(1, 0) * held
        _, _, facility = model.read_setup(setup)
        model.enforce(facility, IN)
        for number in range(held, 128):
            outcome = tuple(model.enforce(facility, (CREATE, 0, 0, e)))
            check((outcome[0], outcome[5]), (0, number), "create to the 128th")
        check(tuple(model.enforce(facility, (CREATE, 0, 0, e))),
              (10, 0, 0, 0, 0, 255, 0), "the 129th")
check(model.read_setup(b"")[:2], (14, 0), "set-up of 0 bytes")

# --- Table 4.7 by its ten rows --------------------------------------------

for a, b, both in ((0, 0, 0), (0, 1, 1), (0, 2, 2), (0, 3, 3), (1, 1, 1),
                   (1, 2, 2), (1, 3, 3), (2, 2, 2), (2, 3, 3), (3, 3, 3)):
    check((model.combine(a, b), model.combine(b, a)), (both, both), "table 4.7")

# --- Set-up refusals ------------------------------------------------------

def refusal(setup):
    number, index, facility = model.read_setup(setup)
    if number != 0:
        check(model.setup_bytes(facility), switches(0, 0, 0), "refused: all off")
    return number, index


SMALL = switches(1, 1, 1) + user(15, 2, 1) + user(0) + thing(3, 15, 2, 1) + thing(0, 255, 255)
check(refusal(SMALL), (0, 0), "accepted")
check(refusal(switches(0, 0, 0)), (0, 0), "switches alone")
FULL = switches(1, 0, 1) + user(3) * 16 + thing(1, 2) * 128
check((len(FULL), refusal(FULL)), (1160, (0, 0)), "the longest")
for length in list(range(0, 8)) + list(range(33, 40)):
    check(refusal((SMALL + SMALL)[:length]), (14, 0), "length")
check(refusal(FULL + thing(0, 0)), (14, 0), "length 1,168")
for kind in range(256):
    check(refusal(bytes([kind]) + SMALL[1:]), (0, 0) if kind == 3 else (15, 0),
          "first kind")
    if kind in (0, 3) or kind > 3:
        check(refusal(SMALL + bytes([kind, 0, 0, 0, 0, 0, 0, 0])), (15, 5),
              "later kind")
check(refusal(SMALL + user(0)), (15, 5), "user after object")
check(refusal(switches(0, 0, 0) + user(0) * 17), (16, 17), "17 users")
check(refusal(switches(0, 0, 0) + user(0) * 16 + user(99)), (16, 17),
      "16 before 17")
check(refusal(switches(0, 0, 0) + thing(0, 0) * 129), (16, 129), "129 objects")
check(refusal(FULL[:8 * 17] + thing(0, 0) * 128), (0, 0), "128 objects")
check(refusal(SMALL[:16] + user(16) + user(0) + switches(0, 0, 0)), (17, 2),
      "the earlier record first")
ALLOWED = {
    0: [(0, 1), (0, 1), (0, 1), (0, 1), (0,), (0,), (0,)],
    1: [range(16), (0, 1, 2), (0, 1), range(256), (0,), (0,), (0,)],
    3: [range(4), list(range(16)) + [255], (0, 1, 2, 255), (0, 1),
        list(range(16)) + list(range(128, 144)), (0,), range(256)],
}
for index, fields in ALLOWED.items():
    for place, allowed in enumerate(fields):
        for value in range(256):
            damaged = bytearray(SMALL)
            damaged[8 * index + 1 + place] = value
            # a parent that does not fit is 19
            number = 19 if (index, place) == (3, 5) else 17
            check(refusal(bytes(damaged)), (0, 0) if value in allowed else (number, index),
                  "byte %d of record %d" % (place + 1, index))

# --- Round trips of set-ups -----------------------------------------------

rng = random.Random(0)
for _ in range(200):
    setup = switches(*(rng.randrange(2) for _ in range(4)))
    for _ in range(rng.randrange(17)):
        setup += user(rng.randrange(16), rng.randrange(3), rng.randrange(2), rng.choice((0, rng.randrange(256))))
    directories = []
    for number in range(rng.choice((0, 5, 128))):
        kind = rng.randrange(4)
        level = rng.choice(list(range(16)) + [255])
        setup += thing(kind, level, rng.choice((0, 1, 2, 255)), rng.randrange(2),
                       rng.randrange(16) + rng.choice((0, 128)), rng.choice([0] + directories), 0 if level == 255 else rng.randrange(256))
        directories += [number + 1] if kind == 1 else []
    number, _, facility = model.read_setup(setup)
    check((number, model.setup_bytes(facility)), (0, setup), "round trip")
    tight = bytearray(b"\xa5" * (len(setup) - 1))
    check((model.write_setup(facility, tight), tight),
          ((18, 0), bytearray(b"\xa5" * (len(setup) - 1))), "buffer too small")
    wide = bytearray(b"\xa5" * (len(setup) + 3))
    check((model.write_setup(facility, wide), bytes(wide)),
          ((0, len(setup)), setup + b"\xa5" * 3), "buffer with room")
left = after(FILES, IN, (DELETE, 0, 1, 0), (CREATE, 0, 99, 2))
check(model.setup_bytes(left), FILES[:24] + FILES[32:] + thing(2, 1),
      "live objects only, and the created one at the level after the move")

# --- Modules, marks and counter -------------------------------------------

check(answers(switches(1, 0, 0) + user(9, 0, 1) + thing(0, 255), [IN],
              (READ_OPEN, 0, 0, 0)), OPEN_QUESTION, "unset level, trusted")
check(answers(switches(0, 0, 0) + user(9) + thing(0, 255, 255, 1), [IN],
              (READ_WRITE_OPEN, 0, 0, 0)), (0, 0), "all off")
check(answers(switches(0, 1, 0) + user(9) + thing(0, 0, 255), [IN],
              (READ_OPEN, 0, 0, 0)), OPEN_QUESTION, "unset category")
for role in range(3):
    for category in range(3):
        check(answers(switches(0, 1, 0) + user(9, role) + thing(0, 0, category),
                      [IN], (READ_OPEN, 0, 0, 0)),
              YES if category in (0, role) else NO, "FC")
    check(answers(switches(0, 0, 1) + user(9, role) + thing(0, 0, 0, 1), [IN],
                  (WRITE_OPEN, 0, 0, 0)), YES if role == 1 else NO, "SIM")
    check(answers(switches(0, 0, 1) + user(9, role) + thing(0, 0, 0, 1), [IN],
                  (READ_OPEN, 0, 0, 0)), (0, 0), "SIM of a read")
MIXED = switches(1, 1, 0) + user(5) + thing(0, 4, 1)
facility = after(MIXED, IN)
check(tuple(model.enforce(facility, (READ_OPEN, 0, 0, 0))), (12, 1, 2, 0, 2, 255, 0),
      "MAC's yes, FC's no")
check((facility.processes[0].current, facility.processes[0].read_mark,
       facility.refusals), (Label(0), Label(0), [1] + [0] * 15), "no move, one refusal")
facility.refusals = [4294967294] * 16
model.enforce(facility, (READ_OPEN, 0, 0, 0))
check(facility.refusals, [4294967295] + [4294967294] * 15, "counter")
model.enforce(facility, (READ_OPEN, 0, 0, 0))
check(facility.refusals, [4294967295] + [4294967294] * 15, "counter stays")
# Ticket 1: the caller's owner is counted, not the receiver's
facility = after(switches(1, 0, 0) + user(5) + user(5) + thing(0, 4), (LOGIN, 0, 0, 0), (LOGIN, 1, 0, 1), (READ_OPEN, 0, 0, 0))
for p, t in ((1, 0), (0, 1), (1, 0)):
    check(model.enforce(facility, (SEND_SIGNAL, p, t, 0)).number, 12, "signal between levels")
check(facility.refusals, [1, 2] + [0] * 14, "refusals by user")


def everything(facility):
    return (list(facility.refusals), [vars(obj).copy() for obj in facility.objects],
            [p and dict(vars(p.copy())) for p in facility.processes])


for _ in range(1500):
    facility = after(FILES, *READ_2)
    call = (rng.randrange(23), rng.choice((0, 0, 0, 1, 32)), rng.randrange(5),
            rng.randrange(5))
    before = everything(facility)
    asked = tuple(model.query(facility, call))
    check(everything(facility), before, "query changes nothing")
    check(tuple(model.enforce(facility, call)), asked, "query as enforce")
facility = after(FILES, *(READ_2 + [(TERMINATE, 0, 0, 0), IN]))
check((facility.processes[0].current, facility.processes[0].read_mark,
       facility.processes[0].write_mark, facility.processes[0].automatic,
       facility.processes[0].open_reading), (Label(0), Label(0), Label(15, 255), True, set()),
      "nothing is kept after terminate")
PAIR = [IN, (LOGIN, 1, 0, 0)]
check(answers(FILES, PAIR, (SEND_SIGNAL, 0, 1, 0)), YES, "signal, equal")
check(answers(FILES, PAIR + [(READ_OPEN, 1, 2, 0)], (SEND_SIGNAL, 0, 1, 0)), NO,
      "signal, different")
check(answers(FILES, PAIR + [(READ_OPEN, 1, 2, 0), (READ_OPEN, 0, 2, 0),
                             (DELETE, 0, 2, 0)], (CLOSE, 1, 2, 0)), (6, 0),
      "delete drops the object")

# --- Ticket 2: file flags ---------------------------------------------------

RO, NX, ND, SO, ADD = 1, 2, 4, 8, 128
# The requests of each kind, after "Classes by kind", and those that each flag forbids on it
HAS = {0: {3, 5, 6, 7, 12, 13, 14, 19, 20}, 1: {4, 5, 12, 15, 19}, 2: {0, 3, 5, 12, 14, 19}, 3: {1, 5, 8, 9, 10, 11}}
FORBIDDEN = {RO: {0: {5, 6, 14, 19, 20}, 1: {4, 5, 19}, 2: {0, 5, 14, 19}, 3: {1, 5, 10, 11}},
             NX: {0: {7}, 1: set(), 2: set(), 3: set()},
             ND: {kind: {5} for kind in range(4)},
             SO: {0: set(), 1: {4, 5, 12, 19}, 2: set(), 3: set()},
             ADD: {kind: set() for kind in range(4)}}


def judged(setup, request, t, e=0):
    """number, FF's and combined answer of user 0's process, which has object t open both ways"""
    facility = after(setup, IN)
    facility.processes[0].open_reading.add(t)
    facility.processes[0].open_writing.add(t)
    asked = tuple(model.query(facility, (request, 0, t, e)))
    done = tuple(model.enforce(facility, (request, 0, t, e)))
    assert asked == done
    return done[0], done[6], done[4]


def effective(setup, *calls):
    """effective flags of the live objects, in order"""
    facility = after(setup, *calls)
    return [model.effective_flags(facility, n) for n, obj in enumerate(facility.objects) if obj.live]


FF_ON = switches(0, 0, 0, 1) + user(9)
for flags in list(range(16)) + list(range(128, 144)):
    for kind in range(4):
        for request in HAS[kind]:
            forbidden = any(flags & flag and request in FORBIDDEN[flag][kind] for flag in FORBIDDEN)
            check(judged(FF_ON + thing(kind, 0, 0, 0, flags), request, 0),
                  (12, 2, 2) if forbidden else (0, 0, 0), "own flags, request %d on kind %d" % (request, kind))
            # inherited: all but no-delete, and only with the object's own 128
            above = FF_ON + thing(1, 0, 0, 0, flags)
            inherited = any(flags & flag and request in FORBIDDEN[flag][kind] for flag in (RO, NX, SO))
            check(judged(above + thing(kind, 0, 0, 0, ADD, 1), request, 1),
                  (12, 2, 2) if inherited else (0, 0, 0), "inherited flags, request %d on kind %d" % (request, kind))
            check(judged(above + thing(kind, 0, 0, 0, 0, 1), request, 1), (0, 0, 0), "a parent without 128")
            check(judged(above + thing(kind, 0, 0, 0, ADD, 0), request, 1), (0, 0, 0), "128 without a parent")
            check(judged(switches(0, 0, 0, 0) + user(9) + thing(kind, 0, 0, 0, flags), request, 0), (0, 0, 0), "FF off")
# create with e 2 or 3 has no object target, so t is not looked at
SHUT = FF_ON + thing(1, 0, 0, 0, RO + NX + ND + SO)
for e in range(4):
    check(judged(SHUT, CREATE, 0, e), (12, 2, 2) if e < 2 else (0, 0, 0), "create in a shielded directory")
check(judged(switches(1, 0, 0, 1) + user(9, 0, 1) + thing(0, 0, 0, 0, RO), WRITE_OPEN, 0), (12, 2, 2), "FF and a trusted owner")
check(judged(switches(1, 0, 0, 1) + user(9) + thing(0, 255, 0, 0, RO), WRITE_OPEN, 0), (13, 2, 3), "undefined beats FF")
check(judged(switches(1, 1, 1, 1) + user(9) + thing(0, 0), WRITE_OPEN, 0), (0, 0, 1), "FF does not care")
for request, p, t, e, number in ((22, 0, 0, 0, 1), (5, 32, 0, 0, 2), (5, 1, 0, 0, 3), (5, 0, 9, 0, 6), (15, 0, 1, 0, 7), (4, 0, 0, 4, 8), (19, 0, 1, 0, 9)):
    check(tuple(model.query(after(SHUT + thing(0, 0, 0, 0, RO), IN), (request, p, t, e))), (number, 0, 0, 0, 0, 255, 0), "numbers 1 to 11")
# a refusal by FF moves nothing and is counted
facility = after(switches(1, 0, 0, 1) + user(5) + thing(0, 4, 0, 0, NX), IN)
check(tuple(model.enforce(facility, (EXECUTE, 0, 0, 0))), (12, 1, 0, 0, 2, 255, 2), "MAC's yes, FF's no")
check((facility.processes[0].current, facility.refusals), (Label(0), [1] + [0] * 15), "FF's no: no move, one refusal")
# the chain ends at an object without 128
CHAIN = FF_ON + thing(1, 0, 0, 0, NX + ND) + thing(1, 0, 0, 0, SO, 1) + thing(1, 0, 0, 0, ADD + ND, 2) + thing(0, 0, 0, 0, ADD, 3)
check(effective(CHAIN), [NX + ND, SO, ADD + ND + SO, ADD + SO], "a chain that an object without 128 ends")
CHAIN = FF_ON + thing(1, 0, 0, 0, NX + ND) + thing(1, 0, 0, 0, ADD, 1) + thing(1, 0, 0, 0, ADD + ND, 2) + thing(0, 0, 0, 0, ADD, 3)
check(effective(CHAIN), [NX + ND, ADD + NX, ADD + ND + NX, ADD + NX], "a chain")
check([[model.flag_source(after(CHAIN), t, flag) for flag in (RO, NX, ND, SO, ADD)] for t in range(4)],
      [[None, 0, 0, None, None], [None, 0, None, None, 1], [None, 0, 2, None, 2], [None, 0, None, None, 3]], "where each flag comes from")
DEEP = FF_ON + thing(1, 0, 0, 0, 15) + b"".join(thing(1, 0, 0, 0, ADD, n) for n in range(1, 127)) + thing(0, 0, 0, 0, ADD, 127)
check(effective(DEEP), [15] + [ADD + 11] * 127, "a chain of 127 directories")
check(judged(DEEP, EXECUTE, 127), (12, 2, 2), "execute below 127 directories")
check(judged(DEEP, DELETE, 126), (12, 2, 2), "delete below 126 directories")
# created objects
ROOM = FF_ON + thing(1, 0, 0, 0, NX)
for e in range(4):
    facility = after(ROOM, IN, (CREATE, 0, 0, e))
    check((facility.objects[1].flags, facility.objects[1].parent, model.effective_flags(facility, 1)),
          (ADD, 0, ADD + NX) if e < 2 else (0, None, 0), "created")
MADE = [IN, (CREATE, 0, 0, 0), (CREATE, 0, 0, 1), (CREATE, 0, 2, 0)]
for number in (1, 3):
    facility = after(ROOM, *MADE)
    check(tuple(model.enforce(facility, (EXECUTE, 0, number, 0))), (12, 0, 0, 0, 2, 255, 2), "a created file inherits at once")
check(effective(ROOM, *MADE), [NX, ADD + NX, ADD + NX, ADD + NX], "created in a created directory")
# a deleted parent counts as none, for the flags and for the writer
check(effective(ROOM, *MADE, (DELETE, 0, 0, 0)), [ADD, ADD, ADD], "the first of the chain deleted")
check(effective(ROOM, *MADE, (DELETE, 0, 2, 0)), [NX, ADD + NX, ADD], "the middle of the chain deleted")
facility = after(ROOM, *MADE, (DELETE, 0, 2, 0), (EXECUTE, 0, 3, 0))
check(model.setup_bytes(facility), ROOM + thing(0, 0, 0, 0, ADD, 1) + thing(0, 0, 0, 0, ADD, 0), "a deleted parent is written as 0")
check(model.setup_bytes(after(ROOM, *MADE, (DELETE, 0, 1, 0))), ROOM + thing(1, 0, 0, 0, ADD, 1) + thing(0, 0, 0, 0, ADD, 2),
      "parents by their new numbers")
check(model.setup_bytes(after(FF_ON + thing(2, 0) + thing(1, 0, 0, 0, RO) + thing(0, 0, 0, 0, ADD, 2), IN, (DELETE, 0, 0, 0))),
      FF_ON + thing(1, 0, 0, 0, RO) + thing(0, 0, 0, 0, ADD, 1), "an object before the parent deleted")
# 19: the parent is no earlier directory
KINDS = FF_ON + b"".join(thing(kind, 0) for kind in range(4))
for value in range(256):
    for kind in range(4):
        check(refusal(KINDS + thing(kind, 0, 0, 0, 0, value) + thing(1, 0)), (0, 0) if value in (0, 2) else (19, 6), "parent")
    check(refusal(FF_ON + thing(1, 0) * 127 + thing(1, 0, 0, 0, 0, value)), (0, 0) if value < 128 else (19, 129),
          "parent of the 128th of directories")
    flags = (0, 0) if value & 0x70 == 0 else (17, 6)
    check(refusal(KINDS + thing(0, 0, 0, 0, value, 2)), flags, "flags")
    check(refusal(KINDS + thing(0, 0, 0, 0, value, 1)), (19, 6) if flags == (0, 0) else flags, "19 after 17 on the same record")
check(refusal(KINDS + thing(0, 0, 0, 0, 0, 1) + thing(9, 0)), (19, 6), "19 before a later 17")
check(refusal(KINDS + thing(9, 0) + thing(0, 0, 0, 0, 0, 1)), (17, 6), "17 before a later 19")
check(refusal(KINDS + thing(0, 255, 0, 0, 0, 1, 1)), (17, 6), "a set with an unset level before the parent")
check(refusal(FF_ON + thing(1, 0) * 128 + thing(0, 0, 0, 0, 0, 255)), (16, 130), "16 before 19")
check(refusal(KINDS + b"\4" + thing(0, 0, 0, 0, 0, 255)[1:]), (15, 6), "15 before 19")
check(model.read_setup(switches(0, 0, 0, 1))[2].ff_on, True, "the fourth switch")
# the round trip keeps each live object's effective flags and what FF answers
for _ in range(150):
    setup = switches(0, 0, 0, rng.randrange(2)) + user(9)
    directories = []
    for number in range(rng.choice((3, 20, 127))):
        kind = rng.choice((0, 1, 1, 2))
        setup += thing(kind, 0, 0, 0, rng.choice((0, RO, NX, ND, SO, NX)) + rng.choice((0, ADD, ADD)), rng.choice([0] + directories[-3:]))
        directories += [number + 1] if kind == 1 else []
    facility = after(setup, IN)
    for _ in range(30):
        model.enforce(facility, (rng.choice((CREATE, DELETE, DELETE)), 0, rng.randrange(len(facility.objects)), rng.randrange(3)))
    again = model.setup_bytes(facility)
    kept = [model.effective_flags(facility, n) for n, obj in enumerate(facility.objects) if obj.live]
    check((model.read_setup(again)[0], effective(again)), (0, kept), "effective flags after a round trip")
    check(model.setup_bytes(model.read_setup(again)[2]), again, "written again")
# in words
check(words.tell(FF_ON + thing(1, 0, 0, 0, RO + ND) + thing(0, 255, 0, 0, ADD + NX, 1), bytes([21, 0, 0, 0, 20, 0, 1, 0]))[1],
      "2 process 0 (user 0, general, untrusted, clearance 9, current 0, marks 0 to 15 all, automatic, moves 0 of at most 10): "
      "write-open object 1 (file, level unset, category general, data type none, read-only, no-execute, add-inherited): "
      "MAC not cared, FC not cared, SIM not cared, FF not granted, combined not granted: 12 not granted (read-only of object 0); "
      "then user 0, general, untrusted, clearance 9, current 0, marks 0 to 15 all, automatic, moves 0 of at most 10; refusals of user 0: 1",
      "FF in words")
check(words.tell(KINDS + thing(0, 0, 0, 0, 0, 1), b""), ["set-up refused at record 6: 19 parent is no earlier directory"], "19 in words")
check(words.tell(b"", b""), ["set-up refused: 14 length is not allowed"], "14 in words")

# --- Matter ---------------------------------------------------------------

def matter(setup, calls):
    data = b"".join(bytes(call) for call in calls)
    return run.run(setup, data)[2]


account = matter(FILES, [IN, (READ_OPEN, 0, 1, 0), (WRITE_OPEN, 0, 2, 0),
                         (WRITE, 0, 2, 0)])
check(account.object_sets, [{0}, {1}, {2}, {3}], "opens carry no matter")
account = matter(FILES, [IN, (READ_OPEN, 0, 1, 0), (READ, 0, 1, 0),
                         (CLONE, 0, 3, 0), (TERMINATE, 0, 0, 0),
                         (WRITE_OPEN, 3, 2, 0), (WRITE, 3, 2, 0),
                         (CREATE, 3, 0, 2)])
check(account.object_sets, [{0}, {1}, {1, 2}, {3}, {4}], "read, clone, write, create")
check((account.process_holds(0, 1), account.process_holds(3, 1),
       account.object_holds(2, 1)), (True, True, True), "holds")
TREE = switches(0, 0, 0) + user(0) + thing(1, 0) + thing(3, 0) + thing(2, 0)
account = matter(TREE, [IN, (9, 0, 1, 0), (CREATE, 0, 0, 1), (0, 0, 2, 0),
                        (DELETE, 0, 1, 0), (18, 0, 0, 0), IN])
check((account.kinds, account.object_sets, account.process_sets[0]),
      ([1, 3, 2, 1], [{0, 1}, {1}, {1, 2}, {3}], set()),
      "status read, create in a directory, alter, delete, login")

# --- Ticket 4: signals with a value -----------------------------------------

# Users of clearance 15, untrusted (0) and trusted (1); files of levels 0 to 3 have the numbers 0 to 3, channels of levels 0 to 3 the numbers 4 to 7.
SIGNALS = switches(1, 0, 0) + user(15) + user(15, 0, 1) + b"".join(thing(kind, n) for kind in (0, 2) for n in range(4))


def follow(setup, *calls):
    """The numbers of the calls, and the facility and the account after them."""
    _, _, facility = model.read_setup(setup)
    account = model.Account(setup)
    numbers = []
    for call in calls:
        numbers.append(model.enforce(facility, call).number)
        account.note(call, numbers[-1] == 0)
    return numbers, facility, account


def labels(facility, p):
    process = facility.processes[p]
    return process.current, process.read_mark, process.write_mark, process.automatic


def levels(facility, p):
    """Of a list without sets: the first write mark has all eight, one that was written has none."""
    current, read, write, automatic = labels(facility, p)
    assert current.set == read.set == 0 and write.set == (255 if write.level == 15 else 0), (current, read, write)
    return current.level, read.level, write.level, automatic


def has_read(p, level, owner=0):
    """Login, and the file of that level read."""
    return [(LOGIN, p, 0, owner), (READ_OPEN, p, level, 0), (READ, p, level, 0)]


def at_level(p, level, owner=0):
    """Login, and a level set, with nothing read."""
    return [(LOGIN, p, 0, owner), (SET_LEVEL, p, 0, level)]


SIGNAL = (SEND_SIGNAL, 0, 1, 0)
# an untrusted receiver's read mark becomes its current level, and it gains the sender's matter; the sender stays
READ_AND_SENT = [*has_read(0, 2), *at_level(1, 2), SIGNAL]
numbers, facility, account = follow(SIGNALS, *READ_AND_SENT[:-1])
check((numbers[-1], levels(facility, 1), account.process_sets[:2]), (0, (2, 0, 15, False), [{2}, set()]), "before the signal")
numbers, facility, account = follow(SIGNALS, *READ_AND_SENT)
check((numbers[-1], levels(facility, 0), levels(facility, 1)), (0, (2, 2, 15, True), (2, 2, 15, False)), "the receiver is raised")
check((account.process_sets, account.object_sets), ([{2}, {2}] + [set()] * 30, [{n} for n in range(8)]), "the receiver gains the sender's matter")
check(facility.refusals, [0] * 16, "an accepted signal counts nothing")
for level in range(4):
    for last, number in (((SET_LEVEL, 1, 0, level), 0 if level >= 2 else 12), ((WRITE_OPEN, 1, level, 0), 0 if level == 2 else 12)):
        check(answers(SIGNALS, READ_AND_SENT, last)[0], number, "the receiver after the signal")
check(answers(SIGNALS, READ_AND_SENT[:-1], (SET_LEVEL, 1, 0, 0)), YES, "without the signal")
# a level that was reached by a write, automatic on
numbers, facility, _ = follow(SIGNALS, *has_read(0, 2), (LOGIN, 1, 0, 0), (WRITE_OPEN, 1, 2, 0), SIGNAL, (WRITE_OPEN, 1, 1, 0), (READ_OPEN, 1, 2, 0))
check((numbers[-3:], levels(facility, 1)), ([0, 12, 0], (2, 2, 2, True)), "a receiver that has written")
# upward and downward: refused, nothing changes but the counter
for sent, received in (((0, 1), (1, 2)), ((0, 3), (1, 1))):
    calls = [*has_read(*sent), *at_level(*received), *has_read(3, 2)]
    _, facility, account = follow(SIGNALS, *calls)
    before = everything(facility)
    number = model.enforce(facility, SIGNAL).number
    check((number, everything(facility)[1:], facility.refusals), (12, before[1:], [1] + [0] * 15), "a refused signal changes nothing but the counter")
    check(follow(SIGNALS, *calls, SIGNAL)[2].process_sets, account.process_sets, "a refused signal carries nothing")
for last, number in (((SEND_SIGNAL, 0, 32, 0), 2), ((SEND_SIGNAL, 32, 1, 0), 2), ((SEND_SIGNAL, 0, 2, 0), 3), ((SEND_SIGNAL, 2, 1, 0), 3)):
    numbers, facility, account = follow(SIGNALS, *READ_AND_SENT[:-1], last)
    check((numbers[-1], levels(facility, 1), account.process_sets, facility.refusals), (number, (2, 0, 15, False), [{2}] + [set()] * 31, [0] * 16),
          "a signal from or to no running process")
# a trusted receiver gains the matter, and is not raised
numbers, facility, account = follow(SIGNALS, *has_read(0, 2), *at_level(1, 2, 1), SIGNAL)
check((numbers[-1], levels(facility, 1), account.process_sets[1]), (0, (2, 0, 15, False), {2}), "a trusted receiver")
# a trusted sender: at any levels, and the mark becomes the receiver's level
for level in range(4):
    numbers, facility, account = follow(SIGNALS, *has_read(0, 3, 1), *at_level(1, level), SIGNAL)
    check((numbers[-1], levels(facility, 0), levels(facility, 1), account.process_sets[1]), (0, (0, 0, 15, True), (level, level, 15, False), {3}),
          "a trusted sender")
# an untrusted sender needs equal levels, also where the receiver is trusted
check(follow(SIGNALS, *has_read(0, 3), *at_level(1, 2, 1), SIGNAL)[0][-1], 12, "an untrusted sender, a trusted receiver")
# to itself: reading 20
numbers, facility, account = follow(SIGNALS, *at_level(0, 2), (SEND_SIGNAL, 0, 0, 0), (SET_LEVEL, 0, 0, 1))
check((numbers, levels(facility, 0), account.process_sets[0]), ([0, 0, 0, 12], (2, 2, 15, False), set()), "a signal to itself")
check(levels(follow(SIGNALS, *at_level(0, 2, 1), (SEND_SIGNAL, 0, 0, 0))[1], 0), (2, 0, 15, False), "a trusted process's signal to itself")
# the set is joined, not replaced, and the two sets do not stay one
JOINED = [*has_read(0, 1), (READ_OPEN, 0, 2, 0), (READ, 0, 2, 0), *has_read(1, 0), (SET_LEVEL, 1, 0, 2)]
account = follow(SIGNALS, *JOINED, SIGNAL)[2]
check(account.process_sets, [{1, 2}, {0, 1, 2}] + [set()] * 30, "the set is joined")
account = follow(SIGNALS, *JOINED, SIGNAL, (READ_OPEN, 0, 3, 0), (READ, 0, 3, 0))[2]
check(account.process_sets[:2], [{1, 2, 3}, {0, 1, 2}], "the sender reads on")
account = follow(SIGNALS, *JOINED, (SEND_SIGNAL, 1, 0, 0))[2]
check(account.process_sets[:2], [{0, 1, 2}, {0}], "the other way")
account = follow(SIGNALS, *READ_AND_SENT, (READ_OPEN, 1, 1, 0), (READ, 1, 1, 0))[2]
check(account.process_sets[:2], [{2}, {1, 2}], "the receiver reads on")
account = follow(SIGNALS, *READ_AND_SENT, (CLONE, 1, 2, 0), (LOGIN, 3, 0, 0), (SET_LEVEL, 3, 0, 2), (SEND_SIGNAL, 2, 3, 0))[2]
check(account.process_sets[:4], [{2}] * 4, "carried on, through a clone and a second signal")
numbers, facility, account = follow(SIGNALS, *READ_AND_SENT, (TERMINATE, 1, 0, 0), (LOGIN, 1, 0, 0), (SEND_SIGNAL, 0, 1, 0))
check((numbers[-1], levels(facility, 1), account.process_sets[1]), (12, (0, 0, 15, True), set()), "a new login in the receiver's place")
# MAC off: no mark is raised, and the matter is carried all the same. A list with MAC off leaves every level 0, so it is put off here after the levels are set.
numbers, _, account = follow(switches(0, 1, 1, 1) + SIGNALS[8:], *has_read(0, 2), (LOGIN, 1, 0, 0), SIGNAL)
check((numbers, account.process_sets[1]), ([0] * 5, {2}), "MAC off")
_, facility, _ = follow(SIGNALS, *READ_AND_SENT[:-1])
facility.mac_on = False
check((tuple(model.enforce(facility, SIGNAL)), levels(facility, 1)), ((0, 0, 0, 0, 0, 255, 0), (2, 0, 15, False)), "MAC off, not raised")
# every case: switch, both owners, both levels, the receiver's read mark, to another and to itself
for case in range(2 * 2 * 2 * 3 * 3 * 3 * 2):
    mac, p_trusted, t_trusted, p_current, t_current, mark, itself = (case // n % m for n, m in (
        (1, 2), (2, 2), (4, 2), (8, 3), (24, 3), (72, 3), (216, 2)))
    if mark > t_current:
        continue
    _, facility, _ = follow(SIGNALS, (LOGIN, 0, 0, p_trusted), (LOGIN, 1, 0, t_trusted))
    facility.mac_on = bool(mac)
    facility.processes[0].current = Label(p_current)
    facility.processes[1].current, facility.processes[1].read_mark = Label(t_current), Label(mark)
    sender, trusted = (1, t_trusted) if itself else (0, p_trusted)
    granted = trusted or itself or p_current == t_current
    raised = granted and mac and not t_trusted
    before = everything(facility)
    check(tuple(model.query(facility, (SEND_SIGNAL, sender, 1, 0)))[0], 0 if granted or not mac else 12, "signal")
    check(everything(facility), before, "query of a signal")
    model.enforce(facility, (SEND_SIGNAL, sender, 1, 0))
    check((levels(facility, 0), levels(facility, 1)),
          ((p_current, 0, 15, True), (t_current, t_current if raised else mark, 15, True)), "levels after a signal")

# Demand 3 with a channel as A: readings.md, the lists of its second half. B of each kind, and how it is written.
WRITES = {0: [WRITE_OPEN, WRITE], 1: [WRITE], 2: [READ_WRITE_OPEN, WRITE], 3: [10]}
for a in range(4):
    for b in range(4):
        for kind, writes in WRITES.items():
            pair = switches(1, 0, 0) + user(3) + thing(2, a) + thing(kind, b)
            carried = [(LOGIN, 1, 0, 0), (SET_LEVEL, 1, 0, a), (LOGIN, 0, 0, 0), (READ_WRITE_OPEN, 0, 0, 0), (READ, 0, 0, 0), SIGNAL]
            rest = [(SET_LEVEL, 1, 0, b)] + [(request, 1, 1, 0) for request in writes]
            numbers, _, account = follow(pair, *carried, *rest)
            check((numbers[:len(carried)], account.object_holds(1, 0)), ([0] * len(carried), a <= b), "a channel's matter by a signal")
            check(numbers[len(carried):] == [0] * len(rest), a <= b, "the receiver writes")
            account = follow(pair, *carried[:-1], *rest)[2]
            check(account.object_holds(1, 0), False, "without the signal")
            # refused, since the receiver went on before it was sent
            if a < b:
                numbers, _, account = follow(pair, *carried[:-1], rest[0], SIGNAL, *rest[1:])
                check((numbers[len(carried)], account.object_holds(1, 0)), (12, False), "a refused signal carries nothing to B")

def held_pairs(account):
    return {(x, c) for x, held in enumerate(account.object_sets) for c in held if c != x}


def leaks(facility, account):
    """Who holds what is of a label that its own does not dominate."""
    return [(x, c) for x, c in held_pairs(account) if not facility.objects[x].label.dominates(facility.objects[c].label)]


# Demand 3's first half: lists rich in signals, no trusted login; what an object holds is of no higher level.
by_signals = 0
for _ in range(60):
    setup = switches(1, 0, 0) + user(3) + user(2) + b"".join(thing(kind, rng.randrange(4)) for kind in (0, 0, 0, 1, 2, 2, 3))
    caller = vectors.Caller(rng, setup)
    caller.go_with_signals(150)
    _, facility, account = follow(setup, *caller.calls)
    check(leaks(facility, account), [], "only when its level is at least the other's")
    without = follow(setup, *(call for call in caller.calls if call[0] != SEND_SIGNAL))[2]
    by_signals += len(held_pairs(account) - held_pairs(without))
assert by_signals > 50, by_signals

# in words
TOLD = b"".join(map(bytes, [*READ_AND_SENT, (SEND_SIGNAL, 1, 0, 0), (SEND_SIGNAL, 0, 2, 0), (SEND_SIGNAL, 0, 200, 0), (SET_LEVEL, 1, 0, 3), SIGNAL]))
OWNER = "user 0, general, untrusted, clearance 15, "
SENDER = OWNER + "current 2, marks 2 to 15 all, automatic, moves 1 of at most 16"
STILL = "not automatic, moves 0 of at most 16"
SET_TO_2, RAISED = ("%scurrent 2, marks %d to 15 all, %s" % (OWNER, mark, STILL) for mark in (0, 2))
SET_TO_3 = OWNER + "current 3, marks 2 to 15 all, " + STILL
BEGUN = OWNER + "current 0, marks 0 to 15 all, automatic, moves 0 of at most 16"
SENT = "MAC granted, FC not cared, SIM not cared, FF not cared, combined granted: 0 accepted"
ASIDE = "MAC not cared, FC not cared, SIM not cared, FF not cared, combined not cared: "
check(words.tell(SIGNALS, TOLD)[5:9] + words.tell(SIGNALS, TOLD)[10:],
      ["6 process 0 (%s): send-signal process 1 (%s): %s; then %s; process 1 then %s" % (SENDER, SET_TO_2, SENT, SENDER, RAISED),
       "7 process 1 (%s): send-signal process 0 (%s): %s; then %s; process 0 then %s" % (RAISED, SENDER, SENT, RAISED, SENDER),
       "8 process 0 (%s): send-signal process 2 (not running): %s3 process does not run; then %s; process 2 then not running" % (
           SENDER, ASIDE, SENDER),
       "9 process 0 (%s): send-signal process 200 (not running): %s2 no such process number; then %s; process 200 then not running" % (
           SENDER, ASIDE, SENDER),
       "11 process 0 (%s): send-signal process 1 (%s): "
       "MAC not granted, FC not cared, SIM not cared, FF not cared, combined not granted: 12 not granted (current labels differ); then %s; "
       "process 1 then %s; refusals of user 0: 1" % (SENDER, SET_TO_3, SENDER, SET_TO_3)], "signals in words")
check(words.tell(SIGNALS, TOLD[:20] + bytes([SEND_SIGNAL, 1, 1, 0]))[5],
      "6 process 1 (%s): send-signal process 1 (%s): %s; then %s; process 1 then %s" % (SET_TO_2, SET_TO_2, SENT, RAISED, RAISED),
      "a signal to itself in words")
check(words.tell(SIGNALS, bytes([LOGIN, 0, 0, 0, CLONE, 0, 5, 0, CLONE, 0, 5, 0, CLONE, 0, 77, 0]))[1:],
      ["2 process 0 (%s): clone to process 5, the clone of process 0: %s; then %s; process 5 then %s" % (BEGUN, SENT, BEGUN, BEGUN),
       "3 process 0 (%s): clone to process 5, the clone of process 0: %s4 process number is not free; then %s; process 5 then %s" % (
           BEGUN, ASIDE, BEGUN, BEGUN),
       "4 process 0 (%s): clone to process 77, the clone of process 0: %s2 no such process number; then %s; process 77 then not running" % (
           BEGUN, ASIDE, BEGUN)], "clone in words")

# --- Ticket 5: how often a level moves --------------------------------------

# Users of clearance 3, untrusted (0) and trusted (1), and of clearance 0 (2); an object of kind k and level n has the number 4 * k + n.
LEVELS = user(3) + user(3, 0, 1) + user(0) + b"".join(thing(kind, n) for kind in range(4) for n in range(4))
MOVING = switches(1, 0, 0) + LEVELS
STATUS, CONTROLS = 9, 12
# after "Classes by kind": the requests of each class
BY_CLASS = {"R": {0: (7, 13), 1: (12, 15), 3: (8, 9)}, "W": {0: (5, 6, 20), 1: (4, 5, 19), 2: (0, 5), 3: (1, 5, 10, 11)}, "B": {0: (14,), 2: (14,)}}


def bound(clearance):
    """"clearance level plus its number of categories plus 1", counted here by itself"""
    return clearance.level + bin(clearance.set).count("1") + 1


def agrees(facility, history):
    """The number of each process that runs is that of its history, and at most what the ticket says of its owner's clearance."""
    running = [p for p, process in enumerate(facility.processes) if process]
    check([facility.processes[p].moves for p in running], [history.moves(p) for p in running], "moves and history")
    check([p for p in running if facility.processes[p].moves > bound(facility.users[facility.processes[p].owner].clearance)], [], "at most the bound")


def trace(setup, *calls):
    """The numbers of the calls, and the facility after them; after each, every process is held against its history."""
    _, _, facility = model.read_setup(setup)
    history, numbers = model.History(setup), []
    for call in calls:
        before = model.currents(facility)
        numbers.append(model.enforce(facility, call).number)
        history.note(call, numbers[-1] == 0, before, model.currents(facility))
        agrees(facility, history)
    return numbers, facility


def moves(setup, *calls):
    """Whether all calls were accepted, and the moves of the processes that run after them."""
    numbers, facility = trace(setup, *calls)
    return not any(numbers), [process.moves for process in facility.processes if process]


check(moves(MOVING, IN), (True, [0]), "0 at login")
# each request of each class, on each kind at each level: counted once where it changes the level, not again, not for a trusted owner or with MAC off
for letter, kinds in BY_CLASS.items():
    for kind, requests in kinds.items():
        for request in requests:
            for level in range(4):
                call = (request, 0, 4 * kind + level, 0)
                check(moves(MOVING, IN, call), (True, [int(level > 0)]), "request %d of class %s at level %d" % (request, letter, level))
                if request != DELETE:
                    check(moves(MOVING, IN, call, call), (True, [int(level > 0)]), "request %d twice" % request)
                check(moves(MOVING, (LOGIN, 0, 0, 1), call), (True, [0]), "a trusted owner's request %d" % request)
                check(moves(switches(0, 0, 0) + LEVELS, IN, call), (True, [0]), "request %d with MAC off" % request)
                check(moves(MOVING, (LOGIN, 0, 0, 2), call), (level == 0, [0]), "request %d, clearance 0" % request)
                # down again, from a level that was written to
                down = moves(MOVING, IN, (WRITE_OPEN, 0, 3, 0), call)
                check(down, (True, [1 if level == 3 or letter == "R" else 2]), "request %d after a write at level 3" % request)
# what is no R, W or B: N, create without a directory, signals, clone
OPENED = [IN, (READ_WRITE_OPEN, 0, 2, 0)]
check(moves(MOVING, *OPENED, (READ, 0, 2, 0), (WRITE, 0, 2, 0), (CLOSE, 0, 2, 0), (CREATE, 0, 0, 2), (CREATE, 0, 0, 3)), (True, [1]), "N, and create")
check(moves(MOVING, *OPENED, (SEND_SIGNAL, 0, 0, 0)), (True, [1]), "a signal to itself")
check(moves(MOVING, *OPENED, (LOGIN, 1, 0, 0), (SET_LEVEL, 1, 0, 2), (SEND_SIGNAL, 0, 1, 0), (SEND_SIGNAL, 1, 0, 0)), (True, [1, 0]), "signals")
# set-level changes the level and is no move; none follows it
check(moves(MOVING, IN, *((SET_LEVEL, 0, 0, level) for level in (3, 1, 0, 2))), (True, [0]), "set-level")
check(moves(MOVING, IN, (READ_OPEN, 0, 1, 0), (SET_LEVEL, 0, 0, 3), (SET_LEVEL, 0, 0, 2), (READ_OPEN, 0, 0, 0), (WRITE_OPEN, 0, 2, 0)), (True, [1]),
      "set-level after a move")
check(moves(MOVING, (LOGIN, 0, 0, 1), (SET_LEVEL, 0, 0, 3), (SET_LEVEL, 0, 0, 1)), (True, [0]), "a trusted owner's set-level")
# refused calls, by each module, that MAC would have moved for
for module, setup in (("FC", switches(1, 1, 0) + user(3) + thing(0, 2, 1)), ("SIM", switches(1, 0, 1) + user(3) + thing(0, 2, 0, 1)),
                      ("FF", switches(1, 0, 0, 1) + user(3) + thing(0, 2, 0, 0, RO)), ("FC undefined", switches(1, 1, 0) + user(3) + thing(0, 2, 255)),
                      ("MAC", switches(1, 0, 0) + user(1) + thing(0, 2)), ("MAC undefined", switches(1, 0, 0) + user(3) + thing(0, 255))):
    for request in (WRITE_OPEN, READ_WRITE_OPEN):
        check(moves(setup, IN, (request, 0, 0, 0)), (False, [0]), "refused by " + module)
# a clone has its parent's number at the cloning; then each its own
check(moves(MOVING, *OPENED, (CLONE, 0, 5, 0)), (True, [1, 1]), "a clone")
PARENT = [IN, (READ_OPEN, 0, 1, 0), (CLONE, 0, 5, 0)]
check(moves(MOVING, *PARENT, (WRITE_OPEN, 0, 3, 0), (WRITE_OPEN, 0, 2, 0)), (True, [3, 1]), "the parent moves on")
check(moves(MOVING, *PARENT, (WRITE_OPEN, 5, 3, 0), (WRITE_OPEN, 5, 2, 0)), (True, [1, 3]), "the clone moves on")
check(moves(MOVING, *PARENT, (TERMINATE, 0, 0, 0), (WRITE_OPEN, 5, 3, 0), (CLONE, 5, 0, 0), (WRITE_OPEN, 0, 1, 0)), (True, [3, 2]),
      "a clone's clone, in the first one's place")
check(moves(MOVING, *PARENT, (TERMINATE, 0, 0, 0), IN, (READ_OPEN, 0, 1, 0), (READ_OPEN, 0, 2, 0)), (True, [2, 1]), "a login in the parent's place")
check(moves(MOVING, *PARENT, (TERMINATE, 5, 0, 0), (LOGIN, 5, 0, 0)), (True, [1, 0]), "a login in the clone's place")
check(moves(MOVING, *OPENED, (TERMINATE, 0, 0, 0), (LOGIN, 0, 0, 1)), (True, [0]), "a login after terminate")
check(moves(MOVING, *OPENED, (CLONE, 0, 0, 0), (LOGIN, 0, 0, 0)), (False, [1]), "a refused clone and a refused login")
# the bound is reached, by each way up and down again, and nothing moves any more
for clearance in range(16):
    every = switches(1, 0, 0) + user(clearance) + b"".join(thing(0, level) for level in range(16))
    for read in range(clearance + 1):
        for last in (WRITE_OPEN, READ_WRITE_OPEN):
            up = [(READ_OPEN, 0, level, 0) for level in range(1, read + 1)]
            down = [(WRITE_OPEN, 0, level, 0) for level in range(clearance, read, -1)]
            calls = [IN, *up, *down, (last, 0, read, 0)]
            # who read up to the clearance has no way down, and one move less
            most = clearance + 1 if read < clearance else clearance
            check(moves(every, *calls), (True, [most]), "the bound of clearance %d" % clearance)
            more = [(request, 0, level, 0) for request in (READ_OPEN, WRITE_OPEN, READ_WRITE_OPEN) for level in range(16)]
            check(moves(every, *calls, *more)[1], [most], "the level has settled")
def written(level):
    """The write mark of that level in a list without sets."""
    return Label(level, 255 if level == 15 else 0)


# every state of a process: how many moves lead to it at most, for each clearance
for clearance in range(6):
    setup = switches(1, 0, 0) + user(clearance) + b"".join(thing(0, level) for level in range(clearance + 2))
    tried = [(request, 0, level, 0) for request in (READ_OPEN, WRITE_OPEN, READ_WRITE_OPEN) for level in range(clearance + 2)]
    tried += [(SET_LEVEL, 0, 0, level) for level in range(clearance + 2)]
    found = {(0, 0, 15, True): 0}
    rest = list(found)
    while rest:
        state = rest.pop()
        for call in tried + [(SEND_SIGNAL, 0, 0, 0)]:
            facility = after(setup, IN)
            process = facility.processes[0]
            process.current, process.read_mark, process.write_mark, process.automatic = (*map(Label, state[:2], (0, 0)), written(state[2]), state[3])
            process.moves = found[state]
            assert process.moves < 100, "no end of moves"
            model.enforce(facility, call)
            reached = facility.processes[0]
            if found.get(levels(facility, 0), -1) < reached.moves:
                found[levels(facility, 0)] = reached.moves
                rest.append(levels(facility, 0))
    check(max(found.values()), clearance + 1 if clearance else 0, "most moves of every state")
# the number is a byte that stays at its stop, which only bytes that C put in come near
facility = after(MOVING, IN)
facility.processes[0].moves = 253
for call, number in (((READ_OPEN, 0, 1, 0), 254), ((WRITE_OPEN, 0, 3, 0), 255), ((WRITE_OPEN, 0, 2, 0), 255), ((CLONE, 0, 5, 0), 255)):
    check((model.enforce(facility, call).number, facility.processes[0].moves), (0, number), "the stop")
check((facility.processes[5].moves, model.enforce(facility, (TERMINATE, 5, 0, 0)).number, model.enforce(facility, (LOGIN, 5, 0, 0)).number,
       facility.processes[5].moves), (255, 0, 0, 0), "a clone and a login at the stop")
# lists rich in moves
at_bound = clones_at_bound = 0
for case in range(60):
    setup = vectors.move_setup(rng, (int(case % 10 != 9), int(case % 5 == 3), 0, int(case % 5 == 4)))
    caller = vectors.Caller(rng, setup)
    caller.go_with_moves(100)
    _, facility = trace(setup, *caller.calls)
    cloned = {call[2] for call in caller.calls if call[0] == CLONE}
    for p, process in enumerate(facility.processes):
        if process and process.moves == bound(facility.users[process.owner].clearance):
            at_bound += 1
            clones_at_bound += p in cloned
assert at_bound > 20 and clones_at_bound > 5, (at_bound, clones_at_bound)
# in words
SAID = [IN, (STATUS, 0, CONTROLS + 1, 0), (STATUS, 0, CONTROLS + 1, 0), (SET_LEVEL, 0, 0, 2)]
TOLD = words.tell(MOVING, b"".join(map(bytes, SAID)))
MARKS = ("user 0, general, untrusted, clearance 3, current 0, marks 0 to 15 all, automatic, moves 0 of at most 4",
         "user 0, general, untrusted, clearance 3, current 1, marks 1 to 15 all, automatic, moves 1 of at most 4",
         "user 0, general, untrusted, clearance 3, current 2, marks 1 to 15 all, not automatic, moves 1 of at most 4")
check(TOLD, ["1 process 0 (not running): login user 0: %s; then %s" % (SENT, MARKS[0])]
      + ["%d process 0 (%s): get-status-data object 13 (control data, level 1, category general, data type none): %s; then %s" % (
          n, MARKS[n - 2], SENT, MARKS[1]) for n in (2, 3)]
      + ["4 process 0 (%s): set-level level 2: %s; then %s" % (MARKS[1], SENT, MARKS[2])], "moves in words")

# --- Ticket 6: project categories -------------------------------------------

IN_A, IN_B, IN_H = 1, 2, 128
SETS = (0, IN_A, IN_B, IN_A | IN_B, IN_H, IN_A | IN_H, IN_B | IN_H, IN_A | IN_B | IN_H)


def parts(label):
    """Level and set as Python has it, for what the ticket says, said once more without the model's labels."""
    return label.level, frozenset(n for n in range(8) if label.set >> n & 1)


def under(x, y):
    return x[0] <= y[0] and x[1] <= y[1]


def joined(x, y):
    return max(x[0], y[0]), x[1] | y[1]


def shared(x, y):
    return min(x[0], y[0]), x[1] & y[1]


# "One label dominates another when its level is at least as high and its set contains the other's"; the least above both, the greatest below both
LATTICE = [Label(level, held) for level in (0, 1, 15) for held in SETS]
for x in LATTICE:
    for y in LATTICE:
        check(x.dominates(y), under(parts(y), parts(x)), "dominance")
        check((x == y, x != y), (parts(x) == parts(y), parts(x) != parts(y)), "both parts must be equal")
        over, below = x.least_above(y), x.greatest_below(y)
        check([z for z in LATTICE if z.dominates(x) and z.dominates(y)], [z for z in LATTICE if z.dominates(over)], "the least label above both")
        check([z for z in LATTICE if x.dominates(z) and y.dominates(z)], [z for z in LATTICE if below.dominates(z)], "the greatest label below both")
        check((over in LATTICE, below in LATTICE), (True, True), "least and greatest")

# "User byte 4 is the clearance's set, object byte 7 the object's set, which must be 0 where the level is unset"
for held in range(256):
    for level in (0, 7, 15, 255):
        for kind in range(4):
            setup = switches(1, 0, 0) + user(7, 0, 0, held) + thing(kind, level, 0, 0, 0, 0, held)
            check(refusal(setup), (0, 0) if held == 0 or level != 255 else (17, 2), "a set, level %d" % level)
            if held == 0 or level != 255:
                facility = after(setup)
                check((facility.users[0].clearance, facility.objects[0].label), (Label(7, held), Label(level, held)), "sets are read")
                check(model.setup_bytes(facility), setup, "sets are written")
check(refusal(switches(1, 0, 0) + thing(0, 255, 0, 0, 0, 9, 1)), (17, 1), "17 for a set before 19 for a parent")
check(refusal(switches(1, 0, 0) + thing(0, 255, 0, 0, 0, 9, 0)), (19, 1), "a parent of an object whose level is unset")

# Users: 0 of clearance 3 with a and b, 1 the same and trusted, 2 of clearance 3 with a alone, 3 of clearance 3 with none. Objects of levels 0 to 3 and
# the sets none, a, b and both: of each kind one.
PROJECTS = (user(3, 0, 0, IN_A | IN_B) + user(3, 0, 1, IN_A | IN_B) + user(3, 0, 0, IN_A) + user(3)
            + b"".join(thing(kind, level, 0, 0, 0, 0, held) for kind in range(4) for level in range(4) for held in range(4)))
YARD = switches(1, 0, 0) + PROJECTS
A1, B1, AB1 = (Label(1, held) for held in (IN_A, IN_B, IN_A | IN_B))
START, WHOLE = Label(0), Label(15, 255)


def number_of(kind, label):
    return 16 * kind + 4 * label.level + label.set


def call_on(request, label, kind=0, p=0):
    return request, p, number_of(kind, label), 0


def labels_after(*calls):
    """Whether each call is accepted, and the labels of process 0 after them."""
    numbers, facility, _ = follow(YARD, *calls)
    return not any(numbers), labels(facility, 0)


check(labels_after(IN), (True, (START, START, WHOLE, True)), "the first write mark is 15 with all eight")
# R: without a move under current; else to the least label above both
READ_A = [IN, call_on(READ_OPEN, A1)]
READ_BOTH = [*READ_A, call_on(READ_OPEN, B1)]
check(labels_after(*READ_A), (True, (A1, A1, WHOLE, True)), "read of a")
check(labels_after(*READ_BOTH), (True, (AB1, AB1, WHOLE, True)), "a, then b: both")
check(labels_after(*READ_BOTH, *(call_on(READ_OPEN, Label(level, held)) for level in (0, 1) for held in range(4))), (True, (AB1, AB1, WHOLE, True)),
      "under current nothing moves")
check(labels_after(*READ_A, call_on(READ_OPEN, Label(2, IN_B))), (True, (Label(2, 3), Label(2, 3), WHOLE, True)), "level of the one, sets of both")
check(labels_after(*READ_A, call_on(READ_OPEN, Label(0, IN_B))), (True, (AB1, AB1, WHOLE, True)), "a lower level with another set")
check(moves(YARD, *READ_BOTH, call_on(READ_OPEN, AB1)), (True, [2]), "a move of the set is a move")
# R: the least label above both stays under clearance and write mark
IN_2, IN_3 = (LOGIN, 0, 0, 2), (LOGIN, 0, 0, 3)
check(answers(YARD, [IN_2, call_on(READ_OPEN, A1)], call_on(READ_OPEN, B1)), NO, "a category outside the clearance")
check(answers(YARD, [IN_3], call_on(READ_OPEN, Label(0, IN_A))), NO, "a clearance without a category")
check(answers(YARD, [IN_3], call_on(READ_OPEN, Label(3))), YES, "a clearance's level")
WROTE_A = [IN, call_on(WRITE_OPEN, Label(2, IN_A))]
check(labels_after(*WROTE_A), (True, (Label(2, IN_A), START, Label(2, IN_A), True)), "a write, and the write mark")
for label, answer in ((Label(0), YES), (Label(2, IN_A), YES), (Label(0, IN_B), NO), (Label(2, 3), NO), (Label(3), NO)):
    check(answers(YARD, WROTE_A, call_on(READ_OPEN, label)), answer, "a read under the write mark")
# W: L is current, or between read mark and write mark, and under the clearance
for label, answer in ((Label(1), NO), (Label(3), NO), (Label(1, IN_B), NO), (Label(3, IN_B), NO), (Label(0, IN_A), NO), (A1, YES), (AB1, YES),
                      (Label(3, IN_A), YES)):
    for kind, request in ((0, WRITE_OPEN), (0, READ_WRITE_OPEN), (2, READ_WRITE_OPEN), (1, WRITE), (3, 10)):
        check(answers(YARD, READ_A, call_on(request, label, kind)), answer, "a write after a read of a")
check(answers(YARD, [IN_2], call_on(WRITE_OPEN, AB1)), NO, "a write outside the clearance's set")
check(answers(YARD, [IN_2, (SET_LEVEL, 0, IN_A, 1)], call_on(WRITE_OPEN, A1)), YES, "a write at the current label, automatic off")
for label in (Label(1), B1, AB1, Label(0, IN_A)):
    check(answers(YARD, [IN, (SET_LEVEL, 0, IN_A, 1)], call_on(WRITE_OPEN, label)), NO, "a write at another label, automatic off")
check(labels_after(IN, call_on(WRITE_OPEN, Label(3, 3)), call_on(WRITE_OPEN, Label(3, IN_A)), call_on(WRITE_OPEN, A1)), (True, (A1, START, A1, True)),
      "writes down, set and level")
check(labels_after(*READ_A, call_on(READ_WRITE_OPEN, Label(2, 3))), (True, (Label(2, 3), Label(2, 3), Label(2, 3), True)), "B: both marks")
check(labels_after(IN, call_on(WRITE_OPEN, AB1), call_on(READ_WRITE_OPEN, B1)), (True, (B1, B1, B1, True)), "B below the write mark")
# "Set-level takes the new set from t"; reading 22
check(labels_after(IN, (SET_LEVEL, 0, IN_B, 2)), (True, (Label(2, IN_B), START, WHOLE, False)), "set-level")
for t in range(256):
    for e in (0, 1, 3, 4, 15):
        check(answers(YARD, [IN], (SET_LEVEL, 0, t, e)), YES if t | 3 == 3 and e <= 3 else NO, "set-level, set %d" % t)
        check(answers(YARD, [(LOGIN, 0, 0, 1)], (SET_LEVEL, 0, t, e)), YES if t | 3 == 3 and e <= 3 else NO, "a trusted owner's set-level, set %d" % t)
        check(answers(YARD, READ_A, (SET_LEVEL, 0, t, e))[0], 0 if t in (1, 3) and 1 <= e <= 3 else 12, "set-level above the read mark, set %d" % t)
        check(answers(YARD, WROTE_A, (SET_LEVEL, 0, t, e))[0], 0 if t in (0, 1) and e <= 2 else 12, "set-level under the write mark, set %d" % t)
    check(answers(YARD, [IN], (SET_LEVEL, 0, t, 16)), (11, 0), "only e is asked for 11")
    check(answers(switches(0, 0, 0) + PROJECTS, [IN], (SET_LEVEL, 0, t, 15)), (0, 0), "set-level with MAC off")
# "where two had to be equal, signals included, both parts must be"
for p_label in LATTICE[:16]:
    for t_label in LATTICE[:16]:
        facility = after(YARD, IN, (LOGIN, 1, 0, 0))
        facility.processes[0].current, facility.processes[1].current = p_label, t_label
        number = model.enforce(facility, SIGNAL).number
        check((number, labels(facility, 0), labels(facility, 1)),
              (0 if parts(p_label) == parts(t_label) else 12, (p_label, START, WHOLE, True), (t_label, t_label if number == 0 else START, WHOLE, True)),
              "a signal between labels")
AT_A = [IN, (SET_LEVEL, 0, IN_A, 1), (LOGIN, 1, 0, 0)]
check(answers(YARD, [*AT_A, (SET_LEVEL, 1, IN_B, 1)], SIGNAL), NO, "a signal between a and b at one level")
check(answers(YARD, [*AT_A, (SET_LEVEL, 1, IN_A | IN_B, 1)], SIGNAL), NO, "a signal upward in the set")
check(answers(YARD, [*AT_A, (SET_LEVEL, 1, IN_A, 1), SIGNAL], (SET_LEVEL, 1, 0, 1)), NO, "a receiver's mark has the set")
check(answers(YARD, [*AT_A, (SET_LEVEL, 1, IN_A, 1)], (SET_LEVEL, 1, 0, 1)), YES, "without the signal")
check(labels(after(YARD, (LOGIN, 0, 0, 1), (LOGIN, 1, 0, 0), (SET_LEVEL, 1, IN_B, 2), SIGNAL), 1), (Label(2, IN_B), Label(2, IN_B), WHOLE, False),
      "a trusted sender, and the mark is the receiver's label")
# a created object has the current label after the move; a clone has all labels
for e in range(4):
    facility = after(YARD, *READ_BOTH, (CREATE, 0, number_of(1, Label(2, 3)), e))
    check(facility.objects[-1].label, Label(2, 3) if e < 2 else AB1, "created, kind %d" % e)
    check(model.setup_bytes(facility)[-8:], thing(e, 2 if e < 2 else 1, 0, 0, ADD if e < 2 else 0, 1 + number_of(1, Label(2, 3)) if e < 2 else 0, 3),
          "a created object's set is written")
facility = after(YARD, *READ_A, call_on(WRITE_OPEN, AB1), (CLONE, 0, 9, 0))
check((labels(facility, 9), labels(facility, 0)), ((AB1, A1, AB1, True), (AB1, A1, AB1, True)), "a clone has all labels")
check(labels(after(YARD, *READ_BOTH, (TERMINATE, 0, 0, 0), IN), 0), (START, START, WHOLE, True), "a login after terminate")
# a trusted owner, MAC off: no label moves
for owner, setup in ((1, YARD), (0, switches(0, 0, 0) + PROJECTS)):
    for label in (A1, Label(3, 3), Label(0, IN_B)):
        for request in (READ_OPEN, WRITE_OPEN, READ_WRITE_OPEN):
            check(labels(after(setup, (LOGIN, 0, 0, owner), call_on(request, label)), 0), (START, START, WHOLE, True), "no label moves")
# "The run program prints the level alone."
check(run.run(YARD, b"".join(map(bytes, [*READ_BOTH, (SET_LEVEL, 0, 3, 2), call_on(READ_OPEN, Label(3, 3)), (SET_LEVEL, 0, 7, 2)])))[0],
      ["1 21 0 0 0 0 1 0", "2 13 0 5 0 0 1 1", "3 13 0 6 0 0 1 1", "4 17 0 3 2 0 1 2", "5 13 0 15 0 12 2 2", "6 17 0 7 2 12 2 2"], "the level alone")


def by_the_ticket(letter, state, automatic, clearance, label):
    """What R, W, B and set-level come to, by the ticket's words: the state after it, or None."""
    current, read, write = state
    if letter == "R":
        above = joined(current, label)
        granted = under(label, current) or (automatic and under(above, write) and under(above, clearance))
        return (above, joined(read, label), write) if granted else None
    between = under(read, label) and under(label, write) and under(label, clearance)
    if letter == "set-level":
        return (label, read, write) if between else None
    if not (label == current or (automatic and between)):
        return None
    return (label, label, label) if letter == "B" else (label, read, shared(write, label))


# any labels of a process, also those that no list of calls gives, any clearance, any object
for case in range(6000):
    few = rng.choice(((0, 1, 2, 3), SETS, range(256)))
    state, clearance, label = [Label(rng.randrange(3), rng.choice(few)) for _ in range(3)], Label(rng.randrange(4), rng.choice(few)), Label(
        rng.randrange(3), rng.choice(few))
    letter = "R" if case % 4 == 0 else "WB"[case % 2] if case % 4 < 3 else "set-level"
    state[2] = rng.choice((WHOLE, state[2], state[0].least_above(state[2])))
    facility = after(switches(1, 0, 0) + user(clearance.level, 0, 0, clearance.set) + thing(0, label.level, 0, 0, 0, 0, label.set), IN)
    process = facility.processes[0]
    process.current, process.read_mark, process.write_mark = state
    process.automatic = rng.random() < 0.7
    wanted = by_the_ticket(letter, [parts(x) for x in state], process.automatic, parts(clearance), parts(label))
    call = (SET_LEVEL, 0, label.set, label.level) if letter == "set-level" else ({"R": READ_OPEN, "W": WRITE_OPEN, "B": READ_WRITE_OPEN}[letter], 0, 0, 0)
    number = model.enforce(facility, call).number
    given = tuple(parts(x) for x in labels(facility, 0)[:3])
    check((number, given), (12, tuple(parts(x) for x in state)) if wanted is None else (0, wanted), "%s by the ticket" % letter)
    check(facility.processes[0].moves, int(wanted is not None and letter != "set-level" and wanted[0] != parts(state[0])), "moves of %s" % letter)

# Demand 3 over labels: what is read goes where its label is dominated, straight or, of a channel, by a signal
for x in LATTICE[:16]:
    for y in LATTICE[:16]:
        for kind, writing in WRITES.items():
            pair = switches(1, 0, 0) + user(1, 0, 0, 131) + thing(0, x.level, 0, 0, 0, 0, x.set) + thing(kind, y.level, 0, 0, 0, 0, y.set)
            calls = [IN, (READ_OPEN, 0, 0, 0), (READ, 0, 0, 0)] + [(request, 0, 1, 0) for request in writing]
            numbers, _, account = follow(pair, *calls)
            check((any(numbers), account.object_holds(1, 0)), (not under(parts(x), parts(y)), under(parts(x), parts(y))), "what is read, written")
        pair = switches(1, 0, 0) + user(1, 0, 0, 131) + thing(2, x.level, 0, 0, 0, 0, x.set) + thing(0, y.level, 0, 0, 0, 0, y.set)
        carried = [(LOGIN, 1, 0, 0), (SET_LEVEL, 1, x.set, x.level), IN, (READ_WRITE_OPEN, 0, 0, 0), (READ, 0, 0, 0), SIGNAL,
                   (SET_LEVEL, 1, y.set, y.level), (WRITE_OPEN, 1, 1, 0), (WRITE, 1, 1, 0)]
        numbers, _, account = follow(pair, *carried)
        check((numbers[5], account.object_holds(1, 0)), (0, under(parts(x), parts(y))), "a channel's matter by a signal, over labels")
# random lists with categories: no object comes to hold what is of a label that its own does not dominate
carried_on = 0
for case in range(80):
    some = rng.choice(((0, 1, 2, 3), (0, 0, 1, 2), SETS))
    setup = switches(1, 0, 0, rng.randrange(2)) + user(3, 0, 0, 131) + user(2, 0, 0, rng.choice(some)) + b"".join(
        thing(kind, rng.randrange(3), 0, 0, 0, 0, rng.choice(some)) for kind in (0, 0, 0, 0, 1, 1, 2, 2, 3, 3))
    caller = vectors.Caller(rng, setup)
    (caller.go_with_signals if case % 2 else caller.go_with_moves)(120)
    _, facility, account = follow(setup, *caller.calls)
    check(leaks(facility, account), [], "only where its label dominates the other's")
    carried_on += sum(facility.objects[x].label.set != facility.objects[c].label.set for x, c in held_pairs(account))
assert carried_on > 100, carried_on

# "The bound on moves becomes clearance level plus its number of categories plus 1"
check([model.most_moves(after(switches(0, 0, 0) + b"".join(user(n % 16, 0, 0, held) for n, held in enumerate((0, 1, 128, 3, 131, 255)))), n)
       for n in range(8)], [1, 3, 4, 6, 8, 14, 1, 1], "the bound, and of no user")
for level, held in ((0, 1), (0, 3), (1, 1), (1, 3), (2, 2), (2, 3)):
    objects = [Label(n, x) for n in range(level + 2) for x in (0, 1, 2, 3)]
    setup = switches(1, 0, 0) + user(level, 0, 0, held) + b"".join(thing(0, x.level, 0, 0, 0, 0, x.set) for x in objects)
    tried = [(request, 0, n, 0) for request in (READ_OPEN, WRITE_OPEN, READ_WRITE_OPEN) for n in range(len(objects))] + [(SEND_SIGNAL, 0, 0, 0)]
    tried += [(SET_LEVEL, 0, x.set, x.level) for x in objects]
    found = {(START, START, WHOLE, True): 0}
    rest = list(found)
    while rest:
        state = rest.pop()
        for call in tried:
            facility = after(setup, IN)
            process = facility.processes[0]
            process.current, process.read_mark, process.write_mark, process.automatic = state
            process.moves = found[state]
            assert process.moves < 100, "no end of moves"
            model.enforce(facility, call)
            if found.get(labels(facility, 0), -1) < facility.processes[0].moves:
                found[labels(facility, 0)] = facility.processes[0].moves
                rest.append(labels(facility, 0))
    check(max(found.values()), bound(Label(level, held)), "most moves of every state, level %d, set %d" % (level, held))

# in words
TOLD = words.tell(YARD, b"".join(map(bytes, [*READ_BOTH, (SET_LEVEL, 0, 131, 2), (SET_LEVEL, 0, 255, 16), (SET_LEVEL, 0, 3, 2)])))
OWNER = "user 0, general, untrusted, clearance 3 ab, "
MARKS = (OWNER + "current 0, marks 0 to 15 all, automatic, moves 0 of at most 6",
         OWNER + "current 1 a, marks 1 a to 15 all, automatic, moves 1 of at most 6",
         OWNER + "current 1 ab, marks 1 ab to 15 all, automatic, moves 2 of at most 6",
         OWNER + "current 2 ab, marks 1 ab to 15 all, not automatic, moves 2 of at most 6")
REFUSED = "MAC not granted, FC not cared, SIM not cared, FF not cared, combined not granted: 12 not granted (label not under the clearance)"
PLAIN = "category general, data type none"
check(TOLD, ["1 process 0 (not running): login user 0: %s; then %s" % (SENT, MARKS[0]),
             "2 process 0 (%s): read-open object 5 (file, level 1 a, %s): %s; then %s" % (MARKS[0], PLAIN, SENT, MARKS[1]),
             "3 process 0 (%s): read-open object 6 (file, level 1 b, %s): %s; then %s" % (MARKS[1], PLAIN, SENT, MARKS[2]),
             "4 process 0 (%s): set-level level 2 abh: %s; then %s; refusals of user 0: 1" % (MARKS[2], REFUSED, MARKS[2]),
             "5 process 0 (%s): set-level level 16 all: %s11 no such level; then %s" % (MARKS[2], ASIDE, MARKS[2]),
             "6 process 0 (%s): set-level level 2 ab: %s; then %s" % (MARKS[2], SENT, MARKS[3])], "labels in words")

# --- Reasons: which conditions failed ----------------------------------------

MODIFY, GET_STATUS = 10, 9


def names_of(failed):
    """The names of what failed, in the order in which they are told; of a flag its number."""
    return [name for name in failed._fields[:-1] if getattr(failed, name)] + [failed.flag] * bool(failed.flag)


def agrees_with_answers(failed, outcome):
    """Of each module: it does not grant, or is undefined, exactly with a reason of its own; no other number has any."""
    told = (failed.unset, any(getattr(failed, name) for name in reasons.OF_MAC), failed.nocategory, failed.category, failed.datatype, failed.flag != 0)
    check(told, (outcome.mac == 3, outcome.mac == 2, outcome.fc == 3, outcome.fc == 2, outcome.sim == 2, outcome.ff == 2), "reasons and answers")
    check(failed != reasons.NONE, outcome.number in (12, 13), "a reason exactly where a call is denied")


def why(facility, call):
    """What is told of a call that enforce makes: before it, and where it is refused also after it."""
    before, text = reasons.failed(facility, call), words.why_words(facility, call)
    outcome = model.enforce(facility, call)
    if outcome.number != 0:
        check((reasons.failed(facility, call), words.why_words(facility, call)), (before, text), "the same after a refused call")
    agrees_with_answers(before, outcome)
    return names_of(before)


def told(setup, calls, *lasts):
    """Of each last call, made after the others, why it is refused."""
    return [why(after(setup, *calls), last) for last in lasts]


def at(level, held=0, kind=0):
    """The number of an object of YARD."""
    return number_of(kind, Label(level, held))


# Users of YARD: 0 of clearance 3 ab, 1 the same and trusted, 2 of 3 a, 3 of 3. Both sides of each condition, by each class.
R_CALLS, W_CALLS = ((0, READ_OPEN), (0, EXECUTE), (1, READ), (1, 15), (3, GET_STATUS)), ((0, WRITE_OPEN), (0, DELETE), (1, WRITE), (2, 0), (3, MODIFY))
B_CALLS = ((0, READ_WRITE_OPEN), (2, READ_WRITE_OPEN))
FIXED_AT_1 = [IN, (SET_LEVEL, 0, 0, 1)]
for kind, request in R_CALLS:
    def reading(calls, *those):
        return told(YARD, calls, *(call_on(request, label, kind) for label in those))
    check(reading([(LOGIN, 0, 0, 2)], Label(3, IN_A), Label(3), Label(3, IN_B), Label(0, IN_B)), [[], [], ["clearance"], ["clearance"]], "R, clearance")
    check(reading([(LOGIN, 0, 0, 2), call_on(READ_OPEN, A1)], Label(2), B1), [[], ["clearance"]], "R, clearance, of the least label above both")
    check(reading(WROTE_A, A1, Label(3), Label(2, IN_B), Label(0, IN_B)), [[], ["writemark"], ["writemark"], ["writemark"]], "R, write mark")
    check(reading(FIXED_AT_1, Label(1), Label(0), Label(2), Label(0, IN_A)), [[], [], ["fixed"], ["fixed"]], "R, automatic")
    check(reading([(LOGIN, 0, 0, 3), call_on(WRITE_OPEN, Label(1)), (SET_LEVEL, 0, 0, 1)], Label(1), Label(2), Label(1, IN_A), Label(3, 3)),
          [[], ["fixed", "writemark"]] + [["fixed", "clearance", "writemark"]] * 2, "R, several")
    check(reading([(LOGIN, 0, 0, 1), (SET_LEVEL, 0, 0, 1)], Label(3, 3), Label(0, IN_B)), [[], []], "R, trusted")
for kind, request in W_CALLS + B_CALLS:
    def writing(calls, *those):
        return told(YARD, calls, *(call_on(request, label, kind) for label in those))
    check(writing([(LOGIN, 0, 0, 2)], Label(3, IN_A), Label(3, IN_B), Label(0, IN_B)), [[], ["clearance"], ["clearance"]], "W, clearance")
    check(writing(READ_A, A1, Label(3, 3), Label(1), B1, Label(0, IN_A)), [[], [], ["readmark"], ["readmark"], ["readmark"]], "W, read mark")
    check(writing(WROTE_A, A1, Label(0), Label(3, IN_A), Label(2, 3), Label(0, IN_B)), [[], [], ["writemark"], ["writemark"], ["writemark"]], "W, write mark")
    check(writing(FIXED_AT_1, Label(1), Label(0), Label(2), Label(1, IN_A)), [[], ["fixed"], ["fixed"], ["fixed"]], "W, automatic")
    check(writing([(LOGIN, 0, 0, 2), call_on(READ_WRITE_OPEN, A1), (SET_LEVEL, 0, IN_A, 1)], A1, Label(1), Label(2, IN_A), B1, Label(3, 3)),
          [[], ["fixed", "readmark"], ["fixed", "writemark"], ["fixed", "clearance", "writemark", "readmark"], ["fixed", "clearance", "writemark"]],
          "W, several")
    check(writing([(LOGIN, 0, 0, 1), (SET_LEVEL, 0, 0, 1)], Label(3, 3), Label(0, IN_B)), [[], []], "W, trusted")
check(told(YARD, READ_A, (CREATE, 0, at(1, 1, 1), 0), (CREATE, 0, at(1, 0, 1), 0), (CREATE, 0, at(1, 2, 1), 1), (CREATE, 0, 0, 2), (CREATE, 0, 0, 3)),
      [[], ["readmark"], ["readmark"], [], []], "create")
# set-level, of a trusted owner too: never for automatic
for owner in (0, 1):
    check(told(YARD, [(LOGIN, 0, 0, owner), (SET_LEVEL, 0, IN_A, 1)], (SET_LEVEL, 0, 3, 3), (SET_LEVEL, 0, 3, 4), (SET_LEVEL, 0, 7, 3)),
          [[], ["clearance"], ["clearance"]], "set-level, clearance")
check(told(YARD, READ_A, (SET_LEVEL, 0, IN_A, 1), (SET_LEVEL, 0, IN_A, 0), (SET_LEVEL, 0, IN_B, 1), (SET_LEVEL, 0, IN_B, 4)),
      [[], ["readmark"], ["readmark"], ["clearance", "readmark"]], "set-level, read mark")
check(told(YARD, [*WROTE_A, call_on(READ_OPEN, A1)], (SET_LEVEL, 0, IN_A, 2), (SET_LEVEL, 0, IN_A, 3), (SET_LEVEL, 0, 3, 2), (SET_LEVEL, 0, 4, 0)),
      [[], ["writemark"], ["writemark"], ["clearance", "writemark", "readmark"]], "set-level, write mark")
# signals, by the sender's owner
for sender in (0, 1):
    pair = [(LOGIN, 0, 0, sender), (LOGIN, 1, 0, 1 - sender)]
    check(told(YARD, pair, SIGNAL) + told(YARD, [*pair, (SET_LEVEL, 1, IN_A, 0)], SIGNAL) + told(YARD, [*pair, (SET_LEVEL, 1, 0, 1)], SIGNAL),
          [[], ["receiver"], ["receiver"]] if sender == 0 else [[], [], []], "signals")
# unset, whoever calls, and no other reason of MAC beside it; numbers 1 to 11 have none
HOLES = switches(1, 0, 0) + user(0) + user(0, 0, 1) + thing(1, 255) + thing(0, 255) + thing(0, 0) + thing(0, 1)
for owner in (0, 1):
    check(told(HOLES, [(LOGIN, 0, 0, owner), (SET_LEVEL, 0, 0, 0)], (READ_OPEN, 0, 1, 0), (CREATE, 0, 0, 0), (READ_OPEN, 0, 2, 0), (CREATE, 0, 0, 2)),
          [["unset"], ["unset"], [], []], "level unset")
check(told(HOLES, [IN], (READ_OPEN, 0, 9, 0), (SET_LEVEL, 0, 255, 16), (READ, 0, 1, 0), (READ_OPEN, 7, 3, 0), (22, 0, 3, 0), (LOGIN, 0, 0, 0)), [[]] * 6,
      "other numbers")
check(told(switches(0, 0, 0) + HOLES[8:], [IN], (READ_OPEN, 0, 1, 0), (WRITE_OPEN, 0, 3, 0), (SET_LEVEL, 0, 1, 9)), [[]] * 3, "MAC off")
# FC and SIM by role, category, data type and request; off they have none
for role in range(3):
    for category in (0, 1, 2, 255):
        wanted = ["nocategory"] if category == 255 else ["category"] if category not in (0, role) else []
        for on in (0, 1):
            office = switches(0, on, 0) + user(0, role, 1) + thing(0, 255, category) + thing(1, 255, category)
            check(told(office, [IN], (READ_OPEN, 0, 0, 0), (WRITE_OPEN, 0, 0, 0), (CREATE, 0, 1, 1), (CREATE, 0, 1, 3)), [wanted * on] * 3 + [[]], "FC")
    for data_type in (0, 1):
        for on in (0, 1):
            office = switches(0, 0, on) + user(0, role, 1) + b"".join(thing(kind, 255, 0, data_type) for kind in range(4))
            wanted = ["datatype"] * (on and data_type and role != 1)
            judged_calls = [(request, 0, kind, 0) for kind, request in (*W_CALLS, *B_CALLS, (1, CREATE))]
            check(told(office, [IN], *judged_calls), [wanted] * len(judged_calls), "SIM")
            free = [(request, 0, kind, 0) for kind, request in R_CALLS] + [(CREATE, 0, 1, 2), (SET_LEVEL, 0, 0, 0)]
            check(told(office, [IN], *free), [[]] * len(free), "SIM of a read")
check(told(switches(0, 0, 1) + user(0) + thing(0, 0, 0, 1), [IN], (READ_OPEN, 0, 0, 0)), [[]], "SIM of a read-open")
opened = after(switches(0, 0, 1) + user(0) + thing(0, 0, 0, 1), IN, (READ_OPEN, 0, 0, 0))
opened.processes[0].open_writing.add(0)
check([why(opened, (request, 0, 0, 0)) for request in (READ, WRITE, CLOSE)], [[], ["datatype"], []], "SIM of a write to an open file")
# FF: the first flag that forbids, and whose it is
for flags in range(16):
    for request, kind, asked in ((DELETE, 0, (RO, ND)), (EXECUTE, 0, (NX,)), (DELETE, 1, (RO, ND, SO)), (CREATE, 1, (RO, SO)), (READ, 1, (SO,)), (15, 1, ())):
        first = [flag for flag in asked if flags & flag][:1]
        check(told(FF_ON + thing(kind, 0, 0, 0, flags), [IN], (request, 0, 0, 0)), [first], "FF, flags %d" % flags)
        check(told(switches(0, 0, 0) + FF_ON[8:] + thing(kind, 0, 0, 0, flags), [IN], (request, 0, 0, 0)), [[]], "FF off")
below = after(FF_ON + thing(1, 0, 0, 0, RO + SO) + thing(1, 0, 0, 0, ADD + NX, 1) + thing(0, 0, 0, 0, ADD + ND, 2), IN)
for call, text in (((DELETE, 0, 2, 0), " (read-only of object 0)"), ((EXECUTE, 0, 2, 0), " (no-execute of object 1)"), ((READ_OPEN, 0, 2, 0), ""),
                   ((READ, 0, 1, 0), " (search-only of object 0)"), ((15, 0, 1, 0), "")):
    check(words.why_words(below, call), text, "whose flag it is")
check(words.why_words(after(FF_ON + thing(0, 0, 0, 0, ND), IN), (DELETE, 0, 0, 0)), " (no-delete of object 0)", "no-delete is not inherited")
# short lines: of the story, and what the story has not
SHORT = words.tell(story.SETUP, b"".join(map(bytes, story.CALLS)), words.short_sentence)
check([SHORT[n - 1] for n in (1, 3, 4, 5, 11, 13, 24, 34, 57)],
      ["1 process 0 login user 0: 0 accepted; then current 0, marks 0 to 15 all, clearance 3",
       "3 process 0 read-open object 1 (level 0): 0 accepted",
       "4 process 0 read-open object 2 (level 3): 0 accepted; then current 3, marks 3 to 15 all, clearance 3",
       "5 process 0 write-open object 1 (level 0): 12 not granted (label not over the read mark); then current 3, marks 3 to 15 all, clearance 3",
       "11 process 0 clone to process 2: 0 accepted; process 2 then current 3, marks 3 to 15 all, clearance 3",
       "13 process 0 terminate: 0 accepted; then not running",
       "24 process 4 create file in object 5 (level 0): 0 accepted, object 8; then current 0, marks 0 to 0, clearance 3",
       "34 process 2 send-signal to process 5: 0 accepted; process 5 then current 3, marks 3 to 15 all, clearance 3",
       "57 process 9 set-level level 1 a: 0 accepted; then current 1 a, marks 0 to 15 all, clearance 3 ab"], "short lines")
check(words.tell(story.SETUP, bytes([22, 0, 0, 0, 13, 0, 99, 0, 21, 0, 0, 0, 13, 0, 99, 0, 2, 0, 0, 0, 16, 0, 0, 0]), words.short_sentence),
      ["1 process 0 no request number 22: 1 no such request",
       "2 process 0 read-open object 99: 3 process does not run",
       "3 process 0 login user 0: 0 accepted; then current 0, marks 0 to 15 all, clearance 3",
       "4 process 0 read-open object 99: 6 object is not live",
       "5 process 0 clone to process 0: 4 process number is not free",
       "6 process 0 send-signal to process 0: 0 accepted"], "short lines of what is refused")

# all modules at once, with 12 and with 13, and in words
ALL_ON = switches(1, 1, 1, 1) + user(1) + thing(0, 0, 1, 1, RO) + thing(0, 255, 255, 1, ND) + thing(0, 3, 255, 1, ADD)
BETWEEN = [IN, (SET_LEVEL, 0, 0, 1), (SEND_SIGNAL, 0, 0, 0)]
check(told(ALL_ON, BETWEEN, (DELETE, 0, 0, 0), (DELETE, 0, 1, 0), (DELETE, 0, 2, 0)),
      [["fixed", "readmark", "category", "datatype", RO], ["unset", "nocategory", "datatype", ND], ["fixed", "clearance", "nocategory", "datatype"]],
      "all modules")
WITHIN = "user 0, general, untrusted, clearance 1, current 1, marks 1 to 15 all, not automatic, moves 0 of at most 2"
check(words.tell(ALL_ON, b"".join(map(bytes, [*BETWEEN, (DELETE, 0, 0, 0), (DELETE, 0, 1, 0)])))[3:],
      ["4 process 0 (%s): delete object 0 (file, level 0, category security, data type security information, read-only): MAC not granted, "
       "FC not granted, SIM not granted, FF not granted, combined not granted: 12 not granted (automatic off) (label not over the read mark) "
       "(category not of the role) (security information, not security officer) (read-only of object 0); then %s; refusals of user 0: 1" % (
           WITHIN, WITHIN),
       "5 process 0 (%s): delete object 1 (file, level unset, category unset, data type security information, no-delete): MAC undefined, "
       "FC undefined, SIM not granted, FF not granted, combined undefined: 13 undefined (level unset) (category unset) "
       "(security information, not security officer) (no-delete of object 1); then %s; refusals of user 0: 2" % (WITHIN, WITHIN)], "all modules in words")
OFFICERS = switches(0, 0, 0) + user(2, 1, 1) + user(2, 2) + thing(1, 0, 2)
check(words.tell(OFFICERS, bytes([21, 0, 0, 0, 21, 1, 0, 1, 4, 0, 0, 0, 4, 0, 7, 2, 4, 0, 7, 0]))[1:],
      ["2 process 1 (not running): login user 1: %s0 accepted; then user 1, system administrator, untrusted, clearance 2, current 0, marks 0 to 15 all, "
       "automatic, moves 0 of at most 3" % ASIDE]
      + ["%d process 0 (user 0, security officer, trusted, clearance 2, current 0, marks 0 to 15 all, automatic, moves 0 of at most 3): create %s: "
         "%s%s; then user 0, security officer, trusted, clearance 2, current 0, marks 0 to 15 all, automatic, moves 0 of at most 3" % (
             n, what, ASIDE, number) for n, what, number in (
                 (3, "file in object 0 (directory, level 0, category system, data type none)", "0 accepted, object 1"),
                 (4, "channel", "0 accepted, object 2"), (5, "file in object 7 (not live)", "6 object is not live"))], "roles, and what is made, in words")
check([words.role_words(n) for n in (0, 1, 2, 3, 255)], ["general", "security officer", "system administrator", "no role", "no role"], "role words")
check([words.category_words(n) for n in (0, 1, 2, 3, 254, 255)], ["general", "security", "system", "no category", "no category", "unset"], "category words")
check([words.data_type_words(n) for n in (0, 1, 2, 255)], ["none", "security information", "no data type", "no data type"], "data type words")


def ways_out(facility, call):
    """For each reason how its obstacle is taken out of the way: what has which field, and what is put there."""
    request, p, t, e = call
    process = facility.processes[p]
    owner = facility.users[process.owner]
    thing = facility.objects[t] if model.needs_object(request, e) else None
    label = Label(e, t) if request == SET_LEVEL else thing.label if thing else process.current
    if thing and model.CLASSES[thing.kind][request] == "R":
        label = process.current.least_above(label)
    ways = {"fixed": [(process, "automatic", True)], "clearance": [(owner, "clearance", owner.clearance.least_above(label))],
            "writemark": [(process, "write_mark", process.write_mark.least_above(label))],
            "readmark": [(process, "read_mark", process.read_mark.greatest_below(label))]}
    if request == SEND_SIGNAL:
        ways["receiver"] = [(facility.processes[t], "current", process.current)]
    if thing:
        ways.update(unset=[(thing, "label", process.current)], nocategory=[(thing, "category", 0)], category=[(thing, "category", 0)],
                    datatype=[(thing, "data_type", 0)], flag=[(above, "flags", above.flags & ADD) for above in with_parents(facility, thing)])
    return ways


def with_parents(facility, thing):
    while thing is not None:
        yield thing
        thing = None if thing.parent is None else facility.objects[thing.parent]


def denied_without(facility, call, ways):
    """Whether the call is refused with 12 or 13 once these obstacles are out of the way; then they are put back."""
    changes = [change for way in ways for change in way]
    kept = [(thing, name, getattr(thing, name)) for thing, name, _ in changes]
    for thing, name, value in changes:
        setattr(thing, name, value)
    number = model.query(facility, call).number
    for thing, name, value in kept:
        setattr(thing, name, value)
    return number in (12, 13)


def true_reasons(facility, call, failed):
    """A denied call is accepted without what is told, and still denied with any one of it left."""
    names, ways = [name for name, value in zip(failed._fields, failed) if value], ways_out(facility, call)
    check(denied_without(facility, call, [ways[name] for name in names]), False, "without the reasons")
    for left in names:
        check(denied_without(facility, call, [ways[name] for name in names if name != left]), True, "with one reason left: " + left)
    return names


# random lists: a reason exactly where a call is denied, and each is true
seen_alone, seen_with = set(), set()
for case in range(250):
    setup, calls = (vectors.some_case, vectors.signal_case, vectors.move_case, vectors.label_case, vectors.tree_case)[case % 5](rng, *[case] * (case % 5 > 0))
    number, _, facility = model.read_setup(setup)
    for i in range(0, len(calls) - 3 if number == 0 else 0, 4):
        call = tuple(calls[i:i + 4])
        failed = reasons.failed(facility, call)
        names = true_reasons(facility, call, failed) if failed != reasons.NONE else []
        seen_alone.update(names if len(names) == 1 else [])
        seen_with.update(names if len(names) > 1 else [])
        agrees_with_answers(failed, model.enforce(facility, call))
assert seen_alone == seen_with | {"receiver"} == set(reasons.Failed._fields), (seen_alone, seen_with)
# any labels of a process, also those that no list of calls gives, and every set of MAC's reasons that there is
found = {}
for case in range(8000):
    few = rng.choice(((0, 1, 2, 3), SETS))
    current, read, write, clearance, label = (Label(rng.randrange(3), rng.choice(few)) for _ in range(5))
    letter = ("R", "W", "B", "set-level")[case % 4]
    facility = after(switches(1, 0, 0) + user(clearance.level, 0, 0, clearance.set) + thing(0, label.level, 0, 0, 0, 0, label.set), IN)
    process = facility.processes[0]
    process.current, process.read_mark, process.write_mark, process.automatic = current, read, rng.choice((WHOLE, write, write)), rng.random() < 0.5
    call = (SET_LEVEL, 0, label.set, label.level) if letter == "set-level" else ({"R": READ_OPEN, "W": WRITE_OPEN, "B": READ_WRITE_OPEN}[letter], 0, 0, 0)
    failed = reasons.failed(facility, call)
    agrees_with_answers(failed, model.query(facility, call))
    if failed != reasons.NONE:
        found.setdefault(letter, set()).add(tuple(true_reasons(facility, call, failed)))
check({letter: len(sets) for letter, sets in found.items()}, {"R": 7, "W": 15, "B": 15, "set-level": 7}, "each set of reasons that is not empty")

print("model: %d checks passed" % passed)

"""The story of docs/LEVELS.md: python3 -B model/story.py FOLDER writes FOLDER/data/setup.bin and FOLDER/stdin.

Two windows of one user, the restricted hull lines and the open yard folder; then a clone, a new login and a user of a lower clearance; then,
in a third window of the first user, directories that flags shield; then a window that is signalled by one that may have read; then one
whose level moves as often as it may, with a clone, after objects of levels 1 and 2 were made for it; then two projects at one level, and a
window of a third user that has read both.
"""

import os
import sys

from model import (ADD_INHERITED, CHANNEL, CLONE, CONTROL, CREATE, DELETE, DIRECTORY, EXECUTE, FILE, GET_STATUS, LOGIN, MODIFY_ACCESS, NO_EXECUTE,
                   READ_ONLY, READ_OPEN, READ_WRITE_OPEN, SEND_SIGNAL, SET_LEVEL, TERMINATE, WRITE, WRITE_OPEN)
from records import object_record, switches_record, user_record

DESIGNER, FITTER, PLANNER = 0, 1, 2
FERRY, TUG = 1, 2                    # the categories a and b, as bits of a set
YARD_FOLDER, YARD_NOTES, HULL_LINES = 0, 1, 2
RELEASED_DRAWINGS, RELEASED_SHEET, MEASURING_TOOLS, RULER, OWN_RULER, NEW_RULER = 3, 4, 5, 6, 7, 8
BERTH_SETTINGS, CRANE_CHANNEL, CRANE_SETTINGS = 9, 10, 11      # made by calls, of levels 1, 1 and 2
FERRY_SETTINGS, TUG_SETTINGS, SLIP_PLAN = 12, 13, 14           # made by calls, of level 1 with a, with b and with both
LEFT, RIGHT, COPY, OTHER, SHIELD, RECEIVER, MAKER, MOVER, MOVED_COPY = 0, 1, 2, 3, 4, 5, 6, 7, 8
PLANNING, BOTH_READ, AT_FERRY, NO_PROJECT = 9, 10, 11, 12

SETUP = (switches_record(1, 0, 0, 1)
         + user_record(3, 0, 0) + user_record(1, 0, 0) + user_record(3, 0, 0, FERRY | TUG)
         + object_record(DIRECTORY, 0, 0, 0) + object_record(FILE, 0, 0, 0) + object_record(FILE, 3, 0, 0)
         + object_record(DIRECTORY, 0, 0, 0, READ_ONLY)
         + object_record(FILE, 0, 0, 0, ADD_INHERITED, RELEASED_DRAWINGS + 1)
         + object_record(DIRECTORY, 0, 0, 0, NO_EXECUTE)
         + object_record(FILE, 0, 0, 0, ADD_INHERITED, MEASURING_TOOLS + 1)
         + object_record(FILE, 0, 0, 0, 0, MEASURING_TOOLS + 1))

CALLS = [
    (LOGIN, LEFT, 0, DESIGNER),
    (LOGIN, RIGHT, 0, DESIGNER),
    (READ_OPEN, LEFT, YARD_NOTES, 0),
    (READ_OPEN, LEFT, HULL_LINES, 0),
    (WRITE_OPEN, LEFT, YARD_NOTES, 0),
    (CREATE, LEFT, YARD_FOLDER, FILE),
    (WRITE_OPEN, RIGHT, YARD_NOTES, 0),
    (WRITE, RIGHT, YARD_NOTES, 0),
    (READ_OPEN, RIGHT, HULL_LINES, 0),
    (SET_LEVEL, LEFT, 0, 0),
    (CLONE, LEFT, COPY, 0),
    (WRITE_OPEN, COPY, YARD_NOTES, 0),
    (TERMINATE, LEFT, 0, 0),
    (LOGIN, LEFT, 0, DESIGNER),
    (WRITE_OPEN, LEFT, YARD_NOTES, 0),
    (LOGIN, OTHER, 0, FITTER),
    (READ_OPEN, OTHER, HULL_LINES, 0),
    (LOGIN, SHIELD, 0, DESIGNER),
    (READ_OPEN, SHIELD, RELEASED_SHEET, 0),
    (WRITE_OPEN, SHIELD, RELEASED_SHEET, 0),
    (CREATE, SHIELD, RELEASED_DRAWINGS, FILE),
    (EXECUTE, SHIELD, RULER, 0),
    (EXECUTE, SHIELD, OWN_RULER, 0),             # it has no add-inherited
    (CREATE, SHIELD, MEASURING_TOOLS, FILE),     # becomes NEW_RULER
    (EXECUTE, SHIELD, NEW_RULER, 0),
    (DELETE, SHIELD, MEASURING_TOOLS, 0),
    (EXECUTE, SHIELD, RULER, 0),                 # a deleted parent counts as none
    (EXECUTE, SHIELD, NEW_RULER, 0),
    (LOGIN, RECEIVER, 0, DESIGNER),
    (SET_LEVEL, RECEIVER, 0, 3),
    (SET_LEVEL, RECEIVER, 0, 0),                 # it has read nothing
    (SEND_SIGNAL, COPY, RECEIVER, 0),            # from level 3 to level 0
    (SET_LEVEL, RECEIVER, 0, 3),
    (SEND_SIGNAL, COPY, RECEIVER, 0),
    (SET_LEVEL, RECEIVER, 0, 0),
    (WRITE_OPEN, RECEIVER, YARD_NOTES, 0),
    (LOGIN, MAKER, 0, DESIGNER),
    (SET_LEVEL, MAKER, 0, 1),                    # changes current, and is no move
    (CREATE, MAKER, 0, CONTROL),                 # becomes BERTH_SETTINGS
    (CREATE, MAKER, 0, CHANNEL),                 # becomes CRANE_CHANNEL
    (SET_LEVEL, MAKER, 0, 2),
    (CREATE, MAKER, 0, CONTROL),                 # becomes CRANE_SETTINGS
    (LOGIN, MOVER, 0, DESIGNER),
    (GET_STATUS, MOVER, BERTH_SETTINGS, 0),      # up to 1
    (GET_STATUS, MOVER, BERTH_SETTINGS, 0),      # is there already
    (WRITE_OPEN, MOVER, HULL_LINES, 0),          # up to 3
    (MODIFY_ACCESS, MOVER, CRANE_SETTINGS, 0),   # down to 2
    (CLONE, MOVER, MOVED_COPY, 0),
    (READ_WRITE_OPEN, MOVED_COPY, CRANE_CHANNEL, 0),     # the clone's own move, down to 1
    (MODIFY_ACCESS, MOVER, BERTH_SETTINGS, 0),   # down to 1, the last move
    (READ_OPEN, MOVER, HULL_LINES, 0),           # above its write mark
    (WRITE_OPEN, MOVER, YARD_NOTES, 0),          # below its read mark
    (GET_STATUS, MOVER, BERTH_SETTINGS, 0),
    (TERMINATE, MOVER, 0, 0),
    (LOGIN, MOVER, 0, DESIGNER),
    (LOGIN, PLANNING, 0, PLANNER),
    (SET_LEVEL, PLANNING, FERRY, 1),             # of set-level t is the set
    (CREATE, PLANNING, 0, CONTROL),              # becomes FERRY_SETTINGS
    (SET_LEVEL, PLANNING, TUG, 1),
    (CREATE, PLANNING, 0, CONTROL),              # becomes TUG_SETTINGS
    (SET_LEVEL, PLANNING, FERRY | TUG, 1),
    (CREATE, PLANNING, 0, CONTROL),              # becomes SLIP_PLAN
    (LOGIN, BOTH_READ, 0, PLANNER),
    (GET_STATUS, BOTH_READ, FERRY_SETTINGS, 0),  # to 1 with a
    (GET_STATUS, BOTH_READ, TUG_SETTINGS, 0),    # to 1 with a and b
    (MODIFY_ACCESS, BOTH_READ, FERRY_SETTINGS, 0),       # b is in its read mark
    (MODIFY_ACCESS, BOTH_READ, TUG_SETTINGS, 0),
    (MODIFY_ACCESS, BOTH_READ, SLIP_PLAN, 0),
    (LOGIN, AT_FERRY, 0, PLANNER),
    (SET_LEVEL, AT_FERRY, FERRY, 1),
    (SET_LEVEL, PLANNING, TUG, 1),
    (SEND_SIGNAL, AT_FERRY, PLANNING, 0),        # from a to b, at one level
    (SET_LEVEL, PLANNING, FERRY, 1),
    (SEND_SIGNAL, AT_FERRY, PLANNING, 0),
    (SET_LEVEL, PLANNING, 0, 1),                 # a is in its read mark now
    (LOGIN, NO_PROJECT, 0, DESIGNER),
    (GET_STATUS, NO_PROJECT, FERRY_SETTINGS, 0),     # her clearance's level is enough, its set is not
]


def main():
    folder = sys.argv[1]
    os.makedirs(os.path.join(folder, "data"), exist_ok=True)
    with open(os.path.join(folder, "data", "setup.bin"), "wb") as file:
        file.write(SETUP)
    with open(os.path.join(folder, "stdin"), "wb") as file:
        file.write(b"".join(bytes(call) for call in CALLS))


if __name__ == "__main__":
    main()

"""The station's access decision facility, as an executable model.

Written from the papers alone (01-scope.md and, of 02-change-requests.md, the
requests that have landed), to be held beside them; "reading N" names an entry
of readings.md.
"""

# --- Set-up records -------------------------------------------------------

RECORD = 8
KIND_USER, KIND_OBJECT, KIND_SWITCHES = 1, 2, 3
MAX_USERS, MAX_OBJECTS = 16, 128
MAX_SETUP = 1160
UNSET = 255
FILE, DIRECTORY, CHANNEL, CONTROL = 0, 1, 2, 3
GENERAL, SECURITY, SYSTEM = 0, 1, 2          # FC's categories of an object, and roles by number
OFFICER = 1                                  # role: security officer
NO_TYPE, SECURITY_INFORMATION = 0, 1         # data types
READ_ONLY, NO_EXECUTE, NO_DELETE, SEARCH_ONLY, ADD_INHERITED = 1, 2, 4, 8, 128
FLAGS = (READ_ONLY, NO_EXECUTE, NO_DELETE, SEARCH_ONLY, ADD_INHERITED)

# --- State ----------------------------------------------------------------

PROCESSES = 32
TOP_LEVEL = 15
ALL_CATEGORIES = 255                         # the set of all eight categories of a label, a bit for each
COUNTER_STOP = 4294967295
MOVES_STOP = 255                             # a byte; no list of calls from a fresh facility comes near it
NO_OBJECT = 255                              # what all but an accepted create return

# --- Calls ----------------------------------------------------------------

(ALTER, CHANGE_OWNER, CLONE, CLOSE, CREATE, DELETE, DELETE_DATA, EXECUTE,
 GET_PERMISSIONS, GET_STATUS, MODIFY_ACCESS, MODIFY_PERMISSIONS, READ,
 READ_OPEN, READ_WRITE_OPEN, SEARCH, SEND_SIGNAL, SET_LEVEL, TERMINATE,
 WRITE, WRITE_OPEN, LOGIN) = range(22)

# "Classes by kind (R reads, W writes, B both, N no condition)"
CLASSES = {
    FILE: {5: "W", 6: "W", 7: "R", 12: "N", 13: "R", 14: "B", 19: "N",
           20: "W", 3: "N"},
    DIRECTORY: {4: "W", 5: "W", 12: "R", 15: "R", 19: "W"},
    CHANNEL: {0: "W", 5: "W", 12: "N", 14: "B", 19: "N", 3: "N"},
    CONTROL: {1: "W", 5: "W", 8: "R", 9: "R", 10: "W", 11: "W"},
}

# --- What the modules answer ----------------------------------------------

NOT_CARED, GRANTED, NOT_GRANTED, UNDEFINED = 0, 1, 2, 3


class Label:
    """Ticket 6: "a level with a set of eight categories", the set as a byte. Two
    labels are compared by dominance and equality only: `<` is not defined."""

    __slots__ = ("level", "set")

    def __init__(self, level, categories=0):
        self.level = level
        self.set = categories

    def dominates(self, other):
        """"its level is at least as high and its set contains the other's"."""
        return self.level >= other.level and self.set & other.set == other.set

    def least_above(self, other):
        """"the least label above both"."""
        return Label(max(self.level, other.level), self.set | other.set)

    def greatest_below(self, other):
        """"the greatest below both"."""
        return Label(min(self.level, other.level), self.set & other.set)

    def __eq__(self, other):
        """"both parts must be"."""
        return isinstance(other, Label) and (self.level, self.set) == (other.level, other.set)

    def __hash__(self):
        return hash((self.level, self.set))

    def __repr__(self):
        return "Label(%d, %d)" % (self.level, self.set)


BOTTOM = Label(0)
TOP = Label(TOP_LEVEL, ALL_CATEGORIES)       # "the first write mark is 15 with all eight"


class User:
    def __init__(self, clearance, role, trusted):
        self.clearance = clearance           # a Label
        self.role = role
        self.trusted = trusted


class Object:
    def __init__(self, kind, label, category, data_type, flags=0, parent=None):
        self.kind = kind
        self.label = label                   # its level may be UNSET, with the empty set
        self.category = category             # FC's, not of the label
        self.data_type = data_type
        self.flags = flags                   # its own ones
        self.parent = parent                 # an object number, also of a deleted one, or None
        self.live = True


class Process:
    """State: "Login: current 0, read mark 0, write mark 15, automatic on", and
    "the first write mark is 15 with all eight"."""

    def __init__(self, owner):
        self.owner = owner
        self.current = BOTTOM                # three Labels
        self.read_mark = BOTTOM
        self.write_mark = TOP
        self.automatic = True
        self.moves = 0                       # "starting at 0 at login"
        self.open_reading = set()            # object numbers
        self.open_writing = set()

    def move_to(self, label):
        """What R, W and B do to the current label: "A move is a change of
        current by R, W or B", of its level or its set."""
        if label != self.current:
            self.moves = min(self.moves + 1, MOVES_STOP)
        self.current = label

    def copy(self):
        other = Process(self.owner)
        other.current = self.current
        other.read_mark = self.read_mark
        other.write_mark = self.write_mark
        other.automatic = self.automatic
        other.moves = self.moves             # "copied by a clone"
        other.open_reading = set(self.open_reading)
        other.open_writing = set(self.open_writing)
        return other


class Outcome:
    """What a call returns: number, four answers, combined one, object."""

    def __init__(self, number, mac, fc, sim, ff, combined, object_number):
        self.number = number
        self.mac = mac
        self.fc = fc
        self.sim = sim
        self.ff = ff
        self.combined = combined
        self.object_number = object_number

    def __iter__(self):
        """in the order of the struct for C"""
        return iter((self.number, self.mac, self.fc, self.sim, self.combined,
                     self.object_number, self.ff))


class Facility:
    """Set-up records: "A fresh facility has no process, no refusals counted"."""

    def __init__(self, mac_on=False, fc_on=False, sim_on=False, ff_on=False):
        self.mac_on = mac_on
        self.fc_on = fc_on
        self.sim_on = sim_on
        self.ff_on = ff_on
        self.users = []
        self.objects = []                    # all entered, deleted ones included
        self.processes = [None] * PROCESSES  # None: does not run
        self.refusals = [0] * MAX_USERS      # by user


# --- Set-up records: reading ----------------------------------------------

def read_setup(data):
    """Gives (number, record index, facility); number 0 is acceptance."""
    number, index = setup_questions(data)
    if number != 0:
        # "A refused set-up gives the fresh facility of one switches record
        # with all off."
        return number, index, Facility()
    facility = None
    for record in records(data):
        if record[0] == KIND_SWITCHES:
            facility = Facility(*(byte == 1 for byte in record[1:5]))
        elif record[0] == KIND_USER:
            # "User byte 4 is the clearance's set, object byte 7 the object's set"
            facility.users.append(User(Label(record[1], record[4]), record[2], record[3] == 1))
        else:
            # "the parent directory's number plus 1, or 0 for none"
            parent = record[6] - 1 if record[6] != 0 else None
            facility.objects.append(Object(record[1], Label(record[2], record[7]), *record[3:6], parent))
    return 0, 0, facility


def records(data):
    return [data[i:i + RECORD] for i in range(0, len(data), RECORD)]


def setup_questions(data):
    # "Is the length a positive multiple of 8, at most 1,160? No: 14."
    if len(data) == 0 or len(data) % RECORD != 0 or len(data) > MAX_SETUP:
        return 14, 0
    users = objects = 0
    kinds = []                               # of the objects before the record
    # "15 to 17 for each record in turn": reading 9.
    for index, record in enumerate(records(data)):
        kind = record[0]
        if not kind_fits(kind, index, objects):
            return 15, index
        if kind == KIND_USER and not users < MAX_USERS:
            return 16, index
        if kind == KIND_OBJECT and not objects < MAX_OBJECTS:
            return 16, index
        if not bytes_allowed(record):
            return 17, index
        # "19, the parent is no earlier directory, judged after 17 on the same
        # record": reading 18.
        if kind == KIND_OBJECT and not parent_fits(record[6], kinds):
            return 19, index
        users += kind == KIND_USER
        if kind == KIND_OBJECT:
            objects += 1
            kinds.append(record[1])
    return 0, 0


def kind_fits(kind, index, objects_before):
    """"3 first and only there, no 1 after a 2"; reading 15."""
    if index == 0:
        return kind == KIND_SWITCHES
    if kind == KIND_USER:
        return objects_before == 0
    return kind == KIND_OBJECT


def parent_fits(byte, kinds_before):
    return byte == 0 or (byte - 1 < len(kinds_before)
                         and kinds_before[byte - 1] == DIRECTORY)


def bytes_allowed(record):
    if record[0] == KIND_SWITCHES:
        used = 5
        fields = all(record[i] in (0, 1) for i in (1, 2, 3, 4))
    elif record[0] == KIND_USER:
        used = 5                             # any byte is a set
        fields = (record[1] <= TOP_LEVEL and record[2] in (0, 1, 2)
                  and record[3] in (0, 1))
    else:
        used = 8                             # byte 6 alone never gives 17: reading 18
        fields = (record[1] in (FILE, DIRECTORY, CHANNEL, CONTROL)
                  and (record[2] <= TOP_LEVEL or record[2] == UNSET)
                  and record[3] in (GENERAL, SECURITY, SYSTEM, UNSET)
                  and record[4] in (NO_TYPE, SECURITY_INFORMATION)
                  and record[5] & ~sum(FLAGS) == 0
                  # "which must be 0 where the level is unset"
                  and (record[2] != UNSET or record[7] == 0))
    # "All other bytes are 0"
    return fields and all(byte == 0 for byte in record[used:])


# --- Set-up records: writing out ------------------------------------------

def setup_bytes(facility):
    """"exactly switches, users, live objects in order"."""
    out = bytearray([KIND_SWITCHES, facility.mac_on, facility.fc_on,
                     facility.sim_on, facility.ff_on, 0, 0, 0])
    for user in facility.users:
        out += bytes([KIND_USER, user.clearance.level, user.role, user.trusted,
                      user.clearance.set, 0, 0, 0])
    # "the writer puts out parents by their new numbers"
    live = [number for number, obj in enumerate(facility.objects) if obj.live]
    new_numbers = {number: new for new, number in enumerate(live)}
    for obj in facility.objects:
        if obj.live:
            parent = live_parent(facility, obj)
            out += bytes([KIND_OBJECT, obj.kind, obj.label.level, obj.category,
                          obj.data_type, obj.flags,
                          0 if parent is None else new_numbers[parent] + 1, obj.label.set])
    return bytes(out)


def write_setup(facility, buffer):
    """Writing into a lent bytearray; gives (number, length)."""
    out = setup_bytes(facility)
    if len(buffer) < len(out):
        return 18, 0
    buffer[:len(out)] = out
    return 0, len(out)


# --- File flags -----------------------------------------------------------

def live_parent(facility, obj):
    """"A deleted parent counts as none"."""
    if obj.parent is None or not facility.objects[obj.parent].live:
        return None
    return obj.parent


def effective_flags(facility, number):
    """"the own ones and, with 128, the parent's effective ones without
    no-delete"; reading 19: the object's own 128."""
    obj = facility.objects[number]
    parent = live_parent(facility, obj)
    if obj.flags & ADD_INHERITED == 0 or parent is None:
        return obj.flags
    return obj.flags | (effective_flags(facility, parent) & ~NO_DELETE)


def flag_source(facility, number, flag):
    """The object whose own flag it is that an object has among its effective
    ones; None where it has not got it."""
    if effective_flags(facility, number) & flag == 0:
        return None
    while facility.objects[number].flags & flag == 0:
        number = facility.objects[number].parent
    return number


# --- Calls: the questions in order ----------------------------------------

def needs_object(request, e):
    """"all but 2, 16, 17, 18, 21 and create with e 2 or 3"."""
    if request == CREATE and e in (CHANNEL, CONTROL):
        return False
    return request not in (CLONE, SEND_SIGNAL, SET_LEVEL, TERMINATE, LOGIN)


def class_of(facility, request, t, e):
    """The class of a call whose object target is live and has the request;
    None where no object target is needed."""
    if not needs_object(request, e):
        return None
    return CLASSES[facility.objects[t].kind][request]


def questions_before_modules(facility, request, p, t, e):
    """Numbers 1 to 11, or 0 where the modules are to be asked."""
    processes = facility.processes
    objects = facility.objects
    if not request <= LOGIN:
        return 1
    if not p < PROCESSES:
        return 2
    if request in (CLONE, SEND_SIGNAL) and not t < PROCESSES:
        return 2
    if request != LOGIN and processes[p] is None:
        return 3
    if request == SEND_SIGNAL and processes[t] is None:
        return 3
    if request == LOGIN and processes[p] is not None:
        return 4
    if request == CLONE and processes[t] is not None:
        return 4
    if request == LOGIN and not e < len(facility.users):
        return 5
    if request == CREATE and e not in (FILE, DIRECTORY, CHANNEL, CONTROL):
        return 8
    if needs_object(request, e):
        if not (t < len(objects) and objects[t].live):
            return 6
        if request not in CLASSES[objects[t].kind]:
            return 7
        if class_of(facility, request, t, e) == "N":
            # reading 3: open by p itself
            reading = t in processes[p].open_reading
            writing = t in processes[p].open_writing
            if request == READ and not reading:
                return 9
            if request == WRITE and not writing:
                return 9
            if request == CLOSE and not (reading or writing):
                return 9
    if request == CREATE and not len(objects) < MAX_OBJECTS:
        return 10
    if request == SET_LEVEL and not e <= TOP_LEVEL:
        return 11                            # reading 22: any byte t is a set
    return 0


# --- What the modules answer ----------------------------------------------

def combine(a, b):
    """Table 4.7: undefined beats all, then not granted, then granted."""
    for answer in (UNDEFINED, NOT_GRANTED, GRANTED):
        if a == answer or b == answer:
            return answer
    return NOT_CARED


def mac_answer(facility, request, p, t, e):
    """MAC's answer, and the calling process as its effect leaves it (a copy, or
    None where no label, mark or flag of it changes; a signal's effect is on the
    receiver, in enforce)."""
    if not facility.mac_on:
        return NOT_CARED, None
    # "Object with unset level: undefined, before everything else."
    if needs_object(request, e) and facility.objects[t].label.level == UNSET:
        return UNDEFINED, None
    if request == LOGIN:
        return GRANTED, None
    process = facility.processes[p]
    owner = facility.users[process.owner]
    # Set-level, of a trusted owner too; "takes the new set from t".
    if request == SET_LEVEL:
        return set_level(process, owner.clearance, Label(e, t))
    # "Trusted owner: granted in every class and for signals; marks and
    # current level untouched."  Reading 5: the caller's owner.
    if owner.trusted:
        return GRANTED, None
    if request == SEND_SIGNAL:
        # "where two had to be equal, signals included, both parts must be"
        if process.current == facility.processes[t].current:
            return GRANTED, None
        return NOT_GRANTED, None
    call_class = class_of(facility, request, t, e)
    # "N, login, clone, terminate, create of a channel or control data: granted."
    if call_class in (None, "N"):
        return GRANTED, None
    return by_class(process, owner.clearance, call_class, facility.objects[t].label)


def set_level(process, clearance, new):
    """"granted if read mark <= e <= write mark and e <= clr; current becomes e,
    automatic goes off for good", of the label (e, t)"""
    if not (new.dominates(process.read_mark) and process.write_mark.dominates(new)
            and clearance.dominates(new)):
        return NOT_GRANTED, None
    moved = process.copy()
    moved.current = new                      # no move: it is not by R, W or B
    moved.automatic = False
    return GRANTED, moved


def by_class(process, clearance, call_class, label):
    """R, W and B on an object of that label"""
    granted = reads if call_class == "R" else writes
    if not granted(process, clearance, label):
        return NOT_GRANTED, None
    moved = process.copy()
    if call_class == "R":
        moved.move_to(process.current.least_above(label))
        moved.read_mark = process.read_mark.least_above(label)
    else:
        moved.move_to(label)
        moved.write_mark = process.write_mark.greatest_below(label)
        if call_class == "B":                # "both marks become L"; reading 8
            moved.read_mark = label
            moved.write_mark = label
    return GRANTED, moved


def reads(process, clearance, label):
    """"R is granted without a move if current dominates L, and otherwise if
    automatic is on and the least label above both stays under write mark and
    clearance"."""
    above = process.current.least_above(label)
    return process.current.dominates(label) or (
        process.automatic and process.write_mark.dominates(above) and clearance.dominates(above))


def writes(process, clearance, label):
    """W and B: L is current, or automatic and "read mark <= L <= write mark and
    L <= clr", read as dominance"""
    return label == process.current or (
        process.automatic and label.dominates(process.read_mark)
        and process.write_mark.dominates(label) and clearance.dominates(label))


def fc_answer(facility, request, p, t, e):
    if not facility.fc_on or not needs_object(request, e):   # reading 2
        return NOT_CARED
    category = facility.objects[t].category
    role = facility.users[facility.processes[p].owner].role
    if category == UNSET:
        return UNDEFINED
    if category == GENERAL or category == role:
        return GRANTED
    return NOT_GRANTED


def sim_answer(facility, request, p, t, e):
    if not facility.sim_on or not needs_object(request, e):
        return NOT_CARED
    writing = class_of(facility, request, t, e) in ("W", "B") or request == WRITE
    if not writing or facility.objects[t].data_type != SECURITY_INFORMATION:
        return NOT_CARED
    if facility.users[facility.processes[p].owner].role == OFFICER:
        return GRANTED
    return NOT_GRANTED


def forbids(flag, kind, request):
    """Whether a flag that is in effect forbids a request that the object's
    kind has."""
    if flag == READ_ONLY:
        # "W, B and write"; write is request 19 on every kind
        return CLASSES[kind][request] in ("W", "B") or request == WRITE
    if flag == NO_EXECUTE:
        return request == EXECUTE
    if flag == NO_DELETE:
        return request == DELETE
    if flag == SEARCH_ONLY:
        # reading 19: a directory as the target, not the files under it
        return kind == DIRECTORY and request != SEARCH
    return False


def forbidding_flags(facility, request, t):
    """The effective flags of object t that forbid the request."""
    effective = effective_flags(facility, t)
    return [flag for flag in FLAGS
            if effective & flag and forbids(flag, facility.objects[t].kind, request)]


def ff_answer(facility, request, t, e):
    """"A forbidden request is not granted; all else isn't cared about." """
    if not facility.ff_on or not needs_object(request, e):
        return NOT_CARED
    return NOT_GRANTED if forbidding_flags(facility, request, t) else NOT_CARED


# --- Query and enforce ----------------------------------------------------

def decide(facility, call):
    """The outcome, and MAC's move for an accepted call; changes nothing."""
    request, p, t, e = call
    number = questions_before_modules(facility, request, p, t, e)
    if number != 0:
        # "numbers 1 to 11 come with four not-cared answers", now five
        return Outcome(number, NOT_CARED, NOT_CARED, NOT_CARED, NOT_CARED,
                       NOT_CARED, NO_OBJECT), None
    mac, moved = mac_answer(facility, request, p, t, e)
    fc = fc_answer(facility, request, p, t, e)
    sim = sim_answer(facility, request, p, t, e)
    ff = ff_answer(facility, request, t, e)
    combined = combine(combine(combine(mac, fc), sim), ff)
    if combined == NOT_GRANTED:
        return Outcome(12, mac, fc, sim, ff, combined, NO_OBJECT), None
    if combined == UNDEFINED:
        return Outcome(13, mac, fc, sim, ff, combined, NO_OBJECT), None
    # "An accepted create returns the next object number, all else 255."
    given = len(facility.objects) if request == CREATE else NO_OBJECT
    return Outcome(0, mac, fc, sim, ff, combined, given), moved


def query(facility, call):
    """"Query gives what enforce would and changes nothing."""
    return decide(facility, call)[0]


def enforce(facility, call):
    """Gives the outcome and changes the facility in place."""
    outcome, moved = decide(facility, call)
    if outcome.number in (12, 13):
        # "counted for the owner of the calling process, each with its own stop"
        owner = facility.processes[call[1]].owner
        facility.refusals[owner] = min(facility.refusals[owner] + 1, COUNTER_STOP)
    if outcome.number != 0:
        return outcome
    request, p, t, e = call
    processes = facility.processes
    # MAC's move, only now that the whole call is accepted
    if moved is not None:
        processes[p] = moved
    # "Effects when enforced"
    if request == LOGIN:
        processes[p] = Process(e)
    elif request == CLONE:
        processes[t] = processes[p].copy()
    elif request == SEND_SIGNAL:
        # "with MAC on an untrusted receiver's read mark becomes its current
        # level", now its label: the receiver's owner; reading 20: p itself too
        if facility.mac_on and not facility.users[processes[t].owner].trusted:
            processes[t].read_mark = processes[t].current
    elif request == TERMINATE:
        processes[p] = None
    elif request == CREATE:
        # "level the process's current one after its move", now its label,
        # "category general, data type none"
        created = Object(e, processes[p].current, GENERAL, NO_TYPE)
        # "A created file or directory gets its directory as parent and flag
        # 128, other created objects neither."
        if e in (FILE, DIRECTORY):
            created.flags, created.parent = ADD_INHERITED, t
        facility.objects.append(created)
    elif request == DELETE:
        facility.objects[t].live = False
        for process in processes:
            if process is not None:
                process.open_reading.discard(t)
                process.open_writing.discard(t)
    elif request == CLOSE:
        processes[p].open_reading.discard(t)
        processes[p].open_writing.discard(t)
    elif request == READ_OPEN:
        processes[p].open_reading.add(t)
    elif request == WRITE_OPEN:
        processes[p].open_writing.add(t)
    elif request == READ_WRITE_OPEN:
        processes[p].open_reading.add(t)
        processes[p].open_writing.add(t)
    return outcome


# --- Matter ---------------------------------------------------------------

class Account:
    """"worked out from the set-up and the list of calls alone: of each call
    it takes the four bytes and whether its number is 0"."""

    def __init__(self, setup):
        # kinds of the set-up's objects; a refused set-up has none
        self.kinds = []
        if setup_questions(setup)[0] == 0:
            self.kinds = [r[1] for r in records(setup) if r[0] == KIND_OBJECT]
        self.object_sets = [{number} for number in range(len(self.kinds))]
        self.process_sets = [set() for _ in range(PROCESSES)]

    def note(self, call, accepted):
        if not accepted:
            return
        request, p, t, e = call
        if request == LOGIN:
            self.process_sets[p] = set()
        elif request == CLONE:
            self.process_sets[t] = set(self.process_sets[p])
        elif request == SEND_SIGNAL:
            # "the receiver gains the sender's matter"
            self.process_sets[t] |= self.process_sets[p]
        elif request == CREATE:
            self.object_sets.append({len(self.kinds)})
            self.kinds.append(e)
            if e in (FILE, DIRECTORY):
                self.object_sets[t] |= self.process_sets[p]
        elif needs_object(request, e):
            kind = self.kinds[t]
            call_class = CLASSES[kind][request]
            if (request == READ and kind in (FILE, CHANNEL)) or (
                    call_class == "R" and request != READ_OPEN):
                self.process_sets[p] |= self.object_sets[t]
            elif request == WRITE or (
                    call_class == "W" and request not in (WRITE_OPEN, DELETE)):
                self.object_sets[t] |= self.process_sets[p]
        # "All else changes nothing"

    def object_holds(self, number, c):
        return c in self.object_sets[number]

    def process_holds(self, p, c):
        return c in self.process_sets[p]


# --- Moves ----------------------------------------------------------------

def most_moves(facility, user):
    """"clearance level plus its number of categories plus 1"; reading 21: also
    where it is 0; of no user as of one whose clearance is 0 with no category"""
    clearance = facility.users[user].clearance if user < len(facility.users) else BOTTOM
    return clearance.level + sum(clearance.set >> n & 1 for n in range(8)) + 1


def currents(facility):
    """The current label of each process, None where it does not run."""
    return [process and process.current for process in facility.processes]


class History:
    """Moves, counted from the calls, whether each was accepted, and the current labels before and after it; never from the number that a
    process carries."""

    def __init__(self, setup):
        # kinds of the objects, for the classes of the calls
        self.kinds = [r[1] for r in records(setup) if r[0] == KIND_OBJECT] if setup_questions(setup)[0] == 0 else []
        self.accepted = []                   # of each accepted call: request, p, t, whether it is a move

    def note(self, call, accepted, before, after):
        if not accepted:
            return
        request, p, t, e = call
        by_class = needs_object(request, e) and CLASSES[self.kinds[t]][request] in ("R", "W", "B")
        self.accepted.append((request, p, t, by_class and before[p] != after[p]))
        if request == CREATE:
            self.kinds.append(e)

    def moves(self, p):
        """"the moves in the history of the process and, up to each cloning, of those it was cloned from", back to the login"""
        counted = 0
        for request, caller, t, move in reversed(self.accepted):
            if request == LOGIN and caller == p:
                break
            if request == CLONE and t == p:
                p = caller                   # from here back it is its parent's history
            elif caller == p:
                counted += move
        return counted

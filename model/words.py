"""A run in words: python3 -B model/words.py [--full] SETUP_FILE < CALLS prints a short line for each call; with --full what the program `run_words` prints."""

import sys

import model
import reasons
import run

KINDS = ["file", "directory", "channel", "control data"]
ANSWERS = ["not cared", "granted", "not granted", "undefined"]
REQUESTS = ["alter", "change-owner", "clone", "close", "create", "delete", "delete-data", "execute", "get-permissions-data",
            "get-status-data", "modify-access-data", "modify-permissions-data", "read", "read-open", "read&write-open", "search",
            "send-signal", "set-level", "terminate", "write", "write-open", "login"]
NUMBERS = ["accepted", "no such request", "no such process number", "process does not run", "process number is not free", "no such user",
           "object is not live", "object's kind lacks the request", "no such kind", "object is not open in that mode",
           "128 objects are entered", "no such level", "not granted", "undefined", "length is not allowed", "kind does not fit the place",
           "too many users or objects", "a byte is not allowed", "buffer is too short", "parent is no earlier directory"]
FLAGS = {model.READ_ONLY: "read-only", model.NO_EXECUTE: "no-execute", model.NO_DELETE: "no-delete", model.SEARCH_ONLY: "search-only",
         model.ADD_INHERITED: "add-inherited"}
ROLES = ["general", "security officer", "system administrator"]
CATEGORIES = ["general", "security", "system"]
DATA_TYPES = ["none", "security information"]
REASONS = {"unset": "level unset", "fixed": "automatic off", "clearance": "label not under the clearance",
           "writemark": "label not under the write mark", "readmark": "label not over the read mark", "receiver": "current labels differ",
           "nocategory": "category unset", "category": "category not of the role", "datatype": "security information, not security officer"}


def word(words, number, none):
    return words[number] if number < len(words) else none


def label_words(label):
    """The level and, where there are any, the letters of the label's categories, the low bit's first."""
    letters = "".join(letter for n, letter in enumerate("abcdefgh") if label.set >> n & 1)
    return "%d%s" % (label.level, letters and " " + ("all" if letters == "abcdefgh" else letters))


def process_words(facility, p):
    process = facility.processes[p] if p < model.PROCESSES else None
    if process is None:
        return "not running"
    owner = facility.users[process.owner]
    return "user %d, %s, %s, clearance %s, current %s, marks %s to %s, %s, moves %d of at most %d" % (
        process.owner, role_words(owner.role), "trusted" if owner.trusted else "untrusted",
        *map(label_words, (owner.clearance, process.current, process.read_mark, process.write_mark)),
        "automatic" if process.automatic else "not automatic", process.moves, model.most_moves(facility, process.owner))


def role_words(role):
    return word(ROLES, role, "no role")


def category_words(category):
    """Of an object's category, which FC looks at."""
    return "unset" if category == model.UNSET else word(CATEGORIES, category, "no category")


def data_type_words(data_type):
    return word(DATA_TYPES, data_type, "no data type")


def object_words(facility, t):
    thing = facility.objects[t] if t < len(facility.objects) else None
    if thing is None or not thing.live:
        return " object %d (not live)" % t
    label = "unset" if thing.label.level == model.UNSET else label_words(thing.label)
    return " object %d (%s, level %s, category %s, data type %s%s)" % (
        t, KINDS[thing.kind], label, category_words(thing.category), data_type_words(thing.data_type),
        flag_words(facility, t) if facility.ff_on else "")


def flag_words(facility, t):
    effective = model.effective_flags(facility, t)
    return "".join(", " + name for flag, name in FLAGS.items() if effective & flag)


def why_words(facility, call, failed=None):
    """What failed of a refused call; nothing of any other."""
    failed = failed or reasons.failed(facility, call)
    told = [text for name, text in REASONS.items() if getattr(failed, name)]
    if failed.flag:
        told.append("%s of object %d" % (FLAGS[failed.flag], model.flag_source(facility, call[2], failed.flag)))
    return "".join(" (%s)" % text for text in told)


def target_words(facility, call):
    request, p, t, e = call
    if request > 21:
        return " number %d" % request
    if request == model.LOGIN:
        return " user %d" % e
    if request == model.CLONE:
        return " to process %d, the clone of process %d" % (t, p)
    if request == model.SEND_SIGNAL:
        return " process %d (%s)" % (t, process_words(facility, t))
    if request == model.SET_LEVEL:
        return " level " + label_words(model.Label(e, t))
    if request == model.TERMINATE:
        return ""
    if request == model.CREATE:
        return " " + word(KINDS, e, "no kind") + (" in" + object_words(facility, t) if model.needs_object(request, e) else "")
    return object_words(facility, t)


def short_object(facility, t):
    thing = facility.objects[t] if t < len(facility.objects) else None
    if thing is None or not thing.live:
        return " object %d" % t
    return " object %d (level %s)" % (t, "unset" if thing.label.level == model.UNSET else label_words(thing.label))


def short_target(facility, call):
    """What was asked of which target; where the full line tells all of a process or an object, its number, and a live object's label."""
    request, _, t, e = call
    if request in (model.CLONE, model.SEND_SIGNAL):
        return " to process %d" % t
    if request == model.CREATE and model.needs_object(request, e):
        return " " + word(KINDS, e, "no kind") + " in" + short_object(facility, t)
    if request <= model.LOGIN and model.needs_object(request, e):
        return short_object(facility, t)
    return target_words(facility, call)


def compared(facility, p):
    """What a process is told to be another by."""
    process = facility.processes[p] if p < model.PROCESSES else None
    return process and (process.owner, process.current, process.read_mark, process.write_mark, process.automatic)


def short_process(facility, p):
    process = facility.processes[p] if p < model.PROCESSES else None
    if process is None:
        return "not running"
    return "current %s, marks %s to %s, clearance %s" % tuple(
        map(label_words, (process.current, process.read_mark, process.write_mark, facility.users[process.owner].clearance)))


class Told:
    """What the lines of a call need of the facility before it; the facility after it is the same one."""

    def __init__(self, facility, call):
        self.facility, self.call = facility, call
        request, p, t, _ = call
        self.request, self.why = word(REQUESTS, request, "no request"), why_words(facility, call)
        self.begin, self.target, self.short_target = process_words(facility, p), target_words(facility, call), short_target(facility, call)
        self.owner = facility.processes[p].owner if p < model.PROCESSES and facility.processes[p] else None
        self.compared = [compared(facility, n) for n in (p, t)]

    def said(self, outcome):
        made = ", object %d" % outcome.object_number if outcome.object_number != model.NO_OBJECT else ""
        return ": %d %s%s%s" % (outcome.number, NUMBERS[outcome.number], self.why, made)

    def full(self, index, outcome):
        facility, (request, p, t, _) = self.facility, self.call
        answers = ": MAC %s, FC %s, SIM %s, FF %s, combined %s" % tuple(
            ANSWERS[answer] for answer in (outcome.mac, outcome.fc, outcome.sim, outcome.ff, outcome.combined))
        line = "%d process %d (%s): %s%s%s%s; then %s" % (index, p, self.begin, self.request, self.target, answers, self.said(outcome),
                                                         process_words(facility, p))
        if request in (model.SEND_SIGNAL, model.CLONE):
            line += "; process %d then %s" % (t, process_words(facility, t))
        if outcome.number in (12, 13):
            line += "; refusals of user %d: %d" % (self.owner, facility.refusals[self.owner])
        return line

    def short(self, index, outcome):
        facility, (request, p, t, _) = self.facility, self.call
        line = "%d process %d %s%s%s" % (index, p, self.request, self.short_target, self.said(outcome))
        if outcome.number in (12, 13) or compared(facility, p) != self.compared[0]:
            line += "; then " + short_process(facility, p)
        if outcome.number == 0 and request in (model.CLONE, model.SEND_SIGNAL) and compared(facility, t) != self.compared[1]:
            line += "; process %d then %s" % (t, short_process(facility, t))
        return line


def sentence(index, facility, call):
    return Told(facility, call).full(index, model.enforce(facility, call))


def short_sentence(index, facility, call):
    return Told(facility, call).short(index, model.enforce(facility, call))


def tell(setup, calls, line=sentence):
    number, index, facility = model.read_setup(setup)
    if number != 0:
        place = "" if number == 14 else " at record %d" % index      # of a length that is not allowed no record is at fault
        return ["set-up refused%s: %d %s" % (place, number, NUMBERS[number])]
    lines = [line(i // 4 + 1, facility, tuple(calls[i:i + 4])) for i in range(0, len(calls) - 3, 4)]
    return lines + (["short"] if len(calls) % 4 else [])


def main():
    arguments = [word for word in sys.argv[1:] if word != "--full"]
    name = arguments[0] if arguments else "setup.bin"
    lines = tell(run.read_file(name), sys.stdin.buffer.read(), sentence if "--full" in sys.argv else short_sentence)
    sys.stdout.write("".join(line + "\n" for line in lines))


if __name__ == "__main__":
    main()

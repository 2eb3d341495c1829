"""Draws a run as an SVG: python3 -B model/draw.py SETUP_FILE [FIRST [LAST]] < CALLS > PICTURE.svg

Across are the calls, by their numbers, in panels one below the other, so that the picture is no wider than a page; one lane for each process has the levels
upward. In a lane are the process's current level as a line, the band from its read mark to its write mark, and just above its level the clearance of the user
who owns it, so that neither line hides the other. Two or more levels one above the other that nothing in the panel is at share one row of the axis, which says
which they are. Where the set of the current label becomes another one its letters stand above the line, and those of the read mark below the band.

A call is marked in the lane of the process that made it: a dot where it was accepted, a cross with its number where it was refused. From the cross of a 12 a
line goes to a ring at the label that was asked for, the object's, the receiver's or that of set-level: a mark or the clearance lies between. Under the
lane are the request, the object and its label (or the process, the user, the label asked for). A move, a change of the current label by R, W or B,
is marked on the level's line, and under the lane is how many moves the process then has made. From an accepted signal a dashed line goes to the
receiver, whose read mark it may have raised; from an accepted clone a line goes from the parent to where the clone's line begins. Where the
picture is shown by a browser, each mark tells its call in words, with the reasons of a refusal.

All calls up to LAST are made, and those from FIRST on are drawn, in each panel with the processes that make its calls, receive their signals, or are changed
by them.
Calls of process numbers above 31, which are all refused, are in a lane of their own; it, and that of a process that does not run, has no levels.
"""

import sys
import textwrap
from xml.sax.saxutils import escape

import model
import run
import words

WIDTH = 900                             # of the picture
LEFT, BEGIN, RIGHT = 150, 14, 16        # the level axis; from it to the first call; what is kept free at the right
ABOVE, BELOW, GAP = 26, 18, 16          # of a lane: above its levels, between them and its text, and behind it
ROW = 20                                # the height of a row of levels
SIZE, LINE, LETTER = 9, 11, 0.6         # of text: its size under a lane, the height of a line, and a letter's width by the size
WIDEST = 12                             # letters of a line of text under a lane
HALO = ' stroke="white" stroke-width="3" stroke-linejoin="round" paint-order="stroke"'     # of text that may stand on lines
NONE = model.PROCESSES                  # the lane of the numbers that are no process's
DARK, GREY, BLUE, PALE, RED, ORANGE, GREEN = "#333333", "#777777", "#15467a", "#cfe0f3", "#b3261e", "#e07b00", "#8cc48c"
MOVED, UNDER = "#b35f00", "#4a75a5"     # text of a move, and of a read mark

LEGEND = (("h22", 'stroke="%s" stroke-width="12"' % PALE, "process: from read mark to write mark"),
          ("h22", 'stroke="%s" stroke-width="3"' % BLUE, "process: current level"),
          ("h22", 'stroke="%s" stroke-width="4"' % GREEN, "user who owns it: clearance"),
          ("m11 0h0.1", 'stroke="%s" stroke-width="10" stroke-linecap="round"' % BLUE, "call accepted"))
# Those that a picture has where it has such a thing.
REFUSED = (("m6 -5l10 10m0 -10l-10 10", 'stroke="%s" stroke-width="3"' % RED, "call refused, with its number"),
           ("m6 0a5 5 0 1 0 10 0a5 5 0 1 0 -10 0", 'stroke="%s" stroke-width="2"' % RED, "the label it asked for"))
MOVES = (("m11 -7v14", 'stroke="%s" stroke-width="7"' % ORANGE, "move"),)
SIGNAL = (("m11 -8v16", 'stroke="%s" stroke-dasharray="4 3"' % BLUE, "signal, to its receiver"),)
CLONE = (("m11 -8v16", 'stroke="%s" stroke-width="2"' % GREY, "clone, from its parent"),)
LETTERED = (("ab", BLUE, "above the line: categories of the current label"), ("ab", UNDER, "below the band: categories of the read mark"))
ABOUT = ("Calls of an access decision facility, numbers %d to %d: for each process its current level, the band from its read mark to its write mark and its "
         "owner's clearance. Refused: %s.")


def states(facility):
    """Owner, current label, marks and moves of each process that runs."""
    return {p: (r.owner, r.current, r.read_mark, r.write_mark, r.moves) for p, r in enumerate(facility.processes) if r is not None}


def record(setup, calls):
    """The state before the first call and after each, each call with its number and its texts, and the users."""
    number, index, facility = model.read_setup(setup)
    if number != 0:
        sys.exit("set-up refused at record %d: %d %s" % (index, number, words.NUMBERS[number]))
    seen, made = [states(facility)], []
    for i in range(0, len(calls) - 3, 4):
        call = tuple(calls[i:i + 4])
        lines, asked = under(facility, call), asked_for(facility, call)
        told = words.word(words.REQUESTS, call[0], "no request") + words.target_words(facility, call)
        why = words.why_words(facility, call)
        outcome = model.enforce(facility, call)
        told = "%s: %d %s%s" % (told, outcome.number, words.NUMBERS[outcome.number], why)
        if outcome.object_number != model.NO_OBJECT:
            lines += ["as object %d" % outcome.object_number, level_words(facility, outcome.object_number)]
        asked = asked if outcome.number == 12 else None
        made.append((call, outcome.number, [part for line in lines for part in textwrap.wrap(line, WIDEST, break_long_words=False)], told, asked))
        seen.append(states(facility))
    return seen, made, facility.users


def under(facility, call):
    """What stands under a call: the request, and what it is about."""
    request, p, t, e = call
    first = ["process %d" % p] if p >= model.PROCESSES else []
    first.append(words.word(words.REQUESTS, request, "request %d" % request))
    if request > model.LOGIN or request == model.TERMINATE:
        return first
    if request == model.LOGIN:
        return first + ["user %d" % e]
    if request in (model.CLONE, model.SEND_SIGNAL):
        return first + ["process %d" % t]
    if request == model.SET_LEVEL:
        return first + ["level " + words.label_words(model.Label(e, t))]
    if request == model.CREATE:
        first.append(words.word(words.KINDS, e, "kind %d" % e) + (" in" if model.needs_object(request, e) else ""))
    return first + (["object %d" % t, level_words(facility, t)] if model.needs_object(request, e) else [])


def asked_for(facility, call):
    """The label that MAC compares: the object's, the receiver's, or the one of set-level; None where there is none."""
    request, _, t, e = call
    if request == model.SET_LEVEL:
        return model.Label(e, t)
    if request == model.SEND_SIGNAL:
        return facility.processes[t].current if t < model.PROCESSES and facility.processes[t] is not None else None
    thing = facility.objects[t] if model.needs_object(request, e) and t < len(facility.objects) else None
    return thing.label if thing is not None and thing.live and thing.label.level != model.UNSET else None


def level_words(facility, t):
    thing = facility.objects[t] if t < len(facility.objects) else None
    if thing is None or not thing.live:
        return "not live"
    return "level unset" if thing.label.level == model.UNSET else "level " + words.label_words(thing.label)


def letters(label):
    """Of the label's categories."""
    return words.label_words(label).partition(" ")[2]


class Panel:
    """The calls from `first` on, as many as `made` has behind it."""
    def __init__(self, seen, made, users, first, top):
        self.seen, self.made, self.users, self.first, self.top = seen, made, users, first, top
        begun, callers = self.seen[0], {min(call[1], NONE) for call, *_ in self.made}
        receivers = {call[2] for call, number, *_ in self.made if call[0] == model.SEND_SIGNAL and number == 0}
        changed = {p for state in self.seen for p in {*state, *begun} if state.get(p) != begun.get(p)}
        self.lanes = sorted(callers | receivers | changed)
        self.before = any(p in begun for p in self.lanes)        # whether there is a state to draw before the first call
        shown = [state[p] for state in self.seen for p in self.lanes if p in state]
        self.levels(shown)
        self.texts = self.strips()
        self.step = (WIDTH - LEFT - BEGIN - RIGHT) / max(1, len(self.made) + self.before)
        self.parts = []
        self.place()

    def levels(self, shown):
        """The rows of the level axis: each level that something is at, and each run of others; a run of one is a level."""
        drawn = {label.level for _, *labels, _ in shown for label in labels} | {self.users[state[0]].clearance.level for state in shown} | {0, 15}
        drawn |= {asked.level for *_, asked in self.made if asked is not None and asked.level < 16}
        self.rows, self.row = [], []
        for level in range(16):
            begin = level if level in drawn else max(n for n in drawn if n < level) + 1
            end = level if level in drawn else min(n for n in drawn if n > level) - 1
            if level == begin:
                self.rows.append("%d" % level if begin == end else "%d to %d" % (begin, end))
            self.row.append(len(self.rows) - 1)

    def strips(self):
        """The lines of text under a lane, each with its colour, by lane and place."""
        strips = {}
        for k, (call, number, lines, _, _) in enumerate(self.made):
            p = min(call[1], NONE)
            strips[p, k] = [(line, DARK) for line in lines]
            if self.moved(k, p):
                strips[p, k].append(("move %d" % self.seen[k + 1][p][4], MOVED))
            if number == 0 and call[0] in (model.CLONE, model.SEND_SIGNAL) and call[2] != p:
                strips[call[2], k] = [("clone of" if call[0] == model.CLONE else "signal from", GREY), ("process %d" % p, GREY)]
        return strips

    def moved(self, k, p):
        """Whether call k is a move of p: a change of its label by a call of p that is no set-level, while it runs."""
        before, after = self.seen[k].get(p), self.seen[k + 1].get(p)
        return self.made[k][0][1] == p and self.made[k][0][0] != model.SET_LEVEL and bool(before and after) and before[1] != after[1]

    def owners(self, p):
        return list(dict.fromkeys(state[p][0] for state in self.seen if p in state))

    def runs(self, p):
        """Whether p runs at some place in the picture; else its lane has no levels."""
        return any(p in state for state in self.seen)

    def height(self, p):
        return ROW * (len(self.rows) - 1) if self.runs(p) else 0

    def place(self):
        """Where the lanes are, and where the panel ends."""
        self.calls_at = self.top + 10
        at, self.tops = self.top + 18, {}
        for p in self.lanes:
            self.tops[p] = at
            most = max([len(lines) for (lane, _), lines in self.texts.items() if lane == p] + [0])
            at += max(ABOVE + self.height(p) + BELOW + most * LINE, ABOVE + 20 + 39 * len(self.owners(p))) + GAP
        self.total = at

    def x(self, k):
        return LEFT + BEGIN + (k - (not self.before)) * self.step

    def y(self, p, level):
        return self.tops[p] + ABOVE + max(0, self.height(p) - ROW * self.row[level])

    def add(self, part, *values):
        self.parts.append(part % values)

    def text(self, x, y, text, size=SIZE, fill=DARK, more=""):
        self.add('<text x="%.1f" y="%.1f" font-size="%d" fill="%s"%s>%s</text>', x, y, size, fill, more, escape(text))

    def draw(self):
        self.calls()
        for p in self.lanes:
            self.names(p)
            if self.runs(p):
                self.axis(p)
                self.bands(p)
                self.current(p)
                self.moves(p)
                self.letters(p)
        for k, (call, number, _, told, asked) in enumerate(self.made):
            self.ties(k, call, number)
            self.mark(k, call, number, told, asked)
        for (p, k), lines in self.texts.items():
            for n, (line, fill) in enumerate(lines):
                self.text(self.x(k + 1) + 4, self.tops[p] + ABOVE + self.height(p) + BELOW + LINE * n + 9, line, fill=fill)
        return self.parts

    def calls(self):
        """The axis of calls: its title, the calls' numbers, and for each a line down all lanes."""
        self.text(LEFT - 8, self.calls_at, "calls", 11, DARK, ' text-anchor="end" font-weight="bold"')
        for k in range(len(self.made)):
            self.add('<path d="M%.1f %.1fV%.1f" stroke="#eeeeee"/>', self.x(k + 1), self.calls_at + 4, self.total - GAP)
            self.text(self.x(k + 1), self.calls_at, str(k + self.first), 10, DARK, ' text-anchor="middle"')

    def names(self, p):
        """At the left: the process, and each user who owns it in the picture."""
        y = self.tops[p] + ABOVE
        self.text(12, y, "process %d" % p if p != NONE else "above 31", 12, DARK, ' font-weight="bold"')
        if not self.runs(p):
            self.text(12, y + 16, "no such process number" if p == NONE else "does not run", 10, GREY)
        for n, owner in enumerate(self.owners(p)):
            user = self.users[owner]
            self.text(12, y + 20 + 39 * n, "user %d%s" % (owner, ", trusted" if user.trusted else ""), 11, GREY)
            self.text(12, y + 34 + 39 * n, "clearance " + words.label_words(user.clearance), 11, "#3d7a3d")

    def axis(self, p):
        """The axis of levels: its title, each row, and a zigzag where a row is of several levels."""
        low, high, end = self.y(p, 0), self.y(p, 15), self.x(len(self.made) + 1)
        self.text(LEFT - 8, high - 13, "level", 11, DARK, ' text-anchor="end" font-weight="bold"')
        self.add('<path d="M%d %.1fV%.1f" stroke="%s"/>', LEFT, low, high, GREY)
        for n, row in enumerate(self.rows):
            y, several = low - n * ROW, " " in row
            self.add('<path d="M%d %.1fH%.1f" stroke="#dddddd"%s/>', LEFT, y, end, ' stroke-dasharray="2 4"' if several else "")
            self.text(LEFT - 8, y + 3.5, row, 10, GREY, ' text-anchor="end"')
            if several:
                self.add('<path d="M%d %.1fl-4 3l8 4l-8 4l4 3" fill="none" stroke="%s" stroke-width="2"/>', LEFT, y - 7, GREY)

    def spans(self, p):
        """State of p between calls: (first place, behind the last, state)."""
        begun = None
        for k, state in enumerate(self.seen + [{}]):
            value = state.get(p)
            if begun and value != begun[1]:
                yield begun[0], k, begun[1]
                begun = None
            if begun is None and value is not None:
                begun = (k, value)

    def bands(self, p):
        """From read mark to write mark, and on it the owner's clearance."""
        for first, last, (_, _, read, write, _) in self.spans(p):
            low, high = self.y(p, read.level), self.y(p, write.level)
            self.add('<rect x="%.1f" y="%.1f" width="%.1f" height="%.1f" fill="%s"/>', self.x(first), high - 5, self.x(last) - self.x(first),
                     low - high + 10, PALE)
        for first, last, (owner, _, _, _, _) in self.spans(p):
            self.add('<path d="M%.1f %.1fH%.1f" stroke="%s" stroke-width="4"/>', self.x(first), self.y(p, self.users[owner].clearance.level) - 5,
                     self.x(last), GREEN)

    def current(self, p):
        path, previous = "", None
        for first, last, (_, label, _, _, _) in self.spans(p):
            join = "L" if previous == first else "M"
            path += "%s%.1f %.1fH%.1f" % (join, self.x(first), self.y(p, label.level), self.x(last))
            previous = last
        if path:
            self.add('<path d="%s" fill="none" stroke="%s" stroke-width="3"/>', path, BLUE)

    def letters(self, p):
        """Where another set begins: of the current label above the line, of the read mark below the band."""
        ended, held = None, (0, 0)
        for first, last, (_, current, read, _, _) in self.spans(p):
            held = held if first == ended else (0, 0)
            for label, before, dy, fill in ((current, held[0], -6, BLUE), (read, held[1], 14, UNDER)):
                if label.set != before:
                    self.text(self.x(first) + 6, self.y(p, label.level) + dy, letters(label) or "none", 10, fill, HALO + ' font-weight="bold"')
            ended, held = last, (current.set, read.set)

    def moves(self, p):
        """On the line from the level before to the one after; across it, where the set alone changed."""
        for k in range(len(self.made)):
            if self.moved(k, p):
                low, high = sorted(self.y(p, state[p][1].level) for state in self.seen[k:k + 2])
                aside = 8 if low == high else 0
                self.add('<path d="M%.1f %.1fV%.1f" stroke="%s" stroke-width="7"/>', self.x(k + 1), low - aside, high + aside, ORANGE)

    def ties(self, k, call, number):
        """From an accepted signal to its receiver's read mark, from an accepted clone to the clone's current level."""
        if number == 0 and call[0] in (model.SEND_SIGNAL, model.CLONE):
            signal, after = call[0] == model.SEND_SIGNAL, self.seen[k + 1]
            end = self.y(call[2], after[call[2]][2 if signal else 1].level)
            self.add('<path d="M%.1f %.1fV%.1f" stroke="%s" %s/>', self.x(k + 1), self.y(call[1], after[call[1]][1].level), end,
                     BLUE if signal else GREY, 'stroke-dasharray="4 3"' if signal else 'stroke-width="2"')
            if not signal:
                self.add('<circle cx="%.1f" cy="%.1f" r="4" fill="white" stroke="%s" stroke-width="2"/>', self.x(k + 1), end, GREY)

    def mark(self, k, call, number, told, asked):
        at, p = self.x(k + 1), min(call[1], NONE)
        state = self.seen[k + 1].get(p) or self.seen[k].get(p)
        y = self.y(p, state[1].level if state else 0)
        self.add('<g><title>%d: process %d: %s</title>', k + self.first, call[1], escape(told))
        if number == 0:
            self.add('<circle cx="%.1f" cy="%.1f" r="5" fill="%s"/>', at, y, BLUE)
        else:
            if asked is not None and asked.level < 16 and state:
                there = self.y(p, asked.level)
                self.add('<path d="M%.1f %.1fV%.1f" stroke="%s"/>', at, y, there + (5 if there < y else -5), RED)
                self.add('<circle cx="%.1f" cy="%.1f" r="%d" fill="none" stroke="%s" stroke-width="2"/>', at, there, 10 if there == y else 5, RED)
            self.add('<path d="M%.1f %.1fl12 12m0 -12l-12 12" stroke="%s" stroke-width="3"/>', at - 6, y - 6, RED)
            self.text(at + 8, y - 7, str(number), 11, RED, HALO + ' font-weight="bold"')
        self.add('</g>')


def step_of(seen, made):
    """From a call to the next, so that neither the text under one nor letters reach the next one's."""
    longest = max([len(text) for _, _, lines, _, _ in made for text in lines] + [len("process 32")])
    lettered = max([len(letters(label)) for state in seen for value in state.values() for label in value[1:3]] + [0])
    return max(longest * LETTER * SIZE + 7, lettered * LETTER * 11 + 12)


def legend(items):
    """The legend's lines, and where they end."""
    parts, x, y = [], 12, 20
    for sample, style, text in items:
        wide = 30 + len(text) * LETTER * 11 + 16
        if x + wide > WIDTH:
            x, y = 12, y + 20
        if sample == "ab":
            parts.append('<text x="%d" y="%d" font-size="11" fill="%s" font-weight="bold">ab</text>' % (x + 4, y + 4, style))
        else:
            parts.append('<path d="M%d %d%s" fill="none" %s/>' % (x, y, sample, style))
        parts.append('<text x="%d" y="%d" font-size="11" fill="%s">%s</text>' % (x + 30, y + 4, DARK, text))
        x += wide
    return parts, y


def picture(seen, made, users, first=1):
    """The calls from `first` on, in panels of equal length, none wider than the picture."""
    seen, made = seen[first - 1:], made[first - 1:]
    accepted = {call[0] for call, number, *_ in made if number == 0}
    refused = [k + first for k, (_, number, *_) in enumerate(made) if number != 0]
    moved = any(a[4] < b[4] for before, after in zip(seen, seen[1:]) for p, b in after.items() for a in [before.get(p)] if a)
    lettered = any(label.set for state in seen for value in state.values() for label in value[1:3])
    shown, end = legend(LEGEND + (REFUSED if refused else ()) + (MOVES if moved else ()) + (SIGNAL if model.SEND_SIGNAL in accepted else ())
                        + (CLONE if model.CLONE in accepted else ()) + (LETTERED if lettered else ()))
    fit = max(1, int((WIDTH - LEFT - BEGIN - RIGHT) / step_of(seen, made)) - 1)
    panels = -(-max(len(made), 1) // fit)
    at, top = [len(made) * n // panels for n in range(panels + 1)], end + 20
    for begin, behind in zip(at, at[1:]):
        panel = Panel(seen[begin:behind + 1], made[begin:behind], users, first + begin, top)
        shown += panel.draw()
        top = panel.total + 6
    about = ABOUT % (first, first + len(made) - 1, ", ".join(map(str, refused)) or "none")
    head = ['<svg xmlns="http://www.w3.org/2000/svg" width="%d" height="%d" viewBox="0 0 %d %d" font-family="sans-serif" font-size="12" role="img">'
            % (WIDTH, top, WIDTH, top), "<title>Calls %d to %d</title>" % (first, first + len(made) - 1), "<desc>%s</desc>" % escape(about),
            '<rect width="100%" height="100%" fill="white"/>']
    return "\n".join(head + shown + ["</svg>"]) + "\n"


def main():
    name = sys.argv[1] if len(sys.argv) > 1 else "setup.bin"
    calls = sys.stdin.buffer.read()
    first, last = (int(sys.argv[n]) if len(sys.argv) > n else given for n, given in ((2, 1), (3, len(calls) // 4)))
    if not 1 <= first <= last <= len(calls) // 4 and (first, last) != (1, 0):
        sys.exit("there are no calls %d to %d" % (first, last))
    sys.stdout.write(picture(*record(run.read_file(name), calls[:4 * last]), first))


if __name__ == "__main__":
    main()

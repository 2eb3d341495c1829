"""Holds the number of moves that each process carries against the history of a list of calls, and against its bound."""

import model


class Held:
    """A facility from a set-up on. After each accepted call the caller, and a clone, are held against their history."""

    def __init__(self, facility, setup):
        self.facility = facility
        self.history = model.History(setup)
        self.moves = 0                       # of the list
        self.compared = 0
        self.of_sets = 0                     # of these, those that changed the set
        self.at_bound = False                # whether a process of the list was at its bound
        self.at_bound_with_categories = False    # and one whose owner's clearance has categories

    def enforce(self, call):
        before = model.currents(self.facility)
        outcome = model.enforce(self.facility, call)
        after = model.currents(self.facility)
        self.history.note(call, outcome.number == 0, before, after)
        if outcome.number == 0:
            moved = self.history.accepted[-1][3]
            self.moves += moved
            self.of_sets += moved and before[call[1]].set != after[call[1]].set
            for p in call[1:3] if call[0] == model.CLONE else call[1:2]:
                self.hold(p, call)
        return outcome

    def hold(self, p, call=None):
        process = self.facility.processes[p]
        if process is not None:
            counted, most = self.history.moves(p), model.most_moves(self.facility, process.owner)
            assert process.moves == counted <= most, "process %d after %s: moved %d times, %d by its history, at most %d" % (
                p, call, process.moves, counted, most)
            self.compared += 1
            self.at_bound |= counted == most
            self.at_bound_with_categories |= counted == most and self.facility.users[process.owner].clearance.set != 0

    def hold_all(self):
        for p in range(model.PROCESSES):
            self.hold(p)


def with_categories(facility):
    """Whether a user or an object has any."""
    return any(user.clearance.set for user in facility.users) or any(obj.label.set for obj in facility.objects)


def of_list(setup, calls):
    """The calls of a list if its set-up has categories, its moves, those of them that changed the set, and whether a process was at its bound, also
    one with categories."""
    number, _, facility = model.read_setup(setup)
    if number != 0:
        return 0, 0, 0, False, False
    categorized = len(calls) // 4 if with_categories(facility) else 0
    held = Held(facility, setup)
    for i in range(0, len(calls) - 3, 4):
        held.enforce(tuple(calls[i:i + 4]))
    held.hold_all()
    return categorized, held.moves, held.of_sets, held.at_bound, held.at_bound_with_categories

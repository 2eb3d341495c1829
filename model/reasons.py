"""Which conditions failed of a call that is refused with 12 or 13.

Each is a part of a sentence of document 01's section "What the modules answer", over labels since Ticket 6, or of Ticket 2; what a module
answers is in model.py, and check.py holds the two against each other.
"""

import collections

import model

# in the order of the struct for C; `flag` is the first flag that forbids, or 0
Failed = collections.namedtuple("Failed", "unset fixed clearance writemark readmark receiver nocategory category datatype flag", defaults=[False] * 9 + [0])
NONE = Failed()
OF_MAC = ("fixed", "clearance", "writemark", "readmark", "receiver")     # where MAC does not grant


def failed(facility, call):
    """What failed of the call; nothing where its number is another than 12 and 13."""
    if model.query(facility, call).number not in (12, 13):
        return NONE
    request, p, t, e = call
    found = of_mac(facility, request, p, t, e)
    if not model.needs_object(request, e):       # "FC, object targets only"; SIM and FF judge objects
        return Failed(**found)
    thing, role = facility.objects[t], facility.users[facility.processes[p].owner].role
    return Failed(**found, **of_fc(facility, thing, role), datatype=of_sim(facility, request, thing, role), flag=of_ff(facility, request, t))


def of_mac(facility, request, p, t, e):
    if not facility.mac_on:
        return {}
    label = facility.objects[t].label if model.needs_object(request, e) else None
    # "Object with unset level: undefined, before everything else."
    if label and label.level == model.UNSET:
        return {"unset": True}
    process = facility.processes[p]
    owner = facility.users[process.owner]
    # "read mark <= e <= write mark and e <= clr", of a trusted owner too
    if request == model.SET_LEVEL:
        return between(process, owner.clearance, model.Label(e, t))
    # "Trusted owner: granted in every class and for signals"
    if owner.trusted:
        return {}
    if request == model.SEND_SIGNAL:
        return {"receiver": process.current != facility.processes[t].current}
    return of_class(process, owner.clearance, label and model.CLASSES[facility.objects[t].kind][request], label)


def of_class(process, clearance, letter, label):
    # "granted without a move if current dominates L, and otherwise if automatic is on and the least label above both stays under write
    # mark and clearance"
    if letter == "R" and not process.current.dominates(label):
        above = process.current.least_above(label)
        return {"fixed": not process.automatic, "clearance": not clearance.dominates(above), "writemark": not process.write_mark.dominates(above)}
    # "L = current, or automatic and read mark <= L <= write mark and L <= clr"; "B: as W"
    if letter in ("W", "B") and label != process.current:
        return {"fixed": not process.automatic, **between(process, clearance, label)}
    return {}


def between(process, clearance, label):
    return {"readmark": not label.dominates(process.read_mark), "writemark": not process.write_mark.dominates(label),
            "clearance": not clearance.dominates(label)}


def of_fc(facility, thing, role):
    """"unset category undefined; granted if the category is general or matches the role by number" """
    unset = thing.category == model.UNSET
    return {"nocategory": facility.fc_on and unset,
            "category": facility.fc_on and not unset and thing.category not in (model.GENERAL, role)}


def of_sim(facility, request, thing, role):
    """"for class W or B, or write, on security information: granted to the security officer" """
    writing = model.CLASSES[thing.kind][request] in ("W", "B") or request == model.WRITE
    return facility.sim_on and writing and thing.data_type == model.SECURITY_INFORMATION and role != model.OFFICER


def of_ff(facility, request, t):
    return next(iter(model.forbidding_flags(facility, request, t)), 0) if facility.ff_on else 0

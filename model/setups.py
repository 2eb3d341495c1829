"""Set-ups that are damaged in each byte, of every length around the limits, and with records in every place."""

from records import object_record, switches_record, user_record

# The last object lies in the directory before it.
BASE = [switches_record(1, 1, 1, 1), user_record(15, 2, 1, 255), user_record(0, 0, 0),
        object_record(1, 15, 2, 1, 143, 0, 129), object_record(3, 255, 255, 0, 128, 1)]
VALUES = (0, 1, 2, 3, 4, 8, 15, 16, 32, 64, 128, 129, 130, 143, 144, 254, 255)


def damaged():
    """Each byte of one record of each kind, at every value around its ranges; every other byte must be 0."""
    for place in (0, 1, 3, 4):
        for byte in range(8):
            for value in VALUES:
                record = bytearray(BASE[place])
                record[byte] = value
                yield b"".join(BASE[:place]) + bytes(record) + b"".join(BASE[place + 1:])


def lengths():
    whole = b"".join(BASE)
    yield b""
    for extra in range(1, 8):
        yield whole + bytes(extra)
    full = BASE[0] + 16 * BASE[1] + 128 * BASE[3]
    yield full
    yield full + BASE[3]
    yield BASE[0] + 17 * BASE[1]
    yield BASE[0] + 16 * BASE[1] + BASE[3]
    yield BASE[0] + 129 * BASE[3]
    yield BASE[0] + 144 * BASE[3]


def places():
    yield BASE[0]
    yield BASE[1]
    yield BASE[3]
    yield BASE[0] + BASE[0]
    yield BASE[0] + BASE[1] + BASE[3] + BASE[1]
    yield BASE[0] + BASE[3] + BASE[0]
    for kind in (0, 4, 255):
        yield BASE[0] + bytes([kind]) + bytes(7)
        yield bytes([kind]) + bytes(7)
    yield BASE[0] + user_record(16, 0, 0) + BASE[0]
    yield BASE[0] + BASE[1] + BASE[3] + user_record(16, 0, 0)


def chain(depth, flags, kind):
    """Directories, each in the one before, all with 128 but the first, which has the flags; below them an object of that kind."""
    inside = [object_record(1, 0, 0, 0, 128, n) for n in range(1, depth)]
    return switches_record(1, 0, 0, 1) + user_record(0, 0, 1) + b"".join(
        [object_record(1, 0, 0, 0, flags, 0)] + inside + [object_record(kind, 0, 0, 0, 128, depth)])


def parents():
    """Chains of every length around the limits; parents that are no directory, not earlier, or not entered; 17 before 19."""
    for depth in (1, 2, 3, 126, 127):
        for kind in range(4):
            yield chain(depth, 15, kind)
    yield chain(128, 15, 0)
    head = switches_record(0, 0, 0, 0) + b"".join(object_record(kind, 0, 0, 0) for kind in range(4))
    for kind in range(4):
        for parent in range(8):
            yield head + object_record(kind, 0, 0, 0, 0, parent) + object_record(1, 0, 0, 0)
    yield head + object_record(0, 0, 0, 0, 16, 1)
    yield head + object_record(0, 0, 0, 0, 0, 1) + object_record(0, 0, 0, 0, 16, 0)
    yield head + object_record(0, 0, 0, 0, 0, 255)[:7] + b"\1"


def sets():
    """Any set of a clearance and of an object's label, but none where the level is unset; 17 for that before 19."""
    head = switches_record(1, 0, 0)
    for held in (0, 1, 2, 4, 8, 16, 32, 64, 128, 170, 254, 255):
        for level in (0, 15, 255):
            yield head + user_record(min(level, 15), 0, 0, held) + object_record(0, level, 0, 0, 0, 0, held)
        yield head + object_record(1, 0, 0, 0) + object_record(0, 255, 0, 0, 0, 3, held)
        yield head + object_record(1, 0, 0, 0) + object_record(0, 0, 0, 0, 0, 3, held)


def all_setups():
    return [*damaged(), *lengths(), *places(), *parents(), *sets()]

"""Set-ups full of parents: chains of directories as deep as 127, and trees, with flags that are inherited through them."""

from model import ADD_INHERITED, DIRECTORY, FILE, MAX_OBJECTS, NO_DELETE, NO_EXECUTE, READ_ONLY, SEARCH_ONLY, UNSET
from records import object_record, switches_record, user_record

DEPTHS = (3, 6, 12, 24, 48, 96, 126, 127)


def users(rng):
    """A trusted one, for whom MAC is in no way, and one to three others; few with a category."""
    return user_record(2, 1, 1) + b"".join(user_record(rng.randint(0, 2), rng.randint(0, 2), 0, rng.choice((0, 0, 1))) for _ in range(rng.randint(1, 3)))


def chain_setup(rng, switches, depth=None):
    """One chain, all of it with add-inherited, flags on the first directory or a few below it, and a file or two at its end."""
    depth = depth or rng.choice((100, 126, 127, 127))
    setup = switches_record(*switches) + users(rng) + object_record(DIRECTORY, 0, 0, 0, rng.choice((NO_EXECUTE, NO_EXECUTE, READ_ONLY, 15)), 0)
    for number in range(1, depth):
        flags = rng.choice((NO_EXECUTE, NO_DELETE)) if rng.random() < 0.02 else 0
        setup += object_record(DIRECTORY, 0, 0, 0, flags + ADD_INHERITED, number)
    for _ in range(rng.randint(1, MAX_OBJECTS - depth) if depth > 125 else 1):
        setup += object_record(FILE, 0, 0, 0, ADD_INHERITED, depth)
    return setup


def tree_setup(rng, switches):
    """Directories first, each in one of those before it; then objects of all kinds in any of them."""
    depth = rng.choice(DEPTHS)
    behind = rng.choice((1, 1, 3, depth))              # how far back a directory's parent may be; 1 is one chain
    broken = rng.choice((0.0, 0.02, 0.2))              # the share without add-inherited
    labels = rng.choice((((0, 0),), ((0, 0), (0, 0), (0, 0), (1, 0)), ((0, 0), (1, 0), (2, 0), (UNSET, 0)), ((0, 0), (0, 0), (0, 1), (1, 1))))
    # read-only and search-only directories take no more objects and cannot be deleted, so they are few
    chances = {READ_ONLY: rng.choice((0, 1)) / depth, NO_EXECUTE: rng.choice((1, 3)) / depth, NO_DELETE: 0.08,
               SEARCH_ONLY: rng.choice((0, 1)) / depth}
    objects = rng.choice((depth + 1, min(depth + 8, 120), 128))
    setup = switches_record(*switches) + users(rng)
    for number in range(max(objects, depth + 1)):
        kind = DIRECTORY if number < depth else rng.choice((0, 0, 0, 1, 2, 3))
        flags = sum(flag for flag, chance in chances.items() if rng.random() < (chance if kind == DIRECTORY else 0.1))
        flags += ADD_INHERITED if rng.random() >= broken else 0
        if number <= depth:
            parent = rng.randint(max(0, number - behind), number - 1) + 1 if number else 0
        else:
            parent = rng.choice((depth, rng.randint(0, depth)))
        level, held = rng.choice(labels)
        setup += object_record(kind, level, rng.choice((0, 0, 0, 0, 1)), int(rng.random() < 0.05), flags, parent, held)
    assert len(setup) <= 8 * (17 + MAX_OBJECTS)
    return setup

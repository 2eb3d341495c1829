"""Set-up records, eight bytes each."""


def switches_record(mac, fc, sim, ff=0):
    return bytes([3, mac, fc, sim, ff, 0, 0, 0])


def user_record(clearance, role, trusted, categories=0):
    """`clearance` is its level, `categories` its set."""
    return bytes([1, clearance, role, trusted, categories, 0, 0, 0])


def object_record(kind, level, category, data_type, flags=0, parent=0, categories=0):
    """`category` is FC's, `categories` the label's set; `parent` is the directory's number plus 1, or 0."""
    return bytes([2, kind, level, category, data_type, flags, parent, categories])

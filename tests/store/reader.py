"""Reads a store and tests its rules, written from docs/LAYOUT.md and not from the definitions, the
proofs or the code of the test of refusal 1.

`broken(store)` is the list of the rules of that page that the store breaks; `tree(store)` is what a store that breaks none holds.
"""
from collections import Counter, namedtuple

WORDS = 102
EXTENT = 101
NUMBERS = 32
CELL = 1024
PATHS = (NUMBERS + 1) * CELL
FREE, DIRECTORY, FILE, LINK = 0, 1, 2, 3
LONGEST_NAME = 255
LONGEST_TEXT = 1024

Slot = namedtuple('Slot', 'kind mode times data')
Entry = namedtuple('Entry', 'path kind mode times data slot')
Open = namedtuple('Open', 'number slot position path file')
Tree = namedtuple('Tree', 'entries numbers directory umask')


class Store:
    """The six slices: lists of numbers of 64 bits (those of times signed, the others not), and two bytearrays."""

    def __init__(self, words, records, heads, times, paths, bytes):
        self.words = words
        self.records = records
        self.heads = heads
        self.times = times
        self.paths = paths
        self.bytes = bytes


# Fields of a record and of a slot's word.

def depth_of(record):
    return record & 0xffff


def name_length(record):
    return record >> 16 & 0xff


def slot_of(record):
    return record >> 24


def data_length(head):
    return head & 0xffffff


def kind_of(head):
    return head >> 24 & 0xff


def mode_of(head):
    return head >> 32


# What can be read once rules 1 and 2 hold.

class View:
    """The parts of the slices that the limits, the count and the number of slots leave."""

    def __init__(self, store):
        room, count = store.words[1:3]
        self.store = store
        self.room = room
        self.records = store.records[:count]
        self.heads = store.heads[:store.words[EXTENT]]
        self.holders = [store.words[5 + 3 * n] for n in range(NUMBERS)]

    def kind(self, slot):
        """The kind of a slot; None where the number is none of a slot."""
        return kind_of(self.heads[slot]) if slot < len(self.heads) else None

    def total(self):
        return sum(map(name_length, self.records)) + sum(map(data_length, self.heads))

    def names(self):
        """The name of each record. Means something only under rule 3."""
        out, at = [], 0
        for record in self.records:
            out.append(bytes(self.store.bytes[at:at + name_length(record)]))
            at += name_length(record)
        return out

    def data(self):
        """The bytes of each slot. Means something only under rule 3."""
        out, at = [], self.room
        for head in reversed(self.heads):
            out.append(bytes(self.store.bytes[at - data_length(head):at]))
            at -= data_length(head)
        return out[::-1]

    def kept(self, cell, length):
        """The first `length` bytes of a cell. Means something only for a length of at most 1,024."""
        return bytes(self.store.paths[CELL * cell:CELL * cell + length])

    def kept_paths(self):
        """Cell and length of the current directory and of the path of each open number."""
        yield 0, self.store.words[4]
        for n, holder in enumerate(self.holders):
            if holder:
                yield n + 1, self.store.words[7 + 3 * n]


# Texts.

def is_text(s):
    """Valid text: RFC 3629, no zero byte."""
    try:
        s.decode('utf-8', 'strict')
    except UnicodeDecodeError:
        return False
    return 0 not in s


def is_name(s):
    return 1 <= len(s) <= LONGEST_NAME and is_text(s) and b'/' not in s and s not in (b'.', b'..')


def is_target(s):
    return len(s) <= LONGEST_TEXT and is_text(s) and all(len(name) <= LONGEST_NAME for name in s.split(b'/'))


def is_kept_path(s):
    """A slash before each name, nothing for the root. The slashes part the names, so only what is before the first is to be empty."""
    if not s:
        return True
    before, *names = s.split(b'/')
    return before == b'' and all(map(is_name, names))


# The rules, each as a test of whether it is broken.

def breaks_lengths(store):
    """Rule 1. The limits are taken as they stand, so that a store with a bad limit and slices for it breaks rule 2 alone."""
    if len(store.words) < WORDS:
        return True
    limit, room = store.words[:2]
    slots = limit + NUMBERS
    return (len(store.records) < limit or len(store.heads) < slots or len(store.times) < 4 * slots
            or len(store.paths) < PATHS or len(store.bytes) < room)


def breaks_limits(store):
    """Rule 2."""
    if len(store.words) < WORDS:
        return False
    limit, room, count, umask = store.words[:4]
    return not (1 <= limit <= 4096 and 256 <= room <= 1048576 and count <= limit and umask < 2 ** 32
                and store.words[EXTENT] <= limit + NUMBERS)


def breaks_total(view):
    """Rule 3."""
    return view.total() > view.room


def breaks_root(view):
    """Rule 4."""
    if not view.records:
        return False
    root = view.records[0]
    return depth_of(root) != 0 or name_length(root) != 0 or view.kind(slot_of(root)) != DIRECTORY


def breaks_order(view):
    """Rule 5. `path` is the path of the record before: its length is that record's depth."""
    path = []
    names = view.names()
    for i in range(1, len(view.records)):
        depth = depth_of(view.records[i])
        if depth < 1 or depth > len(path) + 1:
            return True
        if depth == len(path) + 1:
            if view.kind(slot_of(view.records[i - 1])) != DIRECTORY:
                return True
        elif names[i] <= path[depth - 1]:
            return True
        path[depth - 1:] = [names[i]]
    return False


def breaks_names(view):
    """Rule 6."""
    return not all(map(is_name, view.names()[1:]))


def slot_breaks(head, records, numbers):
    """Rule 7 of one slot, which so many records have and so many numbers stand on."""
    kind = kind_of(head)
    if kind == FREE:
        return head != 0 or records > 0 or numbers > 0
    if kind == DIRECTORY:
        return records != 1 or numbers > 0 or data_length(head) != 0
    if kind == LINK:
        return records != 1 or numbers > 0
    if kind == FILE:
        return not (records == 1 or records == 0 and numbers > 0)
    return True


def breaks_slots(view):
    """Rule 7."""
    named = Counter(map(slot_of, view.records))
    held = Counter(holder - 1 for holder in view.holders if holder)
    if any(slot >= len(view.heads) for slot in [*named, *held]):
        return True
    return any(slot_breaks(head, named[k], held[k]) for k, head in enumerate(view.heads) if head or k in named or k in held)


def breaks_targets(view):
    """Rule 8."""
    return any(kind_of(head) == LINK and not is_target(data) for head, data in zip(view.heads, view.data()))


def breaks_paths(view):
    """Rule 9."""
    return any(length > LONGEST_TEXT or not is_kept_path(view.kept(cell, length)) for cell, length in view.kept_paths())


LATER = {3: breaks_total, 4: breaks_root, 5: breaks_order, 6: breaks_names, 7: breaks_slots, 8: breaks_targets, 9: breaks_paths}


def broken(store):
    """The rules that the store breaks, rising; [] where it is to be accepted.

    What cannot be read any more is left out: behind rules 1 and 2 everything, behind rule 3 the rules that read names and targets,
    behind rule 4 the order, as the path of record 0 is then none.
    """
    early = [rule for rule, test in ((1, breaks_lengths), (2, breaks_limits)) if test(store)]
    if early:
        return early
    view = View(store)
    unread = set()
    out = []
    for rule, test in LATER.items():
        if rule not in unread and test(view):
            out.append(rule)
            unread |= {3: {5, 6, 8}, 4: {5}}.get(rule, set())
    return out


# What the store holds.

def slots(view):
    times = view.store.times
    return [Slot(kind_of(head), mode_of(head), tuple(times[4 * k:4 * k + 4]), data)
            for k, (head, data) in enumerate(zip(view.heads, view.data()))]


def entry_paths(view):
    """The path of each record, a slash before each name: nothing for the root."""
    path = []
    for record, name in zip(view.records, view.names()):
        depth = depth_of(record)
        path = path[:depth - 1] + [name] if depth else []
        yield b''.join(b'/' + each for each in path)


def open_numbers(view, held):
    words = view.store.words
    for n, holder in enumerate(view.holders):
        if holder:
            yield Open(n, holder - 1, words[6 + 3 * n], view.kept(n + 1, words[7 + 3 * n]), held[holder - 1])


def tree(store):
    """The entries in the order of the records, the open numbers, the current directory and the umask. Only where no rule is broken."""
    view = View(store)
    held = slots(view)
    entries = [Entry(path, *held[slot_of(record)], slot_of(record)) for path, record in zip(entry_paths(view), view.records)]
    return Tree(entries, list(open_numbers(view, held)), view.kept(0, store.words[4]), store.words[3])

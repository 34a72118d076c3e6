"""A store that is being made up: its entries, slots, numbers and paths, and the line for crates/test_damaged that makes them.

A draft need not obey any rule. `written(draft)` gives every word that it asks for; `line(...)` gives the changes from the store that the
line begins with.
"""
from damaged_expected import BASES, GIVEN, LETTERS, LIMIT, ROOM, SLICES, UMASK, Store
from reader import CELL, EXTENT, NUMBERS, tree

WORD = 2 ** 64 - 1


class Draft:
    """Entries are [depth, name, slot], slots [kind, mode, bytes], numbers [slot, position, path]."""

    def __init__(self, holds, limit, room):
        self.holds = holds
        self.limit = limit
        self.room = room
        self.umask = UMASK
        self.spare = 0
        self.behind = 0
        self.entries = []
        self.slots = {}
        self.numbers = {}
        self.directory = b''

    def total(self):
        return sum(len(entry[1]) for entry in self.entries) + sum(len(slot[2]) for slot in self.slots.values())

    def slots_of(self, kind):
        return [k for k, slot in sorted(self.slots.items()) if slot[0] == kind]

    def free_slots(self):
        return [k for k in range(min(self.limit, 4096) + NUMBERS) if k not in self.slots]

    def extent(self):
        """The number of slots: up to the last in use that the limit allows, and as many more or fewer as `behind` says."""
        edge = self.limit + NUMBERS
        return max(0, max((k + 1 for k in self.slots if k < edge), default=0) + self.behind)

    def paths(self):
        """The names of the path of each entry, as far as the depths leave any."""
        path = []
        for depth, name, _ in self.entries:
            path = path[:max(depth - 1, 0)] + [name] if depth else []
            yield tuple(path)

    def sort(self):
        """The order of a walk, with no change of a path where the depths are those of a tree."""
        self.entries = [entry for _, entry in sorted(zip(self.paths(), self.entries), key=lambda pair: pair[0])]


def draft_of(holds):
    """The store that a line begins with."""
    base = BASES[holds]
    found = tree(Store(*(getattr(base, name)[:n] for name, n in zip(SLICES, GIVEN))))
    draft = Draft(holds, LIMIT, ROOM)
    for entry in found.entries:
        draft.entries.append([entry.path.count(b'/'), entry.path.rpartition(b'/')[2], entry.slot])
        draft.slots[entry.slot] = [entry.kind, entry.mode, entry.data]
    for number in found.numbers:
        draft.numbers[number.number] = [number.slot, number.position, number.path]
        draft.slots[number.slot] = [number.file.kind, number.file.mode, number.file.data]
    draft.directory = found.directory
    return draft


def written_words(draft):
    yield from enumerate([draft.limit, draft.room, len(draft.entries), draft.umask, len(draft.directory)])
    for n in range(NUMBERS):
        if n in draft.numbers:
            slot, position, path = draft.numbers[n]
            yield from zip(range(5 + 3 * n, 8 + 3 * n), [slot + 1 & WORD, position, len(path)])
        else:
            yield 5 + 3 * n, 0
    yield EXTENT, draft.extent()


def written_bytes(draft):
    """Names and bytes. Where they are longer than the byte limit the names are lost under the others."""
    yield from enumerate(b''.join(entry[1] for entry in draft.entries))
    data = b''.join(draft.slots[k][2] for k in sorted(draft.slots))
    for i, byte in enumerate(data, draft.room - len(data)):
        if i >= 0:
            yield i, byte


def written(draft):
    """Every word that the draft asks for, as {(place, index): value}."""
    out = {('words', i): value for i, value in written_words(draft)}
    for i, (depth, name, slot) in enumerate(draft.entries):
        out['records', i] = (depth & 0xffff | (len(name) & 0xff) << 16 | slot << 24) & WORD
    out.update((('heads', k), 0) for k, head in enumerate(BASES[draft.holds].heads[:LIMIT + NUMBERS]) if head)
    for k, (kind, mode, data) in draft.slots.items():
        out['heads', k] = len(data) & 0xffffff | kind << 24 | mode << 32
    out.update((('bytes', i), byte) for i, byte in written_bytes(draft))
    kept = [(0, draft.directory)] + [(n + 1, number[2]) for n, number in draft.numbers.items()]
    for cell, path in kept:
        out.update((('paths', i), byte) for i, byte in enumerate(path, CELL * cell))
    slots = draft.limit + NUMBERS
    asked = (GIVEN[0], draft.limit, slots, 4 * slots, GIVEN[4], draft.room)
    out.update((('length', i), n + draft.spare) for i, n in enumerate(asked))
    return out


def value_before(holds, key):
    """What stands there in the store that the line begins with; None behind the end."""
    place, i = key
    held = GIVEN if place == 'length' else getattr(BASES[holds], place)
    return held[i] if i < len(held) else None


def is_letter(change):
    (place, _), value = change
    return place in ('paths', 'bytes') and value == ord('a')


def pieces(changes):
    """Changes in their order, as fields of a line; letters `a` that stand in a row as one change."""
    at = 0
    while at < len(changes):
        (place, i), value = changes[at]
        end = at + 1
        if is_letter(changes[at]):
            while end < len(changes) and end - at < LETTERS and changes[end] == ((place, i + end - at), value):
                end += 1
        if end - at > 2:
            yield f'letters-in-{place} {i} {end - at}'
        else:
            # A number of more than 2^60 tens is read wrongly in decimal, so a long one is hexadecimal.
            yield from (f'{p} {j} {v if v < 2 ** 32 else hex(v)}' for (p, j), v in changes[at:end])
        at = end


def line(holds, words, rule, what):
    """The line that makes these words of the store that it begins with."""
    changes = sorted(change for change in words.items() if value_before(holds, change[0]) not in (None, change[1]))
    return ' '.join([str(rule), holds, *pieces(changes)]) + f': {what}'

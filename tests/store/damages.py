"""Random stores, most of them damaged a little, for random_damage.py.

A damage of DRAFTED changes a draft, so the other words follow it (a longer name moves all names behind it); a damage of POKED changes
single words. Each answers False where there is nothing that it could change.
"""
from draft import WORD, Draft, draft_of, value_before, written
from reader import CELL, DIRECTORY, FILE, LINK, NUMBERS

EDGES = [0, 1, 2, 3, 255, 256, 257, 1023, 1024, 1025, 4095, 4096, 4097, 2 ** 24 - 1, 2 ** 24, 2 ** 24 + 1, 2 ** 32 - 1, 2 ** 32,
         2 ** 32 + 1, 2 ** 63 - 1, 2 ** 63, WORD - 1, WORD]
# The first and the last text of each length of RFC 3629, both sides of the gap for surrogates, and names that are nearly `.` or `..`.
GOOD_NAMES = [b'a', b'b', b'aa', b'ab', b'z', b'.a', b'..a', b'a.', b'a..', b'...', b' ', b'\x01', b'\x7f', b'y2', b'y26', b'y26a', b'deeq'
              ] + [chr(c).encode() for c in (0x80, 0x7ff, 0x800, 0xd7ff, 0xe000, 0xffff, 0x10000, 0x3ffff, 0x40000, 0x10ffff)] + [
              b'a\xc3\xa9', b'\xc3\xa9a', b'\xef\xbf\xbe', b'a' * 254, b'a' * 255]
BAD_NAMES = [b'', b'.', b'..', b'/', b'a/', b'/a', b'a/b', b'\0', b'a\0', b'\0a', b'\x80', b'\xbf', b'\xc0\x80', b'\xc0\xaf', b'\xc1\xbf',
             b'\xc2', b'\xc3a', b'\xe0\x80\x80', b'\xe0\x9f\xbf', b'\xe2\x82', b'\xed\xa0\x80', b'\xed\xbf\xbf', b'\xef\xbf',
             b'\xf0\x80\x80\x80', b'\xf0\x8f\xbf\xbf', b'\xf0\x9f\x98', b'\xf4\x90\x80\x80', b'\xf5\x80\x80\x80', b'\xf7\xbf\xbf\xbf',
             b'\xf8\x88\x80\x80\x80', b'\xfe', b'\xff', b'a\x80', b'\xc3\xa9\xa9']
EDGE_BYTES = [0, 1, 0x2e, 0x2f, 0x30, 0x61, 0x7f, 0x80, 0x8f, 0x90, 0x9f, 0xa0, 0xbf, 0xc0, 0xc1, 0xc2, 0xdf, 0xe0, 0xed, 0xef, 0xf0, 0xf4,
              0xf5, 0xff]
GOOD_TARGETS = [b'', b'/', b'//', b'.', b'..', b'../..', b'./a', b'/a/', b'a//b', b'y26', b'a' * 255, b'a' * 255 + b'/', b'/' + b'a' * 255,
                (b'/' + b'a' * 255) * 4, b'/' * 1024, (b'a' * 255 + b'/') * 4]
BAD_TARGETS = [b'a' * 256, b'/' + b'a' * 256, b'a/' + b'a' * 256, b'a' * 256 + b'/', b'/' + (b'/' + b'a' * 255) * 4, b'/' * 1025, b'a\0b',
               b'\0', b'\xff', b'a/\xc3', b'\xe0\x80\x80/a']
GOOD_PATHS = [b'', b'/a', b'/a/b', b'/...', b'/.a', b'/..a/b', b'/a/b/c/d', b'/' + b'a' * 255, (b'/' + b'a' * 255) * 4, b'/a' * 512,
              (b'/' + b'a' * 203) * 5, (b'/' + b'a' * 204) * 4 + b'/' + b'a' * 203]
BAD_PATHS = [b'/', b'a', b'//', b'a/b', b'/a/', b'//a', b'/a//b', b'/.', b'/..', b'/a/.', b'/a/..', b'/./a', b'/../a', b'/a\0', b'/\0',
             b'/' + b'a' * 256, b'/a/' + b'a' * 256, b'/' + b'a' * 256 + b'/a', (b'/' + b'a' * 204) * 5, b'/a' * 512 + b'a', b'/a/\xff']
KINDS = (DIRECTORY, FILE, LINK)


# Texts.

def sequence(rng):
    """Bytes that are nearly a character."""
    lead = rng.choice(EDGE_BYTES + list(range(0xc0, 0x100)))
    return bytes([lead, *rng.choices([0x7f, 0x80, 0x8f, 0x90, 0x9f, 0xa0, 0xbf, 0xc0], k=rng.randrange(4))])


def any_name(rng):
    pick = rng.random()
    if pick < 0.6:
        return rng.choice(GOOD_NAMES)
    return rng.choice(BAD_NAMES) if pick < 0.85 else sequence(rng)


def any_target(rng):
    pick = rng.random()
    if pick < 0.6:
        return rng.choice(GOOD_TARGETS)
    return rng.choice(BAD_TARGETS) if pick < 0.85 else rng.choice([b'', b'a', b'/']) + sequence(rng)


def any_path(rng):
    pick = rng.random()
    if pick < 0.45:
        return rng.choice(GOOD_PATHS)
    if pick < 0.7:
        return rng.choice(BAD_PATHS)
    return b''.join(b'/' + any_name(rng) for _ in range(rng.randrange(1, 3)))[:CELL + 1]


# Whole stores.

def small_name(rng):
    return rng.choice(GOOD_NAMES[:-2])


def grown_slot(draft, rng, kind):
    slot = rng.choice(draft.free_slots())
    data = {DIRECTORY: b'', FILE: bytes(rng.choices(range(256), k=rng.randrange(6))), LINK: rng.choice(GOOD_TARGETS[:10])}[kind]
    draft.slots[slot] = [kind, rng.choice([0, 0o755, 2 ** 32 - 1]), data]
    return slot


def grown(rng):
    """A store that breaks no rule: a tree of its own, in slots as they come."""
    draft = Draft('root', rng.choice([16, 16, 16, 12, 20]), 256)
    paths = {(): grown_slot(draft, rng, DIRECTORY)}
    for _ in range(rng.randrange(draft.limit)):
        above = rng.choice([path for path, slot in paths.items() if draft.slots[slot][0] == DIRECTORY])
        path = above + (small_name(rng),)
        if path not in paths and len(path) < 6:
            paths[path] = grown_slot(draft, rng, rng.choice(KINDS))
    draft.entries = [[len(path), path[-1] if path else b'', slot] for path, slot in sorted(paths.items())]
    for _ in range(rng.randrange(4)):
        files = draft.slots_of(FILE)
        slot = rng.choice(files) if files and rng.random() < 0.5 else grown_slot(draft, rng, FILE)
        draft.numbers.setdefault(rng.randrange(NUMBERS), [slot, rng.choice(EDGES), rng.choice(GOOD_PATHS[:7])])
    held = {number[0] for number in draft.numbers.values()} | set(paths.values())
    draft.slots = {k: slot for k, slot in draft.slots.items() if k in held}
    draft.directory = rng.choice(GOOD_PATHS[:7])
    draft.room = max(256, draft.total() + rng.choice([0, 1, 40]))
    return draft


def started(rng):
    pick = rng.random()
    if pick < 0.2:
        return grown(rng)
    return draft_of('k' if pick < 0.8 else 'root' if pick < 0.94 else 'empty')


# Damages of a draft: names and the order.

def entry(draft, rng):
    """An entry that is not the root, or None."""
    return rng.choice(draft.entries[1:]) if len(draft.entries) > 1 else None


def make_room(draft, rng):
    """Most times a text that is too long is given the byte limit that it asks for, at times a byte less."""
    if draft.total() > draft.room and rng.random() < 0.9:
        draft.room = max(256, draft.total() + rng.choice([0, 0, 0, 1, -1]))


def rename(draft, rng):
    found = entry(draft, rng)
    if not found:
        return False
    found[1] = any_name(rng)
    if rng.random() < 0.7:
        draft.sort()
    make_room(draft, rng)
    return True


def rename_as_other(draft, rng):
    """The name of another entry, a part of it, or one that is a byte longer."""
    found, other = entry(draft, rng), entry(draft, rng)
    if not found or found is other:
        return False
    name = other[1]
    changed = [name, name[:-1], name + b'a', name + b'\0', name[:-1] + bytes([(name or b'a')[-1] + 1 & 0xff])]
    found[1] = rng.choice(changed)[:255]
    if rng.random() < 0.3:
        draft.sort()
    make_room(draft, rng)
    return True


def exchange_entries(draft, rng):
    if len(draft.entries) < 2:
        return False
    i = rng.randrange(len(draft.entries) - 1)
    draft.entries[i:i + 2] = draft.entries[i:i + 2][::-1]
    return True


def other_depth(draft, rng):
    if not draft.entries:
        return False
    found = rng.choice(draft.entries)
    found[0] = rng.choice([found[0] + 1, max(found[0] - 1, 0), 0, 1, 2, 3, 4, 255, 256, 65535])
    return True


def exchange(draft, rng, field):
    """Two entries with each other's name (1) or slot (2)."""
    a, b = entry(draft, rng), entry(draft, rng)
    if not a or a is b:
        return False
    a[field], b[field] = b[field], a[field]
    return True


def exchange_names(draft, rng):
    return exchange(draft, rng, 1)


def add_entry(draft, rng):
    """A new entry below some directory, at its place or at any."""
    if not draft.free_slots():
        return False
    parents = [e for e in draft.entries if e[2] in draft.slots and draft.slots[e[2]][0] == DIRECTORY]
    depth, i = rng.choice([0, 1]), len(draft.entries)
    if parents:
        parent = rng.choice(parents)
        depth, i = parent[0] + 1, draft.entries.index(parent) + 1
    draft.entries.insert(i, [depth, any_name(rng), grown_slot(draft, rng, rng.choice(KINDS))])
    if rng.random() < 0.8:
        draft.sort()
    make_room(draft, rng)
    return True


def remove_entry(draft, rng):
    """An entry, most times with all below it and with their slots."""
    if not draft.entries:
        return False
    i = rng.randrange(len(draft.entries))
    end = i + 1
    while rng.random() < 0.9 and end < len(draft.entries) and draft.entries[end][0] > draft.entries[i][0]:
        end += 1
    gone = [e[2] for e in draft.entries[i:end]]
    del draft.entries[i:end]
    held = {number[0] for number in draft.numbers.values()}
    for slot in gone:
        if slot not in held and rng.random() < 0.9:
            draft.slots.pop(slot, None)
    return True


# Damages of a draft: slots and what they hold.

def exchange_slots(draft, rng):
    return exchange(draft, rng, 2)


def slot_twice(draft, rng):
    """An entry with the slot of another, half of the times of a file."""
    files = [each for each in draft.entries if each[2] in draft.slots_of(FILE)]
    a, b = entry(draft, rng), rng.choice(files) if files and rng.random() < 0.5 else entry(draft, rng)
    if not a or a is b:
        return False
    if rng.random() < 0.5:
        draft.slots.pop(a[2], None)
    a[2] = b[2]
    return True


def move_slot(draft, rng):
    """A slot with all that has it, to a free one: at times to the last, or to one that is none."""
    free = draft.free_slots()
    if not draft.slots or not free:
        return False
    old = rng.choice(sorted(draft.slots))
    edge = min(draft.limit, 4096) + NUMBERS
    new = rng.choice(free) if rng.random() < 0.6 else rng.choice([edge - 2, edge - 1, edge, edge + 1])
    if new in draft.slots:
        return False
    draft.slots[new] = draft.slots.pop(old)
    for each in draft.entries:
        each[2] = new if each[2] == old else each[2]
    for number in draft.numbers.values():
        number[0] = new if number[0] == old else number[0]
    return True


def far_slot(draft, rng):
    """A slot whose number differs only in high bits."""
    found = entry(draft, rng)
    if not found:
        return False
    found[2] |= 1 << rng.choice([8, 15, 16, 24, 31, 32, 38, 39])
    return True


def other_kind(draft, rng):
    if not draft.slots:
        return False
    slot = draft.slots[rng.choice(sorted(draft.slots))]
    slot[0] = rng.choice([0, 1, 2, 3, 1, 2, 3, 4, 5, 7, 128, 255, slot[0] + 128 & 255])
    if rng.random() < 0.5:
        slot[2] = b''
    return True


def stray_slot(draft, rng):
    """A slot that nothing has: behind the last slot it means nothing."""
    edge = min(draft.limit, 4000) + NUMBERS
    k = rng.choice([edge - 1, edge, edge + 1, rng.randrange(edge)])
    if k in draft.slots:
        return False
    draft.slots[k] = [rng.choice([0, *KINDS]), rng.choice([0, 1, 2 ** 31, 2 ** 32 - 1]), b'']
    return True


def retarget(draft, rng):
    links = draft.slots_of(LINK)
    if not links:
        return False
    draft.slots[rng.choice(links)][2] = any_target(rng)
    make_room(draft, rng)
    return True


def refill(draft, rng):
    """A file of any bytes, as long as the free space, or a byte more or less."""
    files = draft.slots_of(FILE)
    if not files:
        return False
    slot = draft.slots[rng.choice(files)]
    slot[2] = b''
    left = max(0, min(draft.room, 4096) - draft.total() + rng.choice([-1, 0, 0, 1]))
    if left < 3 or rng.random() < 0.4:
        left = 3
    slot[2] = bytes(rng.choices(EDGE_BYTES, k=2)) + b'a' * (left - 2)
    return True


def remode(draft, rng):
    if not draft.slots:
        return False
    draft.slots[rng.choice(sorted(draft.slots))][1] = rng.choice([0, 1, 0o777, 2 ** 31, 2 ** 32 - 1, rng.getrandbits(32)])
    return True


# Damages of a draft: words, numbers and kept paths.

def other_limit(draft, rng):
    count = len(draft.entries)
    draft.limit = rng.choice([0, 1, count - 1, count, count, count + 1, 15, 17, 64] + [4095, 4096, 4097] * (rng.random() < 0.1))
    draft.limit = max(draft.limit, 0)
    return True


def other_room(draft, rng):
    total = draft.total()
    draft.room = max(0, rng.choice([255, 256, 257, 300, 4096, total - 1, total, total + 1, 1024]))
    return True


def longer_slices(draft, rng):
    """Slices that are longer than the limits ask, with anything behind."""
    draft.spare = rng.randrange(1, 4)
    k = draft.limit + NUMBERS
    draft.slots.setdefault(k, [rng.choice([0, *KINDS, 4]), rng.getrandbits(32), b''])
    return True


def other_extent(draft, rng):
    """Free slots at the end, or slots in use that are behind the end."""
    left = draft.limit + NUMBERS - draft.extent()
    draft.behind += rng.choice([-3, -2, -1, -1, 1, 1, 2, 3, left - 1, left, left + 1])
    return True


def other_umask(draft, rng):
    draft.umask = rng.choice([0, 0o22, 2 ** 32 - 1, 2 ** 31, 2 ** 32, 2 ** 32 + 0o22, 2 ** 63, WORD])
    return True


def change_directory(draft, rng):
    draft.directory = any_path(rng)
    return True


def reopen(draft, rng):
    """Another path, position or holder of an open number."""
    if not draft.numbers:
        return False
    number = draft.numbers[rng.choice(sorted(draft.numbers))]
    pick = rng.random()
    if pick < 0.6:
        number[2] = any_path(rng)
    elif pick < 0.8:
        number[1] = rng.choice(EDGES)
    else:
        number[0] = rng.choice([number[0], *sorted(draft.slots)])
    return True


def open_number(draft, rng):
    """A number on a file, or on what is none."""
    n = rng.choice([0, 1, 2, 30, 31, rng.randrange(NUMBERS)])
    files, edge = draft.slots_of(FILE), min(draft.limit, 4096) + NUMBERS
    others = [0, 10, edge - 1, edge, edge + 1, 2 ** 32, 2 ** 63, WORD - 1, *draft.slots]
    slot = rng.choice(files) if files and rng.random() < 0.7 else rng.choice(others)
    draft.numbers[n] = [slot, rng.choice(EDGES), rng.choice(GOOD_PATHS) if rng.random() < 0.7 else any_path(rng)]
    return True


def close_number(draft, rng):
    """Most times a file that has no name goes with its last number."""
    if not draft.numbers:
        return False
    slot = draft.numbers.pop(rng.choice(sorted(draft.numbers)))[0]
    held = {number[0] for number in draft.numbers.values()} | {e[2] for e in draft.entries}
    if slot not in held and rng.random() < 0.6:
        draft.slots.pop(slot, None)
    return True


# Damages of single words. `words` is {(place, index): value}.

def now(draft, words, key):
    return words.get(key, value_before(draft.holds, key))


def any_word(draft, rng):
    """A word that a rule reads, or one beside it."""
    entries, limit = len(draft.entries), min(draft.limit, 64)
    place = rng.choice(['words', 'records', 'records', 'heads', 'heads'])
    if place == 'words':
        return place, rng.choice([0, 1, 2, 3, 4, 5, 6, 7, 8, 9, 10, 11, 12, 13, 98, 99, 100, 101, 101, 102])
    if place == 'records':
        return place, rng.randrange(entries + 1)
    return place, rng.choice([*draft.slots, rng.randrange(limit + NUMBERS + 2)])


def flip(draft, words, rng):
    key = any_word(draft, rng)
    if now(draft, words, key) is None:
        return False
    words[key] = now(draft, words, key) ^ 1 << rng.choice([rng.randrange(64), rng.randrange(8), 16, 24, 25, 32])
    return True


def edge_word(draft, words, rng):
    words[any_word(draft, rng)] = rng.choice(EDGES)
    return True


def by_one(draft, words, rng):
    """A field of a word one more or one less, or a count."""
    key = rng.choice([('words', 0), ('words', 2), ('words', 101), ('words', 4), ('words', 5), ('words', 7), ('words', 8), ('words', 10),
                      any_word(draft, rng)])
    if now(draft, words, key) is None:
        return False
    unit = {'records': [1, 2 ** 16, 2 ** 24], 'heads': [1, 2 ** 24, 2 ** 32]}.get(key[0], [1])
    words[key] = now(draft, words, key) + rng.choice([-1, 1]) * rng.choice(unit) & WORD
    return True


def cut(draft, words, rng):
    """A slice shorter or longer by one."""
    key = 'length', rng.randrange(6)
    words[key] = max(0, now(draft, words, key) + rng.choice([-1, -1, 1, 1, 1]))
    return True


def poke_byte(draft, words, rng):
    """A byte of a name or target, or beside it."""
    names = sum(len(e[1]) for e in draft.entries)
    data = sum(len(slot[2]) for slot in draft.slots.values())
    i = rng.randrange(names + 1) if rng.random() < 0.6 else draft.room - 1 - rng.randrange(data + 1)
    words['bytes', max(0, i)] = rng.choice(EDGE_BYTES)
    return True


def poke_path(draft, words, rng):
    """A byte of a kept path, or the first behind it."""
    kept = [(0, draft.directory)] + [(n + 1, number[2]) for n, number in draft.numbers.items()]
    cell, path = rng.choice(kept)
    words['paths', CELL * cell + rng.randrange(len(path) + 1)] = rng.choice(EDGE_BYTES)
    return True


def path_length(draft, words, rng):
    """The length of a kept path alone."""
    key = rng.choice([('words', 4)] + [('words', 7 + 3 * n) for n in draft.numbers])
    words[key] = rng.choice([0, 1, 2, 3, 5, 1023, 1024, 1025, 2 ** 32, 2 ** 63, WORD, now(draft, words, key) + 1 & WORD])
    return True


def unread(draft, words, rng):
    """What no rule reads: behind the entries, free space, closed numbers, times, behind the slices."""
    closed = [n for n in range(NUMBERS) if n not in draft.numbers]
    n = rng.choice(closed or [0])
    names, value = sum(len(e[1]) for e in draft.entries), rng.choice(EDGES)
    key = rng.choice([('records', len(draft.entries) + rng.randrange(3)), ('words', 6 + 3 * n), ('words', 7 + 3 * n), ('words', 102),
                      ('times', rng.randrange(200)), ('bytes', names), ('heads', draft.limit + NUMBERS), ('words', 6),
                      ('heads', draft.extent()), ('heads', draft.extent() + rng.randrange(4))])
    words[key] = value % (256 if key[0] == 'bytes' else 2 ** 63)
    return True


DRAFTED = {
    rename: 8, rename_as_other: 5, exchange_entries: 2, other_depth: 2, exchange_names: 2, add_entry: 7, remove_entry: 6,
    exchange_slots: 4, slot_twice: 2, move_slot: 7, far_slot: 1, other_kind: 3, stray_slot: 3, retarget: 10, refill: 7, remode: 3,
    other_limit: 4, other_room: 4, longer_slices: 3, other_extent: 5, other_umask: 3, change_directory: 8, reopen: 6, open_number: 6, close_number: 4,
}
POKED = {flip: 8, edge_word: 4, by_one: 5, cut: 3, poke_byte: 8, poke_path: 5, path_length: 3, unread: 7}


def damaged(rng):
    """A random store: what its line begins with, and its words."""
    draft = started(rng)
    wanted = rng.choices([1, 2, 3, 4], [35, 27, 20, 18])[0]
    picks = rng.choices([*DRAFTED, *POKED], [*DRAFTED.values(), *POKED.values()], k=wanted)
    done = sum([damage(draft, rng) for damage in picks if damage in DRAFTED])
    words = written(draft)
    done += sum([damage(draft, words, rng) for damage in picks if damage in POKED])
    if not done:
        unread(draft, words, rng)
    return draft.holds, words

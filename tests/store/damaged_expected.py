#!/usr/bin/env python3
"""What crates/test_damaged has to write, worked out with reader.py and without any of its code.

  python3 tests/store/damaged_expected.py < crates/test_damaged/stdin | cmp - crates/test_damaged/stdout

The form of a line and of an answer is that of crates/test_damaged/src/main.rt. The stores are made from the example of docs/LAYOUT.md.
"""
import sys

sys.dont_write_bytecode = True

from reader import CELL, DIRECTORY, EXTENT, FILE, LINK, NUMBERS, PATHS, WORDS, Store, broken, tree

SLICES = ('words', 'records', 'heads', 'times', 'paths', 'bytes')
# The storage of a case, of which the store of 16 entries and 256 bytes is given only as much as the page asks.
LIMIT, ROOM = 16, 256
STORAGE = (103, 4097, 4129, 16516, 33793, 4096)
GIVEN = (WORDS, LIMIT, LIMIT + NUMBERS, 4 * (LIMIT + NUMBERS), PATHS, ROOM)
LETTERS = 1100
UMASK = 438

# Tree K as the page says it was made. Each entry takes the lowest free slot, and the root was there before.
MADE = [
    ('', DIRECTORY, ''), ('/y26', DIRECTORY, ''), ('/y26/moon', DIRECTORY, ''), ('/deep', DIRECTORY, ''),
    ('/y26/moon/jan.txt', FILE, 'full3'), ('/year', LINK, 'y26'), ('/self', LINK, 'self'), ('/gone', LINK, 'none'),
    ('/deep/up', LINK, '../y26'),
]
MODES = {DIRECTORY: 0o755, FILE: 0o666, LINK: 0o777}
KINDS = {DIRECTORY: 'directory', FILE: 'file', LINK: 'link'}

# The words that the page shows for it.
SHOWN_RECORDS = [
    0x0000000000, 0x0003040001, 0x0008020002, 0x0007040001, 0x0006040001, 0x0001030001, 0x0002040002, 0x0004070003, 0x0005040001,
]
SHOWN_HEADS = [0x000001ed01000000] * 4 + [
    0x000001b602000005, 0x000001ff03000003, 0x000001ff03000004, 0x000001ff03000004, 0x000001ff03000006,
]
SHOWN_WORDS = [512, 32768, 9, 438, 0]
SHOWN_NAMES = b'deepupgoneselfy26moonjan.txtyear'
SHOWN_DATA = b'full3y26selfnone../y26'


def storage(sizes, limit, room):
    """What set up leaves: no entry, no number open, no slot. All else it leaves as it was: 77 or `?`, so nothing lawful."""
    words, records, heads, times, paths, data = sizes
    return Store([limit, room, 0, UMASK, 0] + [0] * (WORDS - 5) + [77] * (words - WORDS), [77] * records, [0] * heads, [0] * times,
                 bytearray(b'?' * paths), bytearray(b'?' * data))


def put_tree(store, made):
    """The entries of `made`, in slots 0 on, in what set up has left."""
    names = [tuple(path.encode().split(b'/')[1:]) for path, _, _ in made]
    # Tuples of names compare name by name, so this is the order of a walk.
    order = sorted(range(len(made)), key=lambda slot: names[slot])
    store.words[2] = store.words[EXTENT] = len(made)
    left = b''
    for i, slot in enumerate(order):
        name = names[slot][-1] if names[slot] else b''
        store.records[i] = len(names[slot]) | len(name) << 16 | slot << 24
        left += name
    right = b''
    for slot, (_, kind, data) in enumerate(made):
        store.heads[slot] = len(data) | kind << 24 | MODES[kind] << 32
        right += data.encode()
    store.bytes[:len(left)] = left
    store.bytes[store.words[1] - len(right):store.words[1]] = right


def put_path(store, cell, path):
    store.paths[CELL * cell:CELL * cell + len(path)] = path


def put_open(store):
    """The current directory and the two open files of the program's `k`, which has two free slots behind them."""
    store.words[4:11] = [9, 5, 5, 17, 10, 0, 4]
    store.words[EXTENT] = 12
    store.heads[9] = FILE << 24 | MODES[FILE] << 32
    put_path(store, 0, b'/y26/moon')
    put_path(store, 1, b'/y26/moon/jan.txt')
    put_path(store, 2, b'/old')


def example():
    """Tree K with the limits of the page, and whether the page's words are the ones made."""
    limit, room = SHOWN_WORDS[:2]
    slots = limit + NUMBERS
    store = storage((WORDS, limit, slots, 4 * slots, PATHS, room), limit, room)
    put_tree(store, MADE)
    same = (store.words == SHOWN_WORDS + [0] * (EXTENT - 5) + [len(MADE)] and store.records[:len(MADE)] == SHOWN_RECORDS
            and store.heads[:len(MADE)] == SHOWN_HEADS
            and store.bytes.startswith(SHOWN_NAMES) and store.bytes.endswith(SHOWN_DATA))
    return store, same


def made_store(holds):
    store = storage(STORAGE, LIMIT, ROOM)
    if holds == 'root':
        put_tree(store, MADE[:1])
        store.words[EXTENT] = 2
    if holds == 'k':
        put_tree(store, MADE)
        put_open(store)
    return store


BASES = {holds: made_store(holds) for holds in ('empty', 'root', 'k')}


def fresh(holds):
    base = BASES.get(holds, BASES['empty'])
    return [getattr(base, name)[:] for name in SLICES]


def change(slices, given, place, at, value):
    """One change of a line; False where the place is none. What is behind the end of a slice changes nothing."""
    if place == 'length':
        if at < len(given):
            given[at] = value
    elif place in ('letters-in-paths', 'letters-in-bytes'):
        target = slices[4 if place.endswith('paths') else 5]
        end = min(at + min(value, LETTERS), len(target))
        if at < end:
            target[at:end] = b'a' * (end - at)
    elif place in SLICES:
        target = slices[SLICES.index(place)]
        if at < len(target):
            target[at] = value & 0xff if isinstance(target, bytearray) else value % 2 ** 63 if place == 'times' else value
    else:
        return False
    return True


def changed(line):
    """The store of a line, the rule that it names, and a mark for each word that is none."""
    rule, holds, *fields = line.partition(':')[0].split(' ')
    marks = '' if holds in BASES else '? '
    slices, given = fresh(holds), list(GIVEN)
    for k in range(0, len(fields), 3):
        place, at, value = fields[k:k + 3]
        if not change(slices, given, place, int(at, 0), int(value, 0)):
            marks += '? '
    return Store(*(each[:n] for each, n in zip(slices, given))), int(rule, 0), marks


def answer(line):
    """The rules that the store of a line breaks, and what the program writes for it."""
    store, rule, marks = changed(line)
    found = broken(store)
    about = f'rule {rule}' if rule else 'no rule'
    return found, f'{marks}{about}: {line.partition(":")[2][1:]}: {"refused" if found else "accepted"}'


def listing(store):
    for entry in tree(store).entries:
        data = f'bytes {len(entry.data)}' + (f': {entry.data.decode()}' if entry.data else '')
        path = entry.path.decode() or '/'
        yield f'{path} {KINDS[entry.kind]}, mode {entry.mode} (octal {entry.mode:o}), {data}'


def top():
    """What stands before the first case: tree K, and the verdict of it."""
    store, same = example()
    if not same:
        sys.exit('the example of docs/LAYOUT.md is not the tree that it says')
    verdict = 'refused' if broken(store) else 'accepted'
    return [*listing(store), f'no rule: tree K: {verdict}']


def main():
    lines = sys.stdin.read().splitlines()
    print('\n'.join([*top(), *(answer(line)[1] for line in lines if not line.startswith('#'))]))


if __name__ == '__main__':
    main()

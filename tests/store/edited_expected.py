#!/usr/bin/env python3
"""What crates/test_edited has to write, worked out without any of its code.

  python3 tests/store/edited_expected.py < crates/test_edited/stdin | cmp - crates/test_edited/stdout

The form of a line and of an answer is that of crates/test_edited/src/main.rt; what an edit does is docs/LAYOUT.md and document 01. The tree
is one of objects: a directory holds its entries by name, an open number refers to a file. No slice of the store is modelled, so a
record's number comes from a walk, and a slot's number is kept with what is in it.
"""
import collections
import functools
import re
import sys

sys.dont_write_bytecode = True

from reader import is_kept_path, is_name, is_target

ENTRY_LIMIT = 40
BYTE_LIMIT = 1024
NUMBERS = 32
LONGEST_PATH = 1024
# The program reads so many bytes and no more; an argument has at most so many.
INPUT_LIMIT = 65536
ARGUMENT_LIMIT = 4096

DIRECTORY, FILE, LINK = b'directory', b'file', b'link'


class Refused(Exception):
    """An edit that is not possible, with its first cause."""


def need(holds, cause):
    if not holds:
        raise Refused(cause)


class Node:
    """A directory, a file or a link: what stays the same when its name changes."""

    def __init__(self, kind, mode, time, text, slot):
        self.kind = kind
        self.mode = mode
        self.times = [time] * 4
        self.text = text
        self.slot = slot
        self.entries = {}


Record = collections.namedtuple('Record', 'node names parent')
Opened = collections.namedtuple('Opened', 'file position path')


# Numbers and texts of a line.

def digit(b):
    """A digit; a byte that is none has a value as well, as the program gives it."""
    if b < 48 or 58 <= b < 97:
        return 0
    return b - 48 if b < 58 else (b - 97) % 6 + 10


def number(field):
    """A decimal number, or one behind 0x; before a further digit all but the lowest 60 bits are dropped, as in the program."""
    base = 16 if field[1:2] == b'x' else 10
    value = 0
    for b in field:
        value = 0 if b == ord('x') else value % 2 ** 60 * base + digit(b) % base
    return value


STEP = re.compile(rb'[^\\]|\\[0-9a-f]{2}|\\\*[0-9]{4}', re.DOTALL)


def decode(field):
    """The bytes of an argument; refused where it is malformed or too long."""
    out = bytearray()
    at = 0
    while at < len(field):
        step = STEP.match(field, at)
        need(step, 'malformed argument')
        token = step.group()
        at = step.end()
        if token.startswith(b'\\*'):
            need(out and int(token[2:]) > 0, 'malformed argument')
            out += out[-1:] * (int(token[2:]) - 1)
        elif token.startswith(b'\\'):
            out.append(int(token[1:], 16))
        else:
            out += token
        need(len(out) <= ARGUMENT_LIMIT, 'argument too long')
    return bytes(out)


class Store:
    def __init__(self):
        self.root = None
        self.umask = 0o666
        self.current = b''
        self.opened = {}

    # What the tree holds.

    def records(self):
        """All entries, in the order of a walk by rising name."""
        out = []

        def walk(node, names, parent):
            out.append(Record(node, names, parent))
            for name in sorted(node.entries):
                walk(node.entries[name], names + (name,), node)

        if self.root:
            walk(self.root, (), None)
        return out

    def nodes(self):
        """Everything that has a slot: the entries, and the open files that have lost their names."""
        named = [record.node for record in self.records()]
        held = {id(node): node for node in named}
        held.update((id(opened.file), opened.file) for opened in self.opened.values())
        return list(held.values())

    def name_bytes(self):
        return sum(len(record.names[-1]) for record in self.records() if record.names)

    def text_bytes(self):
        return sum(len(node.text) for node in self.nodes())

    def free_bytes(self):
        return BYTE_LIMIT - self.name_bytes() - self.text_bytes()

    def lowest_free_slot(self):
        taken = {node.slot for node in self.nodes()}
        return next(k for k in range(ENTRY_LIMIT + NUMBERS) if k not in taken)

    def slots(self):
        """One more than the last slot in use."""
        return max((node.slot + 1 for node in self.nodes()), default=0)

    # What an edit needs.

    def record(self, at):
        records = self.records()
        need(at < len(records), 'no such record')
        return records[at]

    def directory(self, at):
        node = self.record(at).node
        need(node.kind == DIRECTORY, 'not a directory')
        return node

    def file(self, at):
        node = self.record(at).node
        need(node.kind == FILE, 'not a file')
        return node

    def need_bytes(self, more):
        need(more <= self.free_bytes(), 'byte limit')

    # Entries.

    def make_root(self, mode, time):
        need(not self.root, 'there is a root')
        self.root = Node(DIRECTORY, mode, time, b'', self.lowest_free_slot())

    def insert(self, at, name, kind, mode, time, text):
        directory = self.directory(at)
        need(is_name(name), 'name not legal')
        need(name not in directory.entries, 'name already there')
        need(kind != DIRECTORY or not text, 'a directory that holds bytes')
        need(kind != LINK or is_target(text), 'target not legal')
        need(len(self.records()) < ENTRY_LIMIT, 'entry limit')
        self.need_bytes(len(name) + len(text))
        directory.entries[name] = Node(kind, mode, time, text, self.lowest_free_slot())

    def remove(self, at):
        record = self.record(at)
        need(record.parent, 'the root')
        del record.parent.entries[record.names[-1]]

    def move(self, at, to, name):
        record = self.record(at)
        need(record.parent, 'the root')
        into = self.directory(to)
        above = self.record(to).names[:len(record.names)]
        need(above != record.names, 'into itself')
        need(is_name(name), 'name not legal')
        need(name not in into.entries, 'name already there')
        self.need_bytes(len(name) - len(record.names[-1]))
        del record.parent.entries[record.names[-1]]
        into.entries[name] = record.node

    # What an entry is, apart from its name.

    def set_mode(self, at, mode):
        self.record(at).node.mode = mode

    def set_times(self, at, first, modified):
        self.record(at).node.times = [first, first, first, modified]

    def set_contents(self, at, text, time):
        file = self.file(at)
        self.need_bytes(len(text) - len(file.text))
        file.text = text
        file.times[3] = time

    def set_length(self, at, length):
        file = self.file(at)
        self.need_bytes(length - len(file.text))
        file.text = file.text[:length] + bytes(max(0, length - len(file.text)))

    # File numbers, the current directory and the umask.

    def open(self, n, position, path):
        need(n < NUMBERS, 'number above 31')
        need(n not in self.opened, 'number in use')
        need(len(path) <= LONGEST_PATH and is_kept_path(path), 'path not normal')
        names = tuple(path.split(b'/')[1:])
        found = [record.node for record in self.records() if record.names == names]
        need(found, 'nothing at the path')
        need(found[0].kind == FILE, 'not a file')
        self.opened[n] = Opened(found[0], position, path)

    def close(self, n):
        need(n < NUMBERS, 'number above 31')
        need(n in self.opened, 'number not open')
        del self.opened[n]

    def seek(self, n, position):
        """A closed number's position means nothing, so a seek there is made and leaves nothing to be seen."""
        need(n < NUMBERS, 'number above 31')
        if n in self.opened:
            self.opened[n] = self.opened[n]._replace(position=position)

    def set_current(self, path):
        need(len(path) <= LONGEST_PATH and is_kept_path(path), 'path not normal')
        self.current = path

    def set_umask(self, mode):
        self.umask = mode


# A line, and the edit that it asks for.

class Line:
    def __init__(self, line):
        self.fields = line.split(b' ')

    def field(self, k):
        return self.fields[k] if k < len(self.fields) else b''

    def number(self, k):
        return number(self.field(k))

    def mode(self, k):
        return self.number(k) % 2 ** 32

    def time(self, k):
        return self.number(k) % 2 ** 63

    def bytes(self, k):
        return decode(self.field(k))


def insert(store, line):
    store.insert(line.number(1), line.bytes(2), line.field(0), line.mode(3), line.time(4), line.bytes(5))


EDITS = {
    b'root': lambda s, l: s.make_root(l.mode(1), l.time(2)),
    b'directory': insert,
    b'file': insert,
    b'link': insert,
    b'remove': lambda s, l: s.remove(l.number(1)),
    b'move': lambda s, l: s.move(l.number(1), l.number(2), l.bytes(3)),
    b'mode': lambda s, l: s.set_mode(l.number(1), l.mode(2)),
    b'times': lambda s, l: s.set_times(l.number(1), l.time(2), l.time(3)),
    b'contents': lambda s, l: s.set_contents(l.number(1), l.bytes(2), l.time(3)),
    b'length': lambda s, l: s.set_length(l.number(1), l.number(2)),
    b'open': lambda s, l: s.open(l.number(1), l.number(2), l.bytes(3)),
    b'close': lambda s, l: s.close(l.number(1)),
    b'seek': lambda s, l: s.seek(l.number(1), l.number(2)),
    b'current': lambda s, l: s.set_current(l.bytes(1)),
    b'umask': lambda s, l: s.set_umask(l.mode(1)),
}


def edit(store, line):
    """Makes the edit; answers why it is refused, or None where it is made."""
    fields = Line(line)
    try:
        need(fields.field(0) in EDITS, 'no such edit')
        EDITS[fields.field(0)](store, fields)
    except Refused as refused:
        return str(refused)
    return None


# What is written.

def plain(s):
    return ''.join(chr(b) if 32 < b < 127 else '\\%02x' % b for b in s)


def sum_of(s):
    h = 0
    for b in s:
        h = (h * 257 + b + 1) % 4294967291
    return h


# A long text is written again behind every edit.
@functools.lru_cache(maxsize=4096)
def short(s):
    return plain(s) if len(s) <= 40 else '%s..%s~%08x' % (plain(s[:8]), plain(s[-8:]), sum_of(s))


def mode_text(mode):
    return '%d (octal %o)' % (mode, mode)


def node_text(node):
    start = ' [%d: %s] %s' % (node.slot, ' '.join(map(str, node.times)), node.kind.decode())
    text = ': ' + short(node.text) if node.text else ''
    return '%s, mode %s, bytes %d%s' % (start, mode_text(node.mode), len(node.text), text)


def store_text(store):
    """The store, as it is written behind an edit that was made."""
    records = store.records()
    out = []
    for i, record in enumerate(records):
        path = ''.join('/' + short(name) for name in record.names) or '/'
        out.append('%d %s%s\n' % (i, path, node_text(record.node)))
    for n in sorted(store.opened):
        opened = store.opened[n]
        out.append('number %d at %d on %s%s\n' % (n, opened.position, short(opened.path), node_text(opened.file)))
    out.append('umask %s, current %s\n' % (mode_text(store.umask), short(store.current) or '/'))
    out.append('entries %d, bytes %d + %d, slots %d\n' % (len(records), store.name_bytes(), store.text_bytes(), store.slots()))
    return ''.join(out)


def answer(store, line):
    """Makes the edit of a line; the cause of a refusal or None, and what the program writes."""
    cause = edit(store, line)
    if cause:
        return cause, b'> ' + line + b': refused\n'
    return None, b'> ' + line + b': done\n' + store_text(store).encode()


def lines_of(text):
    """The lines that are edits, of the bytes that the program reads."""
    lines = text[:INPUT_LIMIT].split(b'\n')
    if not lines[-1]:
        lines.pop()
    return [line for line in lines if not line.startswith(b'#')]


def answers(text):
    """For each edit of the input its line, the cause of a refusal or None, and what the program writes."""
    store = Store()
    return [(line, *answer(store, line)) for line in lines_of(text)]


def main():
    for _, _, written in answers(sys.stdin.buffer.read()):
        sys.stdout.buffer.write(written)


if __name__ == '__main__':
    main()

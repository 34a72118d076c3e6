#!/usr/bin/env python3
"""Random edits, made by crates/test_edited and by the model in edited_expected.py, and compared.

  python3 tests/store/random_edits.py COUNT SEED [BINARY]

COUNT edits in all, in scripts that each start from a fresh store and stay within what the program reads. BINARY is
crates/test_edited/out/test_edited where none is given, which `rt run <stdin` in crates/test_edited makes. Writes how often each edit was made and refused, why, which states were reached, and how many scripts differ; ends
with 1 where one does, after shortening the smallest such script.
"""
import collections
import random
import subprocess
import sys

import edited_expected as model
from edited_expected import DIRECTORY, FILE, LINK

# Names that collide often. Those of 7 to 9 bytes are alike in their first 8; a byte below and one above all letters stand behind a
# common start.
NAMES = [b'a', b'b', b'c', b'd', b'e', b'A', b'a-', b'a.', b'a0', b'aa', b'ab', b'b-', b'b0', b'bb', b'a\x01', b'a b', b'a\x7f', b'...',
         b'~', b'\x01', b'\xc3\xa9', b'a\xc3\xa9', b'aaaaaaa', b'aaaaaaaa', b'aaaaaaaaa', b'aaaaaaab', b'aaaaaaaab', b'aaaaaaa\x01',
         b'aaaaaaaa\x01', b'aaaaaaa\xc2\x80', b'aaaaaa\xc2\x80', b'\xc2\x80', b'\xdf\xbf', b'\xe0\xa0\x80', b'\xed\x9f\xbf',
         b'\xee\x80\x80', b'\xf0\x90\x80\x80', b'\xf4\x8f\xbf\xbf', b'..a', b'.a', b'a\\b']
BAD_TEXTS = [b'\x00', b'a\x00', b'\x00a', b'\x80', b'a\xbf', b'\xc0\x80', b'\xc1\xbf', b'\xc3', b'\xc3a', b'\xe0\x9f\xbf', b'\xe0\xa0',
             b'\xed\xa0\x80', b'\xef\xbf', b'\xf0\x8f\xbf\xbf', b'\xf4\x90\x80\x80', b'\xf5\x80\x80\x80', b'\xff', b'a' * 254 + b'\xc3']
BAD_NAMES = [b'', b'.', b'..', b'/', b'a/', b'/a', b'a/b', b'a' * 256, b'a' * 254 + b'\xc3\xa9', b'b' * 1024, b'b' * 4096] + BAD_TEXTS
EDGE_NAMES = [b'a' * 254, b'a' * 255, b'b' * 255, b'a' * 253 + b'\xc3\xa9', b'a' * 250, b'c' * 128]
TARGETS = [b'', b'a', b'b', b'../a', b'/', b'//', b'.', b'..', b'a/./b', b'/a/b/', b'a\x01', b'a b', b'\xc3\xa9/a', b'a' * 255,
           b'a' * 255 + b'/', b'/' + b'b' * 255 + b'/a', b'a/' * 40]
LONG_NAMED_TARGETS = [b'a' * 256, b'a/' + b'b' * 256, b'a' * 256 + b'/a', b'/' + b'\xc3\xa9' * 128]
BAD_TARGETS = BAD_TEXTS + LONG_NAMED_TARGETS + [b'a/' * 512 + b'a', b'a' * 1024, b'a' * 1025]
# Paths of 1,022 to 1,026 bytes, and the shortest.
EDGE_PATHS = [b'', b'/', b'//', b'/a', b'a'] + [b'/' + b'/'.join([b'a' * 255, b'b' * 255, b'c' * 255, b'd' * n]) for n in (253, 254, 255)]
EDGE_PATHS += [b'/a' * 511, b'/a' * 512, b'/a' * 513, b'/ab' + b'/a' * 511, b'/ab' + b'/a' * 510 + b'/' + b'a' * 2]
EDGE_PATHS += [b'/' + b'a' * 254 + b'/b' * 384 + b'c' * n for n in (0, 1, 2)]
ODD_NUMBERS = [31, 32, 33, 39, 40, 41, 71, 72, 99, 255, 256, 2 ** 24, 2 ** 31, 2 ** 32, 2 ** 32 + 1, 2 ** 63, 2 ** 64 - 1]
ODD_LINES = [b'', b' ', b'rename 0 c', b'Root 1 1', b'root', b'directory', b'file', b'link', b'remove', b'move', b'mode', b'times',
             b'contents', b'length', b'open', b'close', b'seek', b'current', b'umask', b'directory 0', b'file 0 a', b'file 0 q 1',
             b'link 0 q', b'open 1', b'open 1 2', b'umask 0xffffffffff', b'current /', b'current //', b'file 0 \\zz 1 1',
             b'file 0 \\C3 1 1 a', b'file 0 a\\ 1 1', b'file 0 a\\*12 1 1', b'file 0 \\*0003 1 1', b'file 0 a\\*0000 1 1',
             b'contents 1 a\\*4097 1', b'contents 1 a\\*4096 1', b'file 0 \xff 1 1 a', b'file 0 a\x00 1 1', b'mode 0 \t', b'close \r',
             b'file 0 r\\*0002 1 1 \xff\x00\\*0003', b'directory 0 h 0x1ff 0xffffffffffffffff more words', b'remove 1 2', b'x' * 300]
COMMENTS = [b'# none', b'#remove 1', b'#']

# How often each edit is asked for, by what the script is about at the time.
PHASES = {
    'mixed': dict(directory=4, file=5, link=3, remove=2, move=5, mode=1, times=1, contents=3, length=2, open=3, close=2, seek=1,
                  current=1, umask=1, root=0.5),
    'grow': dict(directory=5, file=5, link=4, remove=0.7, move=2, mode=0.3, contents=0.3, open=0.5, times=0.3),
    'fill': dict(directory=2, file=3, link=3, remove=1.5, move=4, contents=5, length=4, open=1, close=1),
    'deep': dict(directory=6, file=4, link=2, remove=1, move=4, open=6, close=2, current=3, length=0.5),
    'hold': dict(directory=1, file=6, remove=5, move=1, contents=1.5, length=1, open=7, close=0.3, seek=1),
    'move': dict(directory=3, file=2, link=1, remove=0.7, move=12, open=1, close=0.5),
}


def encode(s, rand):
    """An argument that stands for these bytes; more than one does."""
    out = []
    i = 0
    while i < len(s):
        end = i + 1
        while end < len(s) and s[end] == s[i]:
            end += 1
        b = s[i]
        out.append(b'%c' % b if 32 < b < 127 and b != 92 and rand.random() < 0.98 else b'\\%02x' % b)
        count = end - i
        if count > 6 or (count > 1 and rand.random() < 0.1):
            out.append(b'\\*%04d' % count)
            i = end
        else:
            i += 1
    return b''.join(out)


def path_of(names):
    return b''.join(b'/' + name for name in names)


class Script:
    """A script that is made edit by edit, each chosen by the state that the model has reached."""

    def __init__(self, rand):
        self.rand = rand
        self.store = model.Store()
        self.records = []
        self.made = []
        self.queue = []
        self.phase = 'mixed'

    # Numbers.

    def chance(self, p):
        return self.rand.random() < p

    def digits(self, n):
        if n >= 2 ** 60 or self.chance(0.05):
            return b'0x%x' % n
        return b'%d' % n

    def at(self, *kinds):
        """A record's number, mostly one of these kinds."""
        fitting = [i for i, record in enumerate(self.records) if record.node.kind in kinds]
        roll = self.rand.random()
        if roll < 0.9 and fitting:
            return self.rand.choice(fitting)
        if roll < 0.96 and self.records:
            return self.rand.randrange(len(self.records))
        return self.rand.choice([len(self.records), len(self.records) + 1] + ODD_NUMBERS)

    def in_directory(self):
        """A directory's number; where the script is about long paths, mostly that of the longest."""
        found = [i for i, record in enumerate(self.records) if record.node.kind == DIRECTORY]
        if self.phase == 'deep' and found and self.chance(0.6):
            return max(found, key=lambda i: len(path_of(self.records[i].names)))
        return self.at(DIRECTORY)

    def mode(self):
        return self.digits(self.rand.choice([0, 0o644, 0o755, 0o777, 2 ** 32 - 1, 2 ** 32, self.rand.randrange(2 ** 33)]))

    def time(self):
        return self.digits(self.rand.choice([0, 1, 2 ** 63 - 1, self.rand.randrange(2 ** 63), self.rand.randrange(1000)]))

    def file_number(self, wanted_open):
        wanted = [n for n in range(model.NUMBERS) if (n in self.store.opened) == wanted_open]
        if wanted and self.chance(0.85):
            return self.rand.choice(wanted)
        return self.rand.choice(list(range(model.NUMBERS)) + ODD_NUMBERS)

    # Names, contents and targets.

    def near(self, n):
        """A length that just fits where n bytes are free, or just does not."""
        return max(0, n + self.rand.choice([-2, -1, 0, 0, 1, 2]))

    def name(self, i, free):
        """A name for an entry of record i, where so many bytes are free."""
        roll = self.rand.random()
        if roll < 0.03:
            return self.rand.choice(BAD_NAMES)
        if roll < 0.06 and i < len(self.records) and self.records[i].node.entries:
            return self.rand.choice(sorted(self.records[i].node.entries))
        edge = {'deep': 0.4, 'grow': 0.062, 'hold': 0.062}.get(self.phase, 0.08)
        if roll < edge:
            return self.rand.choice(EDGE_NAMES)
        if self.phase == 'deep' and roll < 0.6 and i < len(self.records):
            left = model.LONGEST_PATH - len(path_of(self.records[i].names)) - 1
            return self.letters(min(self.near(left), 256))
        if self.phase in ('fill', 'deep') and roll < 0.7:
            return self.letters(min(self.near(free), 256))
        return self.rand.choice(NAMES)

    def letters(self, n):
        """A name of n bytes; two of one length are often the same."""
        return (self.rand.choice([b'a', b'b']) * n)[:n]

    def runs(self, n):
        """n bytes in a few runs, so that a line stays short and a byte in a wrong place shows."""
        out = b''
        while len(out) < n:
            out += bytes([self.rand.randrange(256)]) * self.rand.randint(1, 1 + n // 6)
        return out[:n]

    def size(self, free):
        """How many bytes contents or a length have."""
        free = max(0, free)
        if self.chance({'fill': 0.5, 'grow': 0.01, 'hold': 0.005}.get(self.phase, 0.04)):
            return self.near(free)
        if self.phase == 'fill' and self.chance(0.3):
            return self.rand.randint(0, free)
        if self.chance(0.02):
            return self.rand.choice([1023, 1024, 1025, 4096])
        return self.rand.choice([0, 0, 1, 2, 3, 5, 12, 39, 40, 41] if self.phase in ('mixed', 'fill', 'hold') else [0, 0, 0, 1, 2])

    def target(self, free):
        if self.chance(0.05):
            return self.rand.choice(BAD_TARGETS if free < 256 else LONG_NAMED_TARGETS)
        if self.chance(0.03):
            return self.rand.choice(BAD_TEXTS)
        if self.phase == 'fill' and self.chance(0.5):
            return self.long_target(self.near(max(0, free)))
        return self.rand.choice(TARGETS if self.phase != 'grow' else TARGETS[:10])

    def long_target(self, n):
        """A target of n bytes, its names of at most 255."""
        out = b''
        while len(out) < n:
            out += self.rand.choice([b'a', b'b', b'\xc3\xa9']) * self.rand.choice([1, 20, 100, 127]) + b'/'
        # A character cut in two at the end makes another target that is not legal, and that is wanted now and then.
        return out[:n]

    # Paths.

    def path(self, kinds):
        """A path, mostly of an entry of these kinds."""
        found = [record for record in self.records if record.node.kind in kinds]
        roll = self.rand.random()
        if roll < 0.78 and found:
            if self.phase == 'deep' and self.chance(0.5):
                return max((path_of(record.names) for record in found), key=len)
            return path_of(self.rand.choice(self.not_open(found)).names)
        if roll < 0.88:
            return self.other_path(self.rand.choice(found).names if found else ())
        return self.invented_path()

    def not_open(self, records):
        """Where the script is about removed files, mostly those records that no number stands on."""
        held = {id(opened.file) for opened in self.store.opened.values()}
        free = [record for record in records if id(record.node) not in held]
        return free if free and self.phase == 'hold' and self.chance(0.98) else records

    def other_path(self, names):
        """A path that is not that of the entry, or is not written as a path has to be."""
        path = path_of(names)
        return self.rand.choice([path + b'/', path[1:], b'/' + path, path + b'/a', path + b'/.', path + b'/..', b'/.' + path,
                                 b'/../' + path, path[:-1], path + b'a', path.upper(), path.replace(b'/', b'//'), path + b'/\xff',
                                 path + b'\x00', b'', path_of(names[:-1]), path_of(names[-1:])])

    def invented_path(self):
        if self.chance(0.6):
            return self.rand.choice(EDGE_PATHS)
        names = [self.rand.choice(NAMES + EDGE_NAMES) for _ in range(self.rand.randint(1, 5))]
        if self.chance(0.2):
            names.append(self.rand.choice(BAD_NAMES))
        return path_of(names)

    # Edits.

    def root(self):
        return [b'root', self.mode(), self.time()]

    def inserted(self, word, text_for):
        """An insertion; the text is chosen for the bytes that the name leaves."""
        i = self.in_directory()
        name = self.name(i, self.store.free_bytes())
        text = text_for(self.store.free_bytes() - len(name))
        if text and self.phase == 'fill' and self.chance(0.2):
            name = self.letters(min(256, self.near(max(0, self.store.free_bytes() - len(text)))))
        return [word, self.digits(i), encode(name, self.rand), self.mode(), self.time(), encode(text, self.rand)]

    def directory(self):
        return self.inserted(b'directory', lambda free: b'x' if self.chance(0.03) else b'')

    def file(self):
        return self.inserted(b'file', lambda free: self.runs(self.size(free)))

    def link(self):
        return self.inserted(b'link', self.target)

    def remove(self):
        """Often of a file that is open, or of a directory with one inside; so that a script lasts, seldom of a large tree."""
        held = {id(opened.file) for opened in self.store.opened.values()}
        fitting = [i for i, record in enumerate(self.records) if id(record.node) in held]
        if fitting and self.chance(0.75 if self.phase == 'hold' else 0.3):
            i = self.rand.choice(fitting)
            above = [j for j, record in enumerate(self.records) if record.names and self.is_above(record, self.records[i])]
            return [b'remove', self.digits(self.rand.choice(above) if above and self.chance(0.3) else i)]
        i = self.at(FILE, LINK, DIRECTORY)
        while 0 < i < len(self.records) and len(self.records[i].node.entries) > 2 and self.chance(0.7):
            i = self.at(FILE, LINK, DIRECTORY)
        return [b'remove', self.digits(i)]

    def is_above(self, one, other):
        return one.names == other.names[:len(one.names)] and one.node is not other.node

    def move(self):
        i = self.at(FILE, LINK, DIRECTORY)
        if self.chance(0.5) and any(record.names and record.node.kind == DIRECTORY for record in self.records):
            i = self.rand.choice([j for j, record in enumerate(self.records) if record.names and record.node.kind == DIRECTORY])
        to = self.in_directory()
        own = self.records[i].names[-1] if i < len(self.records) and self.records[i].names else b''
        name = own if own and self.chance(0.3) else self.name(to, self.store.free_bytes() + len(own))
        if i < len(self.records) and self.chance(0.08):
            below = [j for j, record in enumerate(self.records) if self.is_above(self.records[i], record)]
            to = self.rand.choice(below + [i])
        return [b'move', self.digits(i), self.digits(to), encode(name, self.rand)]

    def set_mode(self):
        return [b'mode', self.digits(self.at(FILE, LINK, DIRECTORY)), self.mode()]

    def set_times(self):
        return [b'times', self.digits(self.at(FILE, LINK, DIRECTORY)), self.time(), self.time()]

    def free_for(self, i):
        """The bytes free for what record i holds."""
        own = len(self.records[i].node.text) if i < len(self.records) else 0
        return self.store.free_bytes() + own

    def contents(self):
        i = self.at(FILE)
        text = self.runs(self.size(self.free_for(i)))
        return [b'contents', self.digits(i), encode(text, self.rand), self.time()]

    def length(self):
        i = self.at(FILE)
        n = self.rand.choice([2 ** 24, 2 ** 32, 2 ** 63, 2 ** 64 - 1]) if self.chance(0.03) else self.size(self.free_for(i))
        return [b'length', self.digits(i), self.digits(n)]

    def position(self):
        return self.digits(self.rand.choice([0, 1, 5, 2 ** 63 - 1, 2 ** 63, 2 ** 64 - 1, self.rand.randrange(2 ** 64)]))

    def open(self):
        return [b'open', self.digits(self.file_number(False)), self.position(), encode(self.path([FILE]), self.rand)]

    def close(self):
        standing = collections.Counter(id(opened.file) for opened in self.store.opened.values())
        shared = [n for n, opened in self.store.opened.items() if standing[id(opened.file)] > 1]
        if shared and self.phase == 'hold' and self.chance(0.8):
            return [b'close', self.digits(self.rand.choice(shared))]
        return [b'close', self.digits(self.file_number(True))]

    def seek(self):
        return [b'seek', self.digits(self.file_number(True)), self.position()]

    def current(self):
        return [b'current', encode(self.path([DIRECTORY, FILE, LINK]), self.rand)]

    def umask(self):
        return [b'umask', self.mode()]

    # The script.

    def clearing(self):
        """Edits that leave little in the store; record 1 is the first entry of the root."""
        count = len(self.store.root.entries) if self.store.root else 0
        closing = [b'close %d' % n for n in sorted(self.store.opened) if self.chance(0.6)]
        return [b'remove 1'] * max(0, count - self.rand.choice([0, 0, 1, 2])) + closing

    def chain(self):
        """Edits that leave, in each directory, one other, and in the last a file whose path is just as long as a path may be, or longer."""
        count = self.rand.randint(4, 20)
        total = self.near(model.LONGEST_PATH) - count
        lengths = [total // count + (i < total % count) for i in range(count)]
        for _ in range(count):
            i, j = self.rand.randrange(count), self.rand.randrange(count)
            more = self.rand.randint(0, max(0, min(255 - lengths[i], lengths[j] - 1)))
            lengths[i] += more
            lengths[j] -= more
        names = [encode(self.letters(n), self.rand) for n in lengths]
        emptied = [b'close %d' % n for n in sorted(self.store.opened)]
        emptied += [b'remove 1'] * (len(self.store.root.entries) if self.store.root else 0)
        # The directory that was made last is the last record.
        made = [b'directory %d %s 493 1' % (i, name) for i, name in enumerate(names[:-1])]
        return emptied + made + [b'file %d %s 420 2' % (count - 1, names[-1])]

    def room_for_more(self):
        """Edits that make bytes free and keep entries: all contents but short ones are emptied."""
        return [b'length %d 0' % i for i, record in enumerate(self.records)
                if record.node.kind == FILE and len(record.node.text) > 5]

    def change_phase(self):
        before = self.phase
        self.phase = self.rand.choice(list(PHASES))
        if before == 'hold' and self.chance(0.7):
            self.phase = 'grow'
        if self.phase == 'deep' and self.chance(0.6):
            self.queue += self.chain()
        elif self.phase == 'deep' or self.chance({'grow': 0, 'hold': 0.5}.get(self.phase, 0.25)):
            self.queue += self.clearing()
        elif self.phase in ('grow', 'move', 'hold'):
            self.queue += self.room_for_more()

    def next_line(self):
        if self.queue:
            return self.queue.pop(0)
        if self.chance(0.015):
            return self.rand.choice(ODD_LINES)
        if not self.store.root and self.chance(0.3):
            return b' '.join(self.root())
        # It takes many edits until every number stands on a file of its own that has lost its name.
        if self.chance(0.005 if self.phase == 'hold' else 0.015):
            self.change_phase()
        weights = PHASES[self.phase]
        word = self.rand.choices(list(weights), list(weights.values()))[0]
        make = {'mode': self.set_mode, 'times': self.set_times}.get(word) or getattr(self, word)
        line = b' '.join(make())
        # An empty last argument may stand as no argument.
        return line.rstrip(b' ') if self.chance(0.9) else line

    def write(self, count):
        """Makes so many edits, or as many as the program reads; answers the script."""
        lines = []
        size = 0
        while len(self.made) < count:
            line = self.next_line()
            if size + len(line) + 40 > model.INPUT_LIMIT:
                break
            if self.chance(0.01):
                lines.append(self.rand.choice(COMMENTS))
                size += len(lines[-1]) + 1
            lines.append(line)
            size += len(line) + 1
            self.made.append((line, *model.answer(self.store, line), self.reached()))
            self.records = self.store.records()
        return b'\n'.join(lines) + (b'\n' if lines[-1] == b'' or self.chance(0.9) else b'')

    def reached(self):
        """Of the state after an edit: entries, free bytes, slots in use, and the length of the longest file's path."""
        records = self.store.records()
        longest = max((len(path_of(record.names)) for record in records if record.node.kind == FILE), default=0)
        return len(records), self.store.free_bytes(), len(self.store.nodes()), longest


# Running and comparing.

def run(binary, script):
    """What the program writes; None where it does not end as it should."""
    try:
        done = subprocess.run([binary], input=script, stdout=subprocess.PIPE, timeout=120)
    except subprocess.TimeoutExpired:
        return None
    return done.stdout if done.returncode == 0 else None


def expected(lines):
    return b''.join(written for _, _, written in model.answers(b'\n'.join(lines) + b'\n'))


def first_difference(written, out):
    """The number of the first edit whose output is not as it has to be."""
    at = 0
    for i, one in enumerate(written):
        if out[at:at + len(one)] != one:
            return i
        at += len(one)
    return len(written) - 1


def differs(binary, lines):
    return run(binary, b'\n'.join(lines) + b'\n') != expected(lines)


def shortened(binary, lines, runs=1500):
    """Leaves lines out, many at once and then one by one, while the outputs still differ."""
    step = max(1, len(lines) // 2)
    while step:
        i = 0
        while i < len(lines) and runs:
            fewer = lines[:i] + lines[i + step:]
            runs -= 1
            if fewer and differs(binary, fewer):
                lines = fewer
            else:
                i += step
        step //= 2
    return lines


def smallest(binary, made, out):
    """The script up to the first difference, shortened."""
    lines = [line for line, *_ in made]
    if out is not None:
        lines = lines[:first_difference([written for _, _, written, _ in made], out) + 1]
    if not differs(binary, lines):
        lines = [line for line, *_ in made]
    return shortened(binary, lines)


class Tally:
    def __init__(self):
        self.done = collections.Counter()
        self.refused = collections.Counter()
        self.causes = collections.Counter()
        self.states = collections.Counter()
        self.scripts = 0
        self.edits = 0

    def add(self, made):
        self.scripts += 1
        self.edits += len(made)
        for line, cause, _, state in made:
            word = line.split(b' ')[0]
            word = word.decode() if word in model.EDITS else 'no edit'
            if cause:
                self.refused[word] += 1
                self.causes[word, cause] += 1
            else:
                self.done[word] += 1
            self.add_state(*state)

    def add_state(self, entries, free, slots, longest):
        nameless = slots - entries
        self.states['all %d entries' % model.ENTRY_LIMIT] += entries == model.ENTRY_LIMIT
        self.states['no byte free'] += free == 0
        self.states['a file without a name'] += nameless > 0
        self.states['%d files without a name' % model.NUMBERS] += nameless == model.NUMBERS
        self.states['more slots in use than the entry limit'] += slots > model.ENTRY_LIMIT
        self.states['every slot in use'] += slots == model.ENTRY_LIMIT + model.NUMBERS
        self.states['a file whose path has the longest length'] += longest == model.LONGEST_PATH
        self.states['a file whose path is longer'] += longest > model.LONGEST_PATH

    def print(self):
        print('%-12s%10s%10s' % ('edit', 'done', 'refused'))
        for word in [word.decode() for word in model.EDITS] + ['no edit']:
            print('%-12s%10d%10d' % (word, self.done[word], self.refused[word]))
        print('%-12s%10d%10d' % ('total', sum(self.done.values()), sum(self.refused.values())))
        print()
        print('%-12s%-32s%10s' % ('edit', 'first cause of a refusal', 'refused'))
        for (word, cause), n in sorted(self.causes.items()):
            print('%-12s%-32s%10d' % (word, cause, n))
        print()
        print('%-44s%10s' % ('state behind an edit', 'edits'))
        for state, n in self.states.items():
            print('%-44s%10d' % (state, n))


def show_text(text):
    """Bytes as a terminal takes them."""
    return text.decode('utf-8', 'backslashreplace')


def show_difference(binary, lines):
    """The last edit of the smallest script, and what was to be written behind it and was."""
    before = len(expected(lines[:-1])) if lines[:-1] else 0
    out = run(binary, b'\n'.join(lines) + b'\n')
    print('smallest differing script, %d edits:' % len(lines))
    print(show_text(b'\n'.join(lines)))
    print('its last edit: %s' % show_text(lines[-1]))
    print('expected:\n%s' % show_text(expected(lines)[before:]))
    print('written:\n%s' % ('the program did not end as it should' if out is None else show_text(out[before:])))


def main():
    if len(sys.argv) not in (3, 4):
        sys.exit(__doc__)
    count, seed = int(sys.argv[1]), int(sys.argv[2])
    binary = sys.argv[3] if len(sys.argv) == 4 else 'crates/test_edited/out/test_edited'
    rand = random.Random(seed)
    tally = Tally()
    differing = []
    while tally.edits < count:
        script = Script(rand)
        text = script.write(min(count - tally.edits, rand.choice([20, 100, 400, 1000, 2000])))
        out = run(binary, text)
        if out != b''.join(written for _, _, written, _ in script.made):
            differing.append((script.made, out))
        tally.add(script.made)
    print('%d edits in %d scripts, seed %d' % (tally.edits, tally.scripts, seed))
    print()
    tally.print()
    print()
    print('differing scripts: %d of %d' % (len(differing), tally.scripts))
    if differing:
        found = [smallest(binary, made, out) for made, out in differing[:5]]
        show_difference(binary, min(found, key=len))
        sys.exit(1)


if __name__ == '__main__':
    main()

#!/usr/bin/env python3
"""What crates/test_replay has to write, worked out without any of its code.

  python3 tests/replay_expected.py < crates/test_replay/stdin > crates/test_replay/stdout

The form of a line and of an answer is that of crates/test_replay/src/main.rt.
"""
import os
import re
import sys

sys.dont_write_bytecode = True
sys.path.insert(0, os.path.join(os.path.dirname(os.path.abspath(__file__)), 'store'))

from reader import is_text

LONGEST = 1024


def decode(field):
    """The bytes of an argument, or None where it is malformed or has more than 4,096 bytes."""
    out = bytearray()
    while field:
        step = re.match(rb'[^\\]|\\[0-9a-f]{2}|\\\*[0-9]{4}', field, re.DOTALL)
        if not step:
            return None
        token = step.group()
        field = field[len(token):]
        if token.startswith(b'\\*'):
            count = int(token[2:])
            if not out or count == 0:
                return None
            out += out[-1:] * (count - 1)
        elif token.startswith(b'\\'):
            out.append(int(token[1:], 16))
        else:
            out += token
        if len(out) > 4096:
            return None
    return bytes(out)


def has_lengths(s):
    return len(s) <= LONGEST and max(len(piece) for piece in s.split(b'/')) <= 255


def pieces(s, text):
    """Where each name of the text stands, `..` among them: (text's label, from, to, name)."""
    at = 0
    for piece in s.split(b'/'):
        if piece not in (b'', b'.'):
            yield (text, at, at + len(piece), piece)
        at += len(piece) + 1


def walk(base, found):
    """The names found behind those of base; `..` drops one."""
    names = list(base)
    for place in found:
        if place[3] != b'..':
            names.append(place)
        elif names:
            names.pop()
    return names


def normal(s, label='path'):
    return walk([], pieces(s, label))


def absolute(base, path):
    return walk([] if path.startswith(b'/') else base, pieces(path, 'path'))


def body(names):
    return b''.join(b'/' + name for _, _, _, name in names)


def shown(s):
    if len(s) <= 64:
        return b'%d %s' % (len(s), s)
    total = 0
    for byte in s:
        total = (total * 257 + byte + 1) % 4294967291
    return b'%d %s..%s %08x' % (len(s), s[:16], s[-16:], total)


def formed(s):
    return b'6' if len(s) > LONGEST else b'0 ' + shown(s or b'/')


def last(cwd, path):
    names = absolute(normal(cwd, 'cwd'), path)
    text, start, end, name = names[-1] if names else ('none', 0, 0, b'')
    return b'0 %s %d %d %s' % (text.encode(), start, end, shown(name))


def link(directory, name, rest, target):
    base = normal(directory)
    if len(body(base)) > LONGEST:
        return b'6'
    if len(body(base) + b'/' + name + rest) > LONGEST:
        return b'?'
    return formed(body(absolute(base, target)) + rest)


WORDS = {
    b'text': (1, lambda s: b'0' if is_text(s) else b'2'),
    b'lengths': (1, lambda s: b'0' if has_lengths(s) else b'3'),
    b'norm': (1, lambda path: formed(body(normal(path)))),
    b'raw': (1, lambda path: formed(body(pieces(path, 'path')))),
    b'abs': (2, lambda cwd, path: formed(body(absolute(normal(cwd), path)))),
    b'last': (2, last),
    b'link': (4, link),
}


def answer(line):
    word, *fields = line.split(b' ')
    count, work = WORDS.get(word, (None, None))
    if len(line) > 4096 or len(fields) != count:
        return b'?'
    arguments = [decode(field) for field in fields]
    # the link's name and the rest share a buffer of 4,096 bytes
    if None in arguments or (word == b'link' and len(arguments[1] + arguments[2]) > 4095):
        return b'?'
    return work(*arguments)


def main():
    lines = sys.stdin.buffer.read().split(b'\n')
    if lines[-1] == b'':
        lines.pop()
    for number, line in enumerate(lines, 1):
        if not line.startswith(b'#'):
            sys.stdout.buffer.write(b'%d %s\n' % (number, answer(line)))


main()

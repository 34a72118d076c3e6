"""The job tree in Python: every call of docs/SCOPE.md on plain dictionaries, written from that page and not from the definitions.

A call is a line: its word, its texts as `x` and hex, its numbers (tests/model/driver/main.rs has the same). perform() answers one
and changes the state only where it is accepted. A leading @A,B gives the lengths of the working buffers."""

LONGEST, LONGEST_NAME, MOST_LINKS = 1024, 255, 40
DIR, FILE, LINK = "d", "f", "l"


class Refused(Exception):
    def __init__(self, number):
        self.number = number


def need(ok, number):
    if not ok:
        raise Refused(number)


class Meta:
    def __init__(self, mode, times):
        self.mode, self.times = mode, list(times)  # accessed, changed, created, modified


class Node:
    """A directory, a file or a link. data: the contents or the target."""

    def __init__(self, kind, meta, data=b""):
        self.kind, self.meta, self.data = kind, meta, data

    def stat(self):
        return [self.kind, len(self.data) if self.kind == FILE else 0, self.meta.mode, list(self.meta.times)]


class Open:
    def __init__(self, file, position, kept):
        self.file, self.position, self.kept = file, position, kept


# ---- paths: tuples of names

def pieces(text):
    return [p for p in text.split(b"/") if p not in (b"", b".")]


def normal(base, text):
    """The names of a text behind a directory; an absolute text starts at the root."""
    names = [] if text.startswith(b"/") else list(base)
    for p in pieces(text):
        if p == b"..":
            del names[-1:]
        else:
            names.append(p)
    return tuple(names)


def shown(path):
    return b"/" + b"/".join(path)


def is_text(s):
    try:
        s.decode("utf-8", "strict")
    except UnicodeDecodeError:
        return False
    return b"\0" not in s


def is_short(s):
    return len(s) <= LONGEST and all(len(p) <= LONGEST_NAME for p in s.split(b"/"))


class Tree:
    def __init__(self, most=512, room=32768):
        self.most, self.room = most, room
        self.nodes, self.opens = {}, {}
        self.here, self.mask = (), 0o666
        self.links = 0

    def copy(self):
        t = Tree(self.most, self.room)
        twins = {}

        def twin(n):
            if id(n) not in twins:
                twins[id(n)] = Node(n.kind, Meta(n.meta.mode, n.meta.times), n.data)
            return twins[id(n)]

        t.nodes = {p: twin(n) for p, n in self.nodes.items()}
        t.opens = {k: Open(twin(o.file), o.position, o.kept) for k, o in self.opens.items()}
        t.here, t.mask = self.here, self.mask
        return t

    def used(self):
        """Entries and bytes."""
        total = sum(len(p[-1]) if p else 0 for p in self.nodes)
        files = {id(n): n for n in list(self.nodes.values()) + [o.file for o in self.opens.values()]}
        return len(self.nodes), total + sum(len(n.data) for n in files.values())

    # ---- lookups

    def absolute(self, text):
        p = normal(self.here, text)
        need(len(shown(p)) <= LONGEST, 6)
        return p

    def follow(self, at, rest):
        """The path behind the link at a path."""
        p = normal(at[:-1], self.nodes[at].data) + tuple(rest)
        need(len(shown(p)) <= LONGEST, 6)
        self.links += 1
        return p

    def no_follow(self, p):
        """The path with its links before the last name replaced."""
        met = 0
        while True:
            link = None
            for k in range(len(p) + 1):
                n = self.nodes.get(p[:k])
                if n is None or k == len(p):
                    return p
                need(n.kind != FILE, 9)
                if n.kind == LINK:
                    link = k
                    break
            met += 1
            need(met <= MOST_LINKS, 7)
            p = self.follow(p[:link], p[link:])

    def lookup(self, p):
        chain, most = 0, sum(n.kind == LINK for n in self.nodes.values())
        while True:
            p = self.no_follow(p)
            n = self.nodes.get(p)
            if n is None or n.kind != LINK:
                return p, n
            chain += 1
            need(chain <= most, 7)
            p = self.follow(p, ())

    def found(self, p):
        p, n = self.lookup(p)
        need(n is not None, 8)
        return p, n

    def place(self, p):
        """Where a last name stands that is not followed."""
        need(p, 5)
        d, n = self.found(p[:-1])
        need(n.kind == DIR, 9)
        return d + p[-1:]

    def entries(self, p):
        return sorted(q for q in self.nodes if len(q) == len(p) + 1 and q[:-1] == p)

    def make_missing(self, p, time):
        for k in range(len(p) + 1):
            if p[:k] not in self.nodes:
                self.nodes[p[:k]] = Node(DIR, Meta(0o755, [time] * 4))

    def cut(self, p):
        for q in [q for q in self.nodes if q[:len(p)] == p]:
            del self.nodes[q]

    # ---- files by path

    def source(self, p):
        p, n = self.lookup(p)
        need(p, 5)
        need(n is not None, 8)
        need(n.kind == FILE, 10)
        return n.data

    def put(self, p, data, time):
        p, n = self.lookup(p)
        need(p, 5)
        if n is None:
            need(p[:-1] in self.nodes, 8)
            self.nodes[p] = Node(FILE, Meta(self.mask, [time] * 4), data)
        else:
            need(n.kind == FILE, 10)
            n.data = data
            n.meta.times[3] = time

    # ---- the calls: each gives its number, bytes and rows

    def canon(self, s, lent):
        need(s, 8)
        p, _ = self.found(self.absolute(s))
        need(len(shown(p)) <= lent, 14)
        return len(shown(p)), shown(p), []

    def cwd(self, s):
        need(s, 8)
        self.here, _ = self.found(self.absolute(s))

    def umask(self, mask):
        old, self.mask = self.mask, mask
        return old, b"", []

    def mkdir(self, s, time):
        p, n = self.lookup(self.absolute(s))
        need(n is None or n.kind == DIR, 9)
        self.make_missing(p, time)

    def open(self, s, number, flags, mode, time):
        p, n = self.lookup(self.absolute(s))
        need(p, 5)
        if n is None:
            need(p[:-1] in self.nodes, 8)
            need(flags & 1, 8)
            n = self.nodes[p] = Node(FILE, Meta(mode if flags & 16 else self.mask, [time] * 4))
        else:
            need(n.kind == FILE, 10)
            need(not flags & 2, 12)
            if flags & 4:
                n.data = b""
                n.meta.times[3] = time
        self.opens[number] = Open(n, len(n.data) if flags & 8 else 0, p)

    def read(self, s, lent):
        data = self.source(self.absolute(s))
        need(len(data) <= lent, 14)
        return len(data), data, []

    def write(self, s, data, time):
        self.put(self.absolute(s), data, time)

    def copy_(self, s, t, time):
        p, q = self.absolute(s), self.absolute(t)
        data = self.source(p)
        self.put(q, data, time)
        return len(data), b"", []

    def hard(self, s, t, time):
        p, q = self.absolute(s), self.absolute(t)
        _, n = self.found(p)
        need(n.kind == FILE, 10)
        self.put(q, n.data, time)

    def link(self, target, s, time):
        p = self.place(self.absolute(s))
        need(p not in self.nodes or self.nodes[p].kind != DIR, 12)
        self.nodes[p] = Node(LINK, Meta(0o777, [time] * 4), target)

    def rmfile(self, s):
        p = self.place(self.absolute(s))
        need(p in self.nodes, 8)
        need(self.nodes[p].kind == FILE, 10)
        self.cut(p)

    def rmdir(self, s):
        p = self.place(self.absolute(s))
        need(p in self.nodes, 8)
        need(self.nodes[p].kind == DIR, 10)
        need(not self.entries(p), 12)
        self.cut(p)

    def rmtree(self, s):
        p = self.place(self.absolute(s))
        if p in self.nodes:
            need(self.nodes[p].kind == DIR, 10)
            self.cut(p)

    def rename(self, s, t, time):
        p, q = self.absolute(s), self.absolute(t)
        if p == q:
            return
        need(p, 5)
        need(q, 5)
        _, n = self.found(p)
        need(n.kind != DIR or q[:len(p)] != p, 11)
        there, m = self.lookup(q)
        if m is not None:
            need((n.kind == DIR) == (m.kind == DIR), 10)
            need(m.kind != DIR or not self.entries(there), 12)
        counted = self.links
        old = self.place(p)
        moved = {r[len(old):]: self.nodes.pop(r) for r in list(self.nodes) if r[:len(old)] == old}
        d, _ = self.lookup(q[:-1])
        self.make_missing(d, time)
        self.cut(d + q[-1:])
        for r, n in moved.items():
            self.nodes[d + q[-1:] + r] = n
        self.links = counted

    def stat_row(self, n, rows):
        need(rows >= 1, 14)
        return 0, b"", [n.stat()]

    def meta(self, s, rows):
        return self.stat_row(self.found(self.absolute(s))[1], rows)

    def unfollowed(self, s):
        p = self.no_follow(self.absolute(s))
        need(p in self.nodes, 8)
        return self.nodes[p]

    def lmeta(self, s, rows):
        return self.stat_row(self.unfollowed(s), rows)

    def readlink(self, s, lent):
        n = self.unfollowed(s)
        need(n.kind == LINK, 10)
        need(len(n.data) <= lent, 14)
        return len(n.data), n.data, []

    def chmod(self, s, mode):
        self.found(self.absolute(s))[1].meta.mode = mode

    def utimes(self, s, first, second):
        need(s.startswith(b"/"), 8)
        self.found(tuple(pieces(s)))[1].meta.times = [first, first, first, second]

    def list(self, s, lent, rows):
        p, n = self.found(self.absolute(s))
        need(n.kind == DIR, 10)
        l = self.entries(p)
        names = b"".join(q[-1] + b"\0" for q in l)
        need(len(names) <= lent and len(l) <= rows, 14)
        return len(l), names, [self.nodes[q].stat() for q in l]

    def close(self, number):
        del self.opens[number]

    def readn(self, number, lent):
        o = self.opens[number]
        part = o.file.data[o.position:o.position + lent]
        o.position += len(part)
        return len(part), part, []

    def seek(self, number, origin, offset):
        o = self.opens[number]
        if origin == 0:
            k = offset
        elif origin == 1:
            k = (o.position + offset) % 2 ** 64
        else:
            k = len(o.file.data) + (offset if offset < 2 ** 63 else offset - 2 ** 64)
            need(0 <= k < 2 ** 63, 13)
        o.position = k
        return k, b"", []

    def setlen(self, number, size):
        f = self.opens[number].file
        need(self.used()[1] - len(f.data) + size <= self.room, 16)
        f.data = f.data[:size] + b"\0" * (size - len(f.data))

    def chmodn(self, number, mode):
        self.opens[number].file.meta.mode = mode

    def utimesn(self, number, given, accessed, modified):
        t = self.opens[number].file.meta.times
        if given & 1:
            t[0] = accessed
        if given & 2:
            t[3] = modified

    def metan(self, number, rows):
        return self.stat_row(self.found(self.opens[number].kept)[1], rows)


NO_WALK = ("umask", "close", "readn", "seek", "setlen", "chmodn", "utimesn")
BY_NUMBER = ("close", "readn", "seek", "setlen", "chmodn", "utimesn", "metan")


def screen(tree, word, texts, nums, work):
    """The first of 14 (working buffers), 2, 3, 4 that applies."""
    need(word in NO_WALK or min(work) >= LONGEST, 14)
    texts = texts[:1] if word == "write" else texts
    need(all(map(is_text, texts)), 2)
    need(all(map(is_short, texts)), 3)
    if word == "open":
        need(nums[0] <= 31 and nums[0] not in tree.opens, 4)
    if word in BY_NUMBER:
        need(nums[0] <= 31 and nums[0] in tree.opens, 4)


def perform(tree, line):
    """(what the call answers, the tree after it)."""
    fields = line.split(" ")
    work = [LONGEST, LONGEST]
    if fields[0].startswith("@"):
        work = list(map(int, fields.pop(0)[1:].split(",")))
    word = fields[0]
    texts = [bytes.fromhex(f[1:]) for f in fields[1:] if f.startswith("x")]
    nums = [int(f) for f in fields[1:] if not f.startswith("x")]
    after = tree.copy()
    try:
        screen(after, word, texts, nums, work)
        number, out, rows = getattr(after, "copy_" if word == "copy" else word)(*texts, *nums) or (0, b"", [])
        entries, total = after.used()
        need(entries <= after.most, 15)
        need(total <= after.room, 16)
    except Refused as e:
        return {"r": e.number, "number": 0, "out": "", "rows": [], "links": 0}, tree
    answer = {"r": 0, "number": number, "out": out.hex(), "rows": rows, "links": after.links}
    after.links = 0
    return answer, after


def state(tree):
    """As the driver prints a state, files told apart by their objects."""
    text = lambda p: b"".join(b"/" + x for x in p).hex()
    return {
        "tree": [[text(p), n.stat(), n.data.hex(), "%x" % id(n) if n.kind == FILE else ""] for p, n in sorted(tree.nodes.items())],
        "opens": [[k, o.position, shown(o.kept).hex(), "%x" % id(o.file), o.file.data.hex(), o.file.meta.mode, o.file.meta.times] for k, o in sorted(tree.opens.items())],
        "cwd": shown(tree.here).hex(), "mask": tree.mask}

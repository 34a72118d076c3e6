"""The model's side: jobs as antt, worked out by the checker.

agree(jobs, expected) asks the checker whether each job, from a fresh state, answers and leaves what is expected: one number holds
every result and a digest of the state after every call (Codes.antt), and `refl` says whether the model's is that number.
show(steps) lets the checker print what one call on a given state answers and leaves, to read back where they differ."""
import os
import re
import shutil
import subprocess

HERE = os.path.dirname(os.path.abspath(__file__))
ROOT = os.environ.get("MODEL_TREE", os.path.dirname(HERE))  # a tree with crates/model
PROOFS = ROOT + "/crates/model/proofs"

HEAD = """-- Jobs to be worked out (written by compare/model.py).
-- Assumes nothing.
use mathlib.Core.List.{List, [], ◌∷◌}
use mathlib.Core.Path.{◌≡◌, refl}
use lib.IntN.{pos, negsuc}
use Rattle.model.specs.Tree.{dir, file, link}
use Rattle.model.specs.Calls as Calls
use Rattle.model.specs.Calls.{State, fresh_state, Call}
use Rattle.model.proofs.Computing.{bytes, call, call_with}
use Rattle.model.proofs.Codes.{traced_number, answer_number, state_number}
"""

# word -> constructor of Op and its arguments: s the next text, n the next number, t the next number as a time
SHAPES = {
    "canon": ("canonicalize", "sn"), "cwd": ("set_current_dir", "s"), "umask": ("set_umask", "n"), "mkdir": ("create_dir", "st"),
    "open": ("open_file", "nsnnt"), "read": ("read_file", "sn"), "write": ("write_file", "sst"), "copy": ("copy_file", "sst"),
    "hard": ("hard_link", "sst"), "link": ("link_file", "sst"), "rmfile": ("remove_file", "s"), "rmdir": ("remove_dir", "s"),
    "rmtree": ("remove_tree", "s"), "rename": ("rename", "sst"), "meta": ("metadata", "sn"), "lmeta": ("symlink_metadata", "sn"),
    "readlink": ("read_link", "sn"), "chmod": ("set_permissions", "sn"), "utimes": ("set_times", "stt"), "list": ("list", "snn"),
    "close": ("close_number", "n"), "readn": ("read_number", "nn"), "seek": ("seek_number", "nnn"), "setlen": ("set_length", "nn"),
    "chmodn": ("set_mode_number", "nn"), "utimesn": ("set_times_number", "nntt"), "metan": ("metadata_number", "nn"),
}


def text(b):
    if not b:
        return "[]"
    if all(32 <= c < 127 and c not in b'"\\' for c in b):
        return '(bytes "%s")' % b.decode()
    return "(" + " ∷ ".join(map(str, b)) + " ∷ [])"


def time(n):
    return "(pos %d)" % n if n >= 0 else "(negsuc %d)" % (-n - 1)


def call(line):
    """The antt form of a call line; a leading @A,B gives the lengths of the working buffers, which else have the least."""
    fields = line.split(" ")
    make = "call"
    if fields[0].startswith("@"):
        make = "call_with (record { first = %s; second = %s })" % tuple(fields.pop(0)[1:].split(","))
    texts = [bytes.fromhex(f[1:]) for f in fields[1:] if f.startswith("x")]
    nums = [int(f) for f in fields[1:] if not f.startswith("x")]
    name, shape = SHAPES[fields[0]]
    args = []
    for c in shape:
        args.append(text(texts.pop(0)) if c == "s" else str(nums.pop(0)) if c == "n" else time(nums.pop(0)))
    assert not texts and not nums, line
    return "%s (Calls.%s %s)" % (make, name, " ".join(args))


# ---- what is expected, packed as Codes.antt does

PRIME = 2 ** 61 - 1


def num(n):
    return [n] if n < 980 else [999] + [n // 1000 ** k % 1000 for k in (6, 5, 4, 3, 2, 1, 0)]


def bytes_code(b):
    if len(b) < 24:
        return num(len(b)) + list(b)
    runs = []
    for c in reversed(b):
        if runs and runs[0][0] == c and runs[0][1] < 900:
            runs[0][1] += 1
        else:
            runs.insert(0, [c, 1])
    return [998] + num(2 * len(runs)) + [x for r in runs for x in r]


def path_code(p):
    names = [x.encode() for x in p.split("/") if x]
    return num(len(names)) + [x for n in names for x in bytes_code(n)]


def meta_code(mode, times):
    return num(mode) + [x for t in times for x in ([0] + num(t) if t >= 0 else [1] + num(-t - 1))]


def stat_code(s):
    return ["dfl".index(s[0])] + num(s[1]) + meta_code(s[2], s[3])


def result_code(r):
    if r["r"]:
        return num(r["r"])
    out = bytes.fromhex(r["out"])
    return [0] + num(r["number"]) + bytes_code(out) + num(len(r["rows"])) + [x for s in r["rows"] for x in stat_code(s)] + num(r["links"])


def digest(a, code):
    for n in code:
        a = (a * 1009 + n + 1) % PRIME
    return a


def state_digest(s):
    """s: as seen() gives it"""
    total, files = 0, 0
    for path, st, data in s["tree"]:
        code = path_code(path) + ["dfl".index(st[0])] + meta_code(st[2], st[3])
        if st[0] != "d":
            code += bytes_code(bytes.fromhex(data))
        files += st[0] == "f"
        total += digest(7, code)
    removed = set()
    for n, pos, kept, at, data, mode, times in s["opens"]:
        code = num(n) + num(pos) + path_code(kept) + meta_code(mode, times) + bytes_code(bytes.fromhex(data))
        if isinstance(at, str):
            code += path_code(at)
            sharing = [o[0] for o in s["opens"] if o[3] == at]
        else:
            code += [976]
            sharing = at[1]
            removed.add(tuple(sharing))
        total += digest(11, code + num(sum(2 ** k for k in sharing)))
    total += digest(13, path_code(s["cwd"]) + num(s["mask"]) + num(len(s["tree"])) + num(files + len(removed)))
    total %= PRIME
    return [total // 1000 ** k % 1000 for k in (6, 5, 4, 3, 2, 1, 0)]


def packed(code):
    assert all(0 <= n < 1000 for n in code)
    return "1" + "".join("%03d" % n for n in code)


def job_text(name, label, lines):
    return "-- %s\nabbrev j%s : List Call\nj%s =\n    %s[]\n" % (label, name, name, "".join(call(l) + " ∷\n    " for l in lines))


def checked(source):
    """What the checker prints of the file, which stands in proofs/ with Codes.antt for that run only."""
    lib = open(PROOFS + "/Lib.antt").read()
    try:
        with open(PROOFS + "/Check.antt", "w") as f:
            f.write(source)
        shutil.copy(HERE + "/Codes.antt", PROOFS)
        with open(PROOFS + "/Lib.antt", "w") as f:
            f.write(lib + "pub mod Codes\npub mod Check\n")
        run = subprocess.run(["rt", "check"], cwd=ROOT + "/crates/model", stdout=subprocess.PIPE, stderr=subprocess.STDOUT)
    finally:
        with open(PROOFS + "/Lib.antt", "w") as f:
            f.write(lib)
        for name in ("Check", "Codes"):
            os.remove(PROOFS + "/%s.antt" % name)
    out = run.stdout.decode()
    os.makedirs(ROOT + "/compare/out", exist_ok=True)
    with open(ROOT + "/compare/out/last-check.txt", "w") as f:
        f.write(out)
    return out


def statement(i, job, pairs, wrong=False):
    """That job number i gives these (result, state) pairs; without states, these results. A wrong one has another last digit."""
    name, most, room, lines = job
    told = "answer_number" if pairs[0][1] is None else "traced_number"
    number = packed([x for r, s in pairs for x in result_code(r) + ([] if s is None else state_digest(s))])
    own = "t999999" if wrong else "t%d" % i
    if wrong:
        number = number[:-1] + str((int(number[-1]) + 1) % 10)
    return "%s : %s j%d (fresh_state %d %d) ≡ %s\nunfolding %s\n%s = refl\n" % (own, told, i, most, room, number, told, own)


def agree(jobs, expected):
    """jobs: (name, most, room, call lines); expected: for each its (result, state) pairs. Gives the indices of those that differ."""
    text = [HEAD]
    for i, job in enumerate(jobs):
        text += [job_text(i, job[0], job[3]), statement(i, job, expected[i])]
    # a last one that must be refused
    text.append(statement(0, jobs[0], expected[0], wrong=True))
    return refused(checked("\n".join(text)))


def refused(out):
    """The indices i of the statements `ti` that the checker refused. The last one, which has to be, is not among them."""
    assert "logic=not-proved" in out, out[-2000:]
    failed = set()
    for e in re.findall(r"Check\.antt:\d+:\d+: (.*)", out):
        m = re.match(r"error: `t(\d+)`: ", e)
        assert m, e
        failed.add(int(m.group(1)))
    assert 999999 in failed, "the wrong number was not refused"
    return failed - {999999}


def state_text(s, most, room):
    """A state, as seen() gives it, as antt."""
    path = lambda p: "(" + "".join(text(x.encode()) + " ∷ " for x in p.split("/") if x) + "[])"
    meta = lambda mode, t: "(record { mode = %d; accessed = %s; changed = %s; created = %s; modified = %s })" % (mode, *(time(x)[1:-1] for x in t))
    tree, files, opens, ids = [], [], [], {}

    def file(key, mode, times, data):
        ids[key] = len(files)
        files.append("(%d, record { meta = %s; bytes = %s })" % (len(files), meta(mode, times), text(bytes.fromhex(data))))

    for p, st, data in s["tree"]:
        if st[0] == "f":
            file(p, st[2], st[3], data)
            node = "file %d" % ids[p]
        else:
            node = "dir %s" % meta(st[2], st[3]) if st[0] == "d" else "link %s %s" % (meta(st[2], st[3]), text(bytes.fromhex(data)))
        tree.append("(%s, %s)" % (path(p), node))
    for n, pos, kept, at, data, mode, times in s["opens"]:
        at = at if isinstance(at, str) else tuple(at[1])
        if at not in ids:
            file(at, mode, times, data)
        opens.append("(record { num = %d; id = %d; pos = %d; kept = %s })" % (n, ids[at], pos, path(kept)))
    seq = lambda l: "(" + "".join(x + " ∷ " for x in l) + "[])"
    return "(record { tree = %s; files = %s; opens = %s; here = %s; mask = %d; most = %d; room = %d })" % (
        seq(tree), seq(files), seq(opens), path(s["cwd"]), s["mask"], most, room)


EMPTY = {"tree": [], "opens": [], "cwd": "/", "mask": 0o666}


def show(steps):
    """steps: (state before, most, room, call line). Gives (result, state after) of each, or a text where it is not shown."""
    source = [HEAD]
    for i, (s, most, room, line) in enumerate(steps):
        source.append(job_text(i, "step", [line]))
        source.append("abbrev b%d : State\nb%d = %s\n" % (i, i, state_text(s, most, room)))
        for k, f in (("a", "answer_number"), ("s", "state_number")):
            source.append("%s%d : %s j%d b%d ≡ 0\nunfolding %s\n%s%d = ?\n" % (k, i, f, i, i, f, k, i))
    out = checked("\n".join(source))
    found = {}
    for m in re.finditer(r"goal \? in `([as]\d+)`\n(.*?)(?=\n\S|\Z)", out, re.S):
        goal = " ".join(m.group(2).split())
        # where the number took many steps, the checker does not go on to print the 0 behind it
        n = re.search(r"ℕ\}? (1\d*) (?:0\b|…\[not reached\])", goal)
        found[m.group(1)] = Reader(n.group(1)) if n else goal[-200:]
    done = []
    for i in range(len(steps)):
        a, s = found["a%d" % i], found["s%d" % i]
        done.append((a if isinstance(a, str) else a.result(), s if isinstance(s, str) else s.state()[0]))
    return done


# ---- what the checker prints, read back

class Reader:
    """Reads back what Codes.antt packs."""

    def __init__(self, digits):
        assert digits[0] == "1" and len(digits) % 3 == 1, digits
        self.g = [int(digits[k:k + 3]) for k in range(1, len(digits), 3)]
        self.i = 0

    def one(self):
        self.i += 1
        return self.g[self.i - 1]

    def num(self):
        n = self.one()
        assert n < 980 or n == 999, n
        if n == 999:
            n = 0
            for _ in range(7):
                n = 1000 * n + self.one()
        return n

    def bytes(self):
        if self.g[self.i] == 998:
            self.i += 1
            n = self.num()
            return b"".join(bytes([self.one()]) * self.one() for _ in range(n // 2))
        return bytes(self.one() for _ in range(self.num()))

    def path(self):
        """A slash before each name; the root is empty."""
        return "".join("/" + self.bytes().decode() for _ in range(self.num()))

    def time(self):
        return -self.num() - 1 if self.one() else self.num()

    def meta(self):
        mode = self.num()
        return mode, [self.time() for _ in range(4)]

    def stat(self):
        kind = "dfl"[self.one()]
        size = self.num()
        mode, times = self.meta()
        return [kind, size, mode, times]

    def result(self):
        r = self.num()
        if r:
            return {"r": r, "number": 0, "out": "", "rows": [], "links": 0}
        number, out = self.num(), self.bytes().hex()
        rows = [self.stat() for _ in range(self.num())]
        return {"r": 0, "number": number, "out": out, "rows": rows, "links": self.num()}

    def state(self):
        nodes = []
        for _ in range(self.num()):
            path, kind = self.path(), self.one()
            nodes.append((path, kind, self.num() if kind == 1 else (*self.meta(), self.bytes() if kind == 2 else b"")))
        files = {}
        for _ in range(self.num()):
            i = self.num()
            assert i not in files, "one number, two files"
            files[i] = (*self.meta(), self.bytes())
        tree, where = [], {}
        for path, kind, v in nodes:
            if kind == 1:
                assert v not in where, "one file, two names"
                where[v] = path
                mode, times, data = files[v]
                tree.append([path, ["f", len(data), mode, times], data.hex(), v])
            else:
                tree.append([path, ["dfl"[kind], 0, v[0], v[1]], v[2].hex(), None])
        opens = []
        for _ in range(self.num()):
            n, i, pos, kept = self.num(), self.num(), self.num(), self.path()
            opens.append([n, pos, kept or "/", i, files[i][2].hex(), files[i][0], files[i][1]])
        assert set(files) == set(where) | {o[3] for o in opens}, "a file that nobody has"
        s = seen(tree, opens, self.path() or "/", self.num())
        return s, self.num(), self.num()

    def end(self):
        assert self.i == len(self.g)


def seen(tree, opens, cwd, mask):
    """A state without its file numbers: each open number is told the path of its file, or by which numbers share the removed one."""
    where = {e[3]: e[0] for e in tree if e[3] is not None and e[3] != ""}
    paths = [e[0] for e in tree]
    assert len(set(paths)) == len(paths), "a path stands twice"
    shown = []
    for o in sorted(opens):
        at = where.get(o[3]) or ["removed", sorted(p[0] for p in opens if p[3] == o[3])]
        shown.append([o[0], o[1], o[2], at, o[4], o[5], o[6]])
    return {"tree": sorted(e[:3] for e in tree), "opens": shown, "cwd": cwd, "mask": mask}

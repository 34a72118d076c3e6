#!/usr/bin/env python3
"""Cases written by hand from 01 and docs/DECISIONS.md: each call with the refusal or the answer that these pages say.

cases.py asks the checker whether the model answers so (`refl`), and for every case without short working buffers also runs the
counted copy of the Rust (with what the driver adds: 2, 3, 4, 6, 14, 15, 16) and compares its answers with these. The states are compared by compare.py."""
import os
import subprocess
import sys

import compare
import model


def b(s):
    return s.encode() if isinstance(s, str) else s


def line(op, texts, nums, work=None):
    return " ".join(([work] if work else []) + [op] + ["x" + b(t).hex() for t in texts] + [str(n) for n in nums])


def canon(p, lent=2000, work=None): return line("canon", [p], [lent], work)
def cwd(p): return line("cwd", [p], [])
def umask(m): return line("umask", [], [m])
def mkdir(p, t=0): return line("mkdir", [p], [t])
def open_(n, p, flags=0, mode=0, t=0): return line("open", [p], [n, flags, mode, t])
def read(p, lent=2000): return line("read", [p], [lent])
def write(p, d, t=0): return line("write", [p, d], [t])
def copy(p, q, t=0): return line("copy", [p, q], [t])
def hard(p, q, t=0): return line("hard", [p, q], [t])
def link(target, p, t=0): return line("link", [target, p], [t])
def rmfile(p): return line("rmfile", [p], [])
def rmdir(p): return line("rmdir", [p], [])
def rmtree(p): return line("rmtree", [p], [])
def rename(p, q, t=0): return line("rename", [p, q], [t])
def meta(p, lent=1): return line("meta", [p], [lent])
def lmeta(p, lent=1): return line("lmeta", [p], [lent])
def readlink(p, lent=2000): return line("readlink", [p], [lent])
def chmod(p, m): return line("chmod", [p], [m])
def utimes(p, a, m): return line("utimes", [p], [a, m])
def list_(p, lent=2000, rows=100): return line("list", [p], [lent, rows])
def close(n): return line("close", [], [n])
def readn(n, lent): return line("readn", [], [n, lent])
def seek(n, origin, offset): return line("seek", [], [n, origin, offset % 2 ** 64])
def setlen(n, k): return line("setlen", [], [n, k])
def utimesn(n, f, a, m): return line("utimesn", [], [n, f, a, m])
def metan(n, lent=1, work=None): return line("metan", [], [n, lent], work)


def ok(links=0, number=0, out=b"", rows=()):
    out = b(out)
    return {"r": 0, "number": number or len(out), "out": out.hex(), "rows": list(rows), "links": links}


def names(*l, rows, links=0):
    return {"r": 0, "number": len(l), "out": b"".join(b(n) + b"\0" for n in l).hex(), "rows": list(rows), "links": links}


def stat(kind, size, mode, t=0):
    return [kind, size, mode, t if isinstance(t, list) else [t] * 4]


D, F, L = stat("d", 0, 0o755), lambda n, t=0: stat("f", n, 0o666, t), stat("l", 0, 0o777)
OK = ok()
BIG = (512, 32768)
N = lambda k, c="n": c * k
START, CURRENT, END = 0, 1, 2

CASES = []


def case(name, *steps, limits=BIG):
    CASES.append((name, limits[0], limits[1], [s for s, _ in steps], [{"r": e, "number": 0, "out": "", "rows": [], "links": 0} if isinstance(e, int) else e for _, e in steps]))


# ---- 14 of the working buffers, before 2
case("w14", (mkdir("/"), OK), (canon("/", work="@1023,1024"), 14), (canon("/", work="@1024,1023"), 14), (canon(b"/\xff", work="@1023,1024"), 14),
     (canon("/", work="@1024,1024"), ok(out="/")), (canon("/", work="@5000,1024"), ok(out="/")), (metan(7, work="@0,0"), 14), (metan(7), 4))
WALKS = [canon("/"), cwd("/"), mkdir("/"), open_(0, "/f"), read("/f"), write("/f", "x"), copy("/f", "/g"), hard("/f", "/g"), link("t", "/l"), rmfile("/f"), rmdir("/d"), rmtree("/d"), rename("/f", "/g"), meta("/"), lmeta("/"),
         readlink("/l"), chmod("/f", 1), utimes("/f", 1, 1), list_("/"), metan(0)]
NONE = [(umask(1), ok(number=0o666)), (readn(1, 9), ok(out="x")), (seek(1, START, 0), OK), (setlen(1, 2), OK), (line("chmodn", [], [1, 7]), OK), (utimesn(1, 3, 4, 5), OK), (close(1), OK), (close(1), 4)]
case("w14: each call that walks a path, and no other", (mkdir("/"), OK), (write("/f", "x"), OK), (open_(1, "/f"), OK), *((w + l, 14) for l in WALKS for w in ("@1023,1024 ", "@1024,0 ")), *(("@0,0 " + l, e) for l, e in NONE))

# ---- 2
BAD = [b"\0", b"\xff", b"\xc0\x80", b"\xc1\xbf", b"\xe0\x9f\x80", b"\xed\xa0\x80", b"\xf0\x8f\x80\x80", b"\xf4\x90\x80\x80", b"\xf5\x80\x80\x80", b"\xe2\x82", b"\x80", b"a\0b"]
GOOD = [b"\xc2\x80", b"\xdf\xbf", b"\xe0\xa0\x80", b"\xed\x9f\xbf", b"\xee\x80\x80", b"\xef\xbf\xbf", b"\xf0\x90\x80\x80", b"\xf4\x8f\xbf\xbf", b"\x01", b"\x7f"]
case("2: bad texts", (mkdir("/"), OK), *((canon(b"/" + x), 2) for x in BAD), *((canon(b"/" + x), 8) for x in GOOD))
case("2: second text, target; not data", (mkdir("/"), OK), (link(b"\xff", "/l"), 2), (link("t", b"/\xff"), 2), (rename("/a", b"/\xff"), 2), (copy("/a", b"\xff"), 2),
     (hard("/a", b"\xff"), 2), (write("/f", b"\xff\0"), OK), (read("/f"), ok(out=b"\xff\0")), (open_(99, b"\xff"), 2), (rename("/zz", "/zz"), OK), (rename(b"\xff", b"\xff"), 2))
case("2 before 3, on all texts first", (mkdir("/"), OK), (canon(b"/\xff" + b"n" * 1100), 2), (link("n" * 300, b"/\xff"), 2), (rename("n" * 256, b"\xff"), 2))

# ---- 3
FULL = "/" + "/".join([N(255), N(255), N(255), N(255)])  # 1,024 bytes
assert len(FULL) == 1024
case("3: names of 255 and 256", (mkdir("/"), OK), (canon("/" + N(255)), 8), (canon("/" + N(256)), 3), (canon("/" + N(256) + "/../"), 3), (mkdir("/" + N(255)), OK),
     (canon(N(255)), ok(out="/" + N(255))), (link(N(256), "/l"), 3), (link("/a/" + N(256) + "/..", "/l"), 3), (link(N(255), "/l"), OK), (rename("/a", N(256)), 3), (open_(99, N(256)), 3))
case("3: current directory", (mkdir("/" + N(255)), OK), (cwd("/" + N(256)), 3), (cwd(FULL + "/"), 3), (cwd(N(255) + "/" + N(256) + "/.."), 3), (canon("."), ok(out="/")), (cwd(N(255)), OK), (canon("."), ok(out="/" + N(255))))
case("3: paths of 1,024 and 1,025", (mkdir("/"), OK), (canon(FULL), 8), (canon(FULL + "/"), 3), (mkdir(FULL), OK), (canon(FULL), ok(out=FULL)), (canon("/" * 1024), ok(out="/")), (canon("/" * 1025), 3),
     (link(FULL, "/l"), OK), (link(FULL + "/", "/l"), 3), (readlink("/l"), ok(out=FULL)), (readlink("/l", 1023), 14), (canon("/l"), ok(1, out=FULL)), (canon("/l", 1023), 14), (canon("/l/a"), 6), (canon("/l/."), ok(1, out=FULL)))

# ---- 4
case("4", (mkdir("/"), OK), (open_(32, "/f", 1), 4), (open_(31, "/f", 1), OK), (open_(31, "/f", 1), 4), (open_(99, "/"), 4), (open_(31, "/"), 4), (open_(0, "/"), 5), (close(32), 4), (close(0), 4),
     (readn(0, 9), 4), (seek(0, START, 0), 4), (setlen(0, 1), 4), (line("chmodn", [], [0, 1]), 4), (utimesn(0, 3, 1, 1), 4), (metan(0), 4), (metan(32), 4), (close(31), OK), (close(31), 4), (open_(31, "/f"), OK))

# ---- 5
case("5", (mkdir("/"), OK), (open_(0, "/", 1), 5), (read("/"), 5), (write("/", "x"), 5), (copy("/", "/x"), 5), (write("/f", "x"), OK), (copy("/f", "/"), 5), (copy("/f", "."), 5), (hard("/f", "/"), 5), (hard("/", "/x"), 10),
     (link("t", "/"), 5), (rmfile("/"), 5), (rmdir("/."), 5), (rmtree("/a/.."), 5), (rename("/", "/x"), 5), (rename("/f", "/"), 5), (rename("/", "/"), OK), (link("/", "/r"), OK), (open_(0, "/r"), 5), (write("/r", "x"), 5),
     (read("/r"), 5), (hard("/r", "/x"), 10), (hard("/f", "/r"), 5), (link("loop", "/loop"), OK), (open_(0, "/loop"), 7))
case("5 and 8 on a fresh tree", (open_(0, "/", 1), 5), (read("/"), 5), (write("/", "x"), 5), (hard("/", "/x"), 8), (rename("/", "/."), OK), (rename("/q", "/"), 5), (rename("/", "/q"), 5), (rename("/a", "/b"), 8), (meta("/"), 8),
     (meta(""), 8), (list_("/"), 8), (rmtree("/a"), 8), (rmtree("/"), 5), (link("t", "/a"), 8), (open_(0, "/a", 1), 8), (cwd("/"), 8), (utimes("/", 1, 1), 8), (mkdir("/"), OK), (meta("/"), ok(rows=[D])), (mkdir("/"), OK))

# ---- 6
DEEP = "/" + "/".join([N(249), N(249), N(249), N(249)])  # 1,000 bytes
assert len(DEEP) == 1000
case("6: made absolute", (mkdir(DEEP), OK), (cwd(DEEP), OK), (canon(N(23)), 8), (canon(N(24)), 6), (canon(N(200) + "/../" + N(23)), 8), (canon(N(200) + "/../../" + N(23)), 8), (canon(""), 8), (meta(""), ok(rows=[D])),
     (mkdir(N(24)), 6), (mkdir(N(23)), OK), (cwd(N(23)), OK), (canon("."), ok(out=DEEP + "/" + N(23))), (canon("a"), 6), (cwd("a"), 6), (canon(".."), ok(out=DEEP)), (meta(""), ok(rows=[D])), (rename("a", "/"), 6), (rename("/", "a"), 6), (rename("a", "a"), 6),
     (copy("/none", "a"), 6), (copy("a", "/none"), 6), (hard("/none", "a"), 6), (link("t", "a"), 6), (rmtree("a"), 6), (open_(0, "a"), 6), (open_(32, "a"), 4), (list_("a"), 6), (readlink("a"), 6), (lmeta("a"), 6), (chmod("a", 1), 6),
     (utimes("a", 1, 1), 8), (read("a"), 6), (write("a", ""), 6), (rmfile("a"), 6), (rmdir("a"), 6), (rmdir("."), OK), (canon(".."), ok(out=DEEP)), (meta(""), 8))
case("6: link on the way", (mkdir(DEEP), OK), (link(DEEP, "/l"), OK), (canon("/l/" + N(23)), 8), (canon("/l/" + N(24)), 6), (canon("/l/x/" + N(24)), 6), (open_(0, "/l/" + N(24), 1), 6), (write("/l/" + N(23), "x"), ok(1)),
     (canon("/l/" + N(23)), ok(1, out=DEEP + "/" + N(23))), (canon("/l/" + N(23) + "/x"), 6), (link("/none" + DEEP, "/m"), OK), (canon("/m/" + N(20)), 6), (canon("/m/" + N(18)), 8), (rmfile("/l/" + N(23)), ok(1)))
case("6: last link", (mkdir(DEEP), OK), (link(N(24), DEEP + "/l"), OK), (meta(DEEP + "/l"), 6), (lmeta(DEEP + "/l"), ok(rows=[L])), (readlink(DEEP + "/l"), ok(out=N(24))), (open_(0, DEEP + "/l", 1), 6), (mkdir(DEEP + "/l"), 6),
     (rename(DEEP + "/l", "/x"), 6), (link(N(23), DEEP + "/l"), OK), (meta(DEEP + "/l"), 8), (mkdir(DEEP + "/l"), ok(1)), (canon(DEEP + "/l"), ok(1, out=DEEP + "/" + N(23))), (link(N(200) + "/../" + N(24), DEEP + "/k"), OK), (canon(DEEP + "/k"), 6),
     (link(N(200) + "/../" + N(23), DEEP + "/k"), OK), (canon(DEEP + "/k"), ok(1, out=DEEP + "/" + N(23))), (rename("/y", DEEP + "/l"), 8), (write("/y", ""), OK), (link(N(24), DEEP + "/j"), OK), (rename("/y", DEEP + "/j"), 6))
case("6: the path kept at open", (mkdir(DEEP), OK), (mkdir("/a"), OK), (write("/a/" + N(23), "x"), OK), (write("/a/" + N(24), "y"), OK), (open_(0, "/a/" + N(23)), OK), (open_(1, "/a/" + N(24)), OK), (rename("/a", "/z"), OK), (metan(1), 8),
     (link(DEEP, "/a"), OK), (metan(0), 8), (metan(1), 6), (readn(1, 9), ok(out="y")), (write("/a/" + N(23), "12", 3), ok(1)), (metan(0), ok(1, rows=[F(2, 3)])), (metan(1, 0), 6), (metan(0, 0), 14))
case("6: set times' raw ..", (mkdir(DEEP), OK), (link(DEEP, "/l"), OK), (utimes("/l" + "/.." * 8, 1, 1), 8), (utimes("/l" + "/.." * 9, 1, 1), 6), (utimes("/l" + "/../." * 8 + "//", 1, 1), 8), (canon("/l" + "/.." * 9), ok(out="/")), (utimes("/l", 1, 2), ok(1)),
     (meta(DEEP), ok(rows=[stat("d", 0, 0o755, [1, 1, 1, 2])])))
case("6: deeper than a path can say", (mkdir("/a/" + N(255) + "/" + N(255) + "/" + N(255)), OK), (mkdir("/b/" + N(255, "m") + "/" + N(255, "m")), OK), (write("/a/" + N(255) + "/" + N(255) + "/" + N(255) + "/f", "x"), OK),
     (rename("/a", "/b/" + N(255, "m") + "/" + N(255, "m") + "/a"), OK), (cwd("/b/" + N(255, "m") + "/" + N(255, "m") + "/a/" + N(255)), OK), (list_("."), names(N(255), rows=[D])), (list_(N(255)), 6), (rmtree("/b"), OK), (meta("."), 8), (list_("/"), names(rows=[])))

# ---- 7
LINE = [link(".", "/l%d" % k) for k in range(1, 42)]
ways = lambda k: "".join("/l%d" % i for i in range(1, k + 1))
case("7: 40 in line found, 41 refused", (mkdir("/"), OK), (write("/f", "x"), OK), *((l, OK) for l in LINE), (canon(ways(40) + "/f"), ok(40, out="/f")), (canon(ways(41) + "/f"), 7), (canon(ways(41)), ok(41, out="/")), (canon(ways(41) + "/none"), 7),
     (canon(ways(40) + "/none"), 8), (lmeta(ways(40) + "/l1"), ok(40, rows=[L])), (lmeta(ways(41) + "/l1"), 7), (canon(ways(40) + "/l1"), ok(41, out="/")), (utimes(ways(40) + "/..", 1, 1), 8), (utimes(ways(41) + "/..", 1, 1), 7))
case("7: the same 41 as a chain found", (mkdir("/"), OK), (write("/f", "x"), OK), *((link("l%d" % (k + 1) if k < 41 else "f", "/l%d" % k), OK) for k in range(1, 42)), (canon("/l1"), ok(41, out="/f")), (link("l1", "/f"), OK), (canon("/l1"), 7),
     (canon("/f"), 7), (write("/l1", "x"), 7), (readlink("/l1"), ok(out="l2")), (rename("/l1", "/x"), 7), (rmtree("/f"), 10))
case("7: the count begins again at a last link", (mkdir("/"), OK), (write("/f", "x"), OK), (link(".", "/l"), OK), (link("/l" * 40 + "/f", "/m"), OK), (canon("/l" * 40 + "/m"), ok(81, out="/f")), (copy("/l" * 40 + "/m", "/l/g"), ok(82, number=1)),
     (hard("/m", "/m"), ok(82)), (rename("/l" * 40 + "/m", "/l" * 40 + "/n"), ok(121)), (readlink("/n"), ok(out="/l" * 40 + "/f")))
case("7 before 6 at the 41st", (mkdir(DEEP), OK), (link(".", "/l"), OK), (link(DEEP, "/d"), OK), (canon("/l" * 40 + "/d/" + N(24)), 7), (canon("/l" * 39 + "/d/" + N(24)), 6), (canon("/l" * 39 + "/d/" + N(23)), 8))
case("7: loops", (mkdir("/d"), OK), (link("b", "/a"), OK), (link("/a", "/b"), OK), (canon("/a"), 7), (canon("/a/x"), 7), (link("s/s", "/s"), OK), (canon("/s"), 7), (canon("/s/s"), 7), (link("../d/k", "/d/k"), OK), (canon("/d/k"), 7), (mkdir("/a"), 7), (mkdir("/a/b"), 7),
     (open_(0, "/a", 1), 7), (cwd("/a"), 7), (utimes("/a", 1, 1), 7), (rmfile("/a"), 10), (rmfile("/a/x"), 7), (rename("/d", "/a"), 7), (rename("/a", "/d"), 7), (link("x", "/a"), OK), (canon("/b"), 8))

# ---- 13, seeks
case("13", (mkdir("/"), OK), (write("/f", "12345"), OK), (open_(0, "/f"), OK), (seek(0, END, -5), ok()), (seek(0, END, -6), 13), (seek(0, END, 0), ok(number=5)), (seek(0, END, -2 ** 63), 13), (seek(0, CURRENT, 0), ok(number=5)),
     (seek(0, END, 2 ** 63 - 6), ok(number=2 ** 63 - 1)), (readn(0, 5), ok()), (seek(0, END, 2 ** 63 - 5), 13), (seek(0, END, 2 ** 63 - 1), 13), (setlen(0, 0), OK), (seek(0, END, 2 ** 63 - 1), ok(number=2 ** 63 - 1)), (seek(0, END, -1), 13),
     (seek(0, START, 2 ** 64 - 1), ok(number=2 ** 64 - 1)), (readn(0, 5), ok()), (seek(0, CURRENT, 1), ok()), (seek(0, CURRENT, -1), ok(number=2 ** 64 - 1)), (seek(0, CURRENT, -2 ** 63), ok(number=2 ** 63 - 1)), (seek(0, CURRENT, 2 ** 63 - 1), ok(number=2 ** 64 - 2)),
     (seek(0, CURRENT, 3), ok(number=1)), (setlen(0, 3), OK), (readn(0, 9), ok(out=b"\0\0")), (readn(0, 9), ok()), (seek(0, END, 4), ok(number=7)), (readn(0, 1), ok()), (setlen(0, 9), OK), (readn(0, 1), ok(out=b"\0")), (readn(0, 0), ok()))

# ---- 14 of the output buffers
case("o14", (mkdir("/d"), OK), (write("/d/f", "12345"), OK), (link("../d", "/d/l"), OK), (canon("/d/l/f", 4), ok(1, out="/d/f")), (canon("/d/l/f", 3), 14), (canon("/no", 0), 8), (read("/d/f", 5), ok(out="12345")), (read("/d/f", 4), 14), (read("/d", 0), 10),
     (write("/d/e", ""), OK), (read("/d/e", 0), ok()), (readlink("/d/l", 4), ok(out="../d")), (readlink("/d/l", 3), 14), (readlink("/d/f", 0), 10), (meta("/d", 0), 14), (meta("/d/x", 0), 8), (lmeta("/d/l", 0), 14), (lmeta("/d/l", 1), ok(rows=[L])),
     (list_("/d", 6, 3), names("e", "f", "l", rows=[F(0), F(5), L])), (list_("/d", 5, 3), 14), (list_("/d", 6, 2), 14), (list_("/d/f", 0, 0), 10), (mkdir("/e"), OK), (list_("/e", 0, 0), names(rows=[])), (open_(3, "/d/f"), OK), (metan(3, 0), 14), (metan(3, 1), ok(rows=[F(5)])),
     (canon("/", 0), 14), (canon("/", 1), ok(out="/")), (readn(3, 2), ok(out="12")))

# ---- 15
case("15: at the limit and over", (mkdir("/a"), OK), (write("/f", "x"), OK), (write("/g", "x"), 15), (mkdir("/x"), 15), (mkdir("/a"), OK), (open_(0, "/g", 1), 15), (link("t", "/g"), 15), (copy("/f", "/g"), 15), (hard("/f", "/g"), 15), (link("a", "/f"), OK), (write("/t", "x"), 15),
     (rename("/f", "/q/f"), 15), (rename("/f", "/a/f"), ok(1)), (rmtree("/a"), OK), (mkdir("/p/q/r"), 15), (list_("/"), names(rows=[])), (mkdir("/p/q"), OK), limits=(3, 300))
case("15: one entry", (mkdir("/a"), 15), (meta("/"), 8), (mkdir("/"), OK), (mkdir("/a"), 15), (write("/f", ""), 15), (mkdir("/"), OK), (rename("/x", "/y"), 8), limits=(1, 300))
case("15 before 16", (mkdir("/"), OK), (write("/f", "12345"), OK), (write("/ggggg", "1"), 15), (write("/f", "123456"), 16), (write("/f", "12"), OK), (write("/g", "1"), 15), limits=(2, 6))
case("15: rename's made directories", (mkdir("/a"), OK), (write("/f", ""), OK), (rename("/f", "/x/y/f"), 15), (list_("/"), names("a", "f", rows=[D, F(0)])), (rename("/f", "/x/f"), OK), (link("a", "/f"), 15), (rename("/x/f", "/a"), 10), (rename("/a", "/x/a/b"), 15),
     (rename("/x/f", "/a/f"), OK), (rename("/x", "/a/y"), OK), limits=(4, 300))
case("15: removed files are no entries", (mkdir("/"), OK), (open_(0, "/f", 1), OK), (rmfile("/f"), OK), (open_(1, "/f", 1), OK), (rmfile("/f"), OK), (open_(2, "/f", 1), OK), (write("/g", ""), 15), (rmfile("/f"), OK), (write("/g", ""), OK), limits=(2, 300))

# ---- 16
case("16: at the limit and over", (mkdir("/"), OK), (write("/f", "123456789"), OK), (write("/g", ""), 16), (write("/f", "1234567890"), 16), (read("/f"), ok(out="123456789")), (write("/f", "987654321"), OK), (read("/f"), ok(out="987654321")), (open_(0, "/f"), OK),
     (setlen(0, 10), 16), (setlen(0, 9), OK), (setlen(0, 2000), 16), (link("t", "/f"), 16), (rename("/f", "/ff"), 16), (rename("/f", "/g"), OK), (copy("/g", "/h"), 16), (copy("/g", "/g"), ok(number=9)), (mkdir("/d"), 16), (rename("/g", "/d/g"), 16),
     (setlen(0, 8), OK), (mkdir("/d"), OK), (open_(1, "/e", 1), 16), limits=(512, 10))
case("16: link over an open file", (mkdir("/"), OK), (write("/f", "123456789"), OK), (open_(0, "/f"), OK), (link("t", "/f"), 16), (link("", "/f"), OK), (readn(0, 4), ok(out="1234")), (write("/g", ""), 16), (open_(1, "/f"), 5), (setlen(0, 8), OK), (write("/g", ""), OK),
     (write("/h", ""), 16), (close(0), OK), (write("/h", "1234567"), OK), (write("/i", ""), 16), limits=(512, 10))
case("16: removed files, each once", (mkdir("/d"), OK), (write("/d/f", "12345"), OK), (open_(0, "/d/f"), OK), (open_(1, "/d/f"), OK), (rmtree("/d"), OK), (write("/e", "1234"), OK), (write("/e", "12345"), 16), (close(0), OK), (write("/e", "12345"), 16), (setlen(1, 4), OK),
     (write("/e", "12345"), OK), (close(1), OK), (write("/e", "123456789"), OK), (write("/e", "1234567890"), 16), limits=(512, 10))
case("16: replaced by a rename", (mkdir("/"), OK), (write("/a", "1"), OK), (write("/b", "12345"), OK), (open_(0, "/b"), OK), (write("/c", "0"), 16), (rename("/a", "/b"), OK), (write("/c", "0"), 16), (write("/c", ""), OK), (readn(0, 9), ok(out="12345")), (metan(0), ok(rows=[F(1)])),
     (close(0), OK), (write("/c", "12345"), OK), limits=(512, 8))
case("16: targets and names count", (mkdir("/"), OK), (link("12345678", "/l"), 16), (link("1234567", "/l"), OK), (link("7654321", "/l"), OK), (write("/x", ""), 16), (link("", "/l"), OK), (write("/1234567", ""), OK), (mkdir("/m"), 16), limits=(512, 8))
case("16: hard link and copy", (mkdir("/"), OK), (write("/f", "123"), OK), (hard("/f", "/g"), OK), (hard("/f", "/h"), 16), (copy("/f", "/h"), 16), (copy("/f", "/g"), ok(number=3)), (copy("/f", "/hh"), 16), (rmfile("/f"), OK), (copy("/g", "/hh"), 16), (copy("/g", "/h"), ok(number=3)), limits=(512, 8))

# ---- set times' raw path, and other single rules
case("set times", (mkdir("/a"), OK), (write("/f", "x"), OK), (link("a", "/l"), OK), (link("/none", "/n"), OK), (utimes("", 1, 1), 8), (utimes("a", 1, 1), 8), (utimes("./a", 1, 1), 8), (utimes(".", 1, 1), 8), (utimes("..", 1, 1), 8), (utimes("/a/../a", 1, 1), 8), (utimes("/..", 1, 1), 8),
     (utimes("/f/..", 1, 1), 9), (utimes("/f/.", 3, 4), OK), (utimes("//a/.//", 1, 2), OK), (utimes("/l/../a", 1, 1), 8), (utimes("/l", 5, 6), ok(1)), (utimes("/n", 1, 1), 8), (utimes("/", 7, 8), OK), (lmeta("/l"), ok(rows=[L])), (meta("/l"), ok(1, rows=[stat("d", 0, 0o755, [5, 5, 5, 6])])),
     (meta("/f"), ok(rows=[F(1, [3, 3, 3, 4])])), (meta(""), ok(rows=[stat("d", 0, 0o755, [7, 7, 7, 8])])), (cwd("/a"), OK), (utimes("a", 1, 1), 8), (utimes("", 1, 1), 8))
case("modes and umask have 32 bits", (mkdir("/"), OK), (umask(2 ** 32 - 1), ok(number=0o666)), (open_(0, "/f", 1, 5), OK), (meta("/f"), ok(rows=[stat("f", 0, 2 ** 32 - 1)])), (open_(1, "/g", 17, 2 ** 31), OK), (meta("/g"), ok(rows=[stat("f", 0, 2 ** 31)])), (umask(0), ok(number=2 ** 32 - 1)),
     (open_(2, "/g", 16, 7), OK), (meta("/g"), ok(rows=[stat("f", 0, 2 ** 31)])), (chmod("/", 2 ** 32 - 2), OK), (meta("/"), ok(rows=[stat("d", 0, 2 ** 32 - 2)])), (open_(3, "/h", 2 ** 32 - 1 - 2, 9), OK), (meta("/h"), ok(rows=[stat("f", 0, 9)])), (hard("/h", "/i"), OK), (meta("/i"), ok(rows=[stat("f", 0, 0)])))
case("open", (mkdir("/d"), OK), (write("/f", "12345", 1), OK), (open_(0, "/f", 8), OK), (seek(0, CURRENT, 0), ok(number=5)), (open_(1, "/f", 12, 0, 2), OK), (seek(1, CURRENT, 0), OK), (read("/f"), OK), (seek(0, CURRENT, 0), ok(number=5)), (readn(0, 3), OK), (meta("/f"), ok(rows=[F(0, [1, 1, 1, 2])])),
     (open_(2, "/f", 6), 12), (open_(2, "/d", 3), 10), (open_(2, "/x", 2), 8), (open_(2, "/x", 3, 0, 4), OK), (meta("/x"), ok(rows=[F(0, 4)])), (open_(3, "/x/y", 1), 9), (open_(3, "/d/x/y", 1), 8), (open_(3, "/d/x/", 9), OK), (metan(3), ok(rows=[F(0)])), (rmfile("/d/x"), OK), (metan(3), 8),
     (mkdir("/d/x", 9), OK), (metan(3), ok(rows=[stat("d", 0, 0o755, 9)])), (readn(3, 4), OK), (write("/f", "abc", 6), OK), (seek(0, START, 0), OK), (readn(0, 9), ok(out="abc")))
case("metadata by number goes by the kept path", (mkdir("/d"), OK), (link("d", "/l"), OK), (open_(0, "/l/f", 1, 0, 3), ok(1)), (metan(0), ok(rows=[F(0, 3)])), (rename("/d", "/e"), OK), (metan(0), 8), (link("/e", "/d"), OK), (metan(0), ok(1, rows=[F(0, 3)])), (rename("/e/f", "/g"), OK), (metan(0), 8), (mkdir("/e/f"), OK),
     (metan(0), ok(1, rows=[D])), (rmdir("/e/f"), OK), (link("f", "/e/f"), OK), (metan(0), 7), (rmtree("/e"), OK), (write("/e", "x"), OK), (metan(0), 9), (setlen(0, 2), OK), (read("/g"), ok(out=b"\0\0")))

# ---- kinds, the current directory, times by number
case("kinds", (mkdir("/d/e"), OK), (write("/f", "x"), OK), (mkdir("/f"), 9), (mkdir("/f/a"), 9), (link("t", "/d"), 12), (link("t", "/f/a"), 9), (link("t", "/d/l"), OK), (rmfile("/f/a"), 9), (rmdir("/f/a"), 9), (rmtree("/f/a"), 9),
     (rmtree("/f"), 10), (rmtree("/d/l"), 10), (rmdir("/f"), 10), (rmfile("/d"), 10), (rmfile("/d/l"), 10), (rmdir("/d"), 12), (rmtree("/none"), OK), (rmtree("/none/x"), 8), (rmtree("/d/x"), OK), (rmtree("/d"), OK), (rmtree("/d"), OK),
     (list_("/"), names("f", rows=[F(1)])))
case("current directory", (mkdir("/d/e"), OK), (link("d", "/l"), OK), (cwd("/l/e"), ok(1)), (canon("."), ok(out="/d/e")), (canon(".."), ok(out="/d")), (write("f", "x"), OK), (link("none", "/l"), OK), (canon("f"), ok(out="/d/e/f")),
     (cwd(""), 8), (cwd("none"), 8), (cwd("f"), OK), (canon("."), ok(out="/d/e/f")), (canon("x"), 9), (rename("../f", "../../g"), OK), (canon(".."), ok(out="/d/e")), (canon("."), 8), (read("../../g"), ok(out="x")))
case("times by number", (mkdir("/"), OK), (write("/f", "x", 1), OK), (open_(0, "/f"), OK), (utimesn(0, 1, 5, 6), OK), (meta("/f"), ok(rows=[F(1, [5, 1, 1, 1])])), (utimesn(0, 2, 7, 8), OK), (meta("/f"), ok(rows=[F(1, [5, 1, 1, 8])])),
     (utimesn(0, 0, 2, 2), OK), (utimesn(0, 4, 2, 2), OK), (meta("/f"), ok(rows=[F(1, [5, 1, 1, 8])])), (utimesn(0, 3, -9, 9), OK), (meta("/f"), ok(rows=[F(1, [-9, 1, 1, 9])])))

# ---- rename, across links and onto itself
case("R1", (mkdir("/d"), OK), (write("/d/f", "x"), OK), (link("d", "/l"), OK), (rename("/d", "/l/x", 5), ok(1)), (list_("/"), names("d", "l", rows=[stat("d", 0, 0o755, 5), L])), (list_("/d"), names("x", rows=[D])), (list_("/d/x"), names("f", rows=[F(1)])))
case("R2", (mkdir("/d/x"), OK), (write("/d/f", "x"), OK), (link("d", "/l"), OK), (rename("/d", "/l/x", 5), ok(1)), (list_("/d"), names("x", rows=[D])), (list_("/d/x"), names("f", "x", rows=[F(1), D])))
case("R3", (mkdir("/d"), OK), (link("d", "/a"), OK), (link("a", "/l"), OK), (rename("/a", "/l/b", 5), ok(1 + 2)), (list_("/"), names("a", "d", "l", rows=[stat("d", 0, 0o755, 5), D, L])), (readlink("/a/b"), ok(out="d")), (canon("/a/b"), 8))
case("R4", (mkdir("/y"), OK), (write("/y/f", "abc"), OK), (open_(0, "/y/f"), OK), (link("y", "/l"), OK), (rename("/l/f", "/y/f"), ok(1)), (read("/y/f"), ok(out="abc")), (write("/y/f", "xy"), OK), (readn(0, 9), ok(out="xy")), (rename("/y/f", "/l/f"), ok(1)))
case("R5", (mkdir("/y/e"), OK), (link("y", "/l"), OK), (rename("/l/e", "/y/e"), ok(1)), (list_("/y"), names("e", rows=[D])), (write("/y/e/g", ""), OK), (rename("/l/e", "/y/e"), 12))
case("R6", (mkdir("/d/k"), OK), (mkdir("/e"), OK), (link("e", "/l"), OK), (rename("/d", "/l"), ok(1)), (list_("/"), names("e", "l", rows=[D, D])), (list_("/l"), names("k", rows=[D])))
case("R7", (mkdir("/d"), OK), (mkdir("/e/g"), OK), (link("e", "/l"), OK), (rename("/d", "/l"), 12))
case("R8", (mkdir("/d"), OK), (link("d", "/l"), OK), (rename("/l", "/d"), ok(1)), (list_("/"), names("d", rows=[L])), (canon("/d"), 7))
case("R9", (mkdir("/"), OK), (write("/f", "abc"), OK), (open_(0, "/f"), OK), (link("f", "/l"), OK), (rename("/l", "/f"), ok(1)), (readlink("/f"), ok(out="f")), (readn(0, 9), ok(out="abc")), (metan(0), 7), (list_("/"), names("f", rows=[L])))
case("R10", (mkdir("/d"), OK), (link("none", "/l"), OK), (rename("/d", "/l"), ok(1)), (list_("/"), names("l", rows=[D])))
case("R11", (mkdir("/d"), OK), (write("/a", "x"), OK), (rename("/a", "/a/b"), 9), (link("a", "/la"), OK), (rename("/la", "/la/b"), 9), (link("d", "/ld"), OK), (rename("/ld", "/ld/b"), 11), (link("no", "/ln"), OK), (rename("/ln", "/ln/b"), 8), (link("lo", "/lo"), OK), (rename("/lo", "/lo/b"), 7),
     (rename("/d", "/d/x/y"), 11), (rename("/d", "/dd"), OK))
case("R12", (mkdir("/a/b"), OK), (rename("/a/b", "/a"), 12), (write("/a/f", "x"), OK), (rename("/a/f", "/a"), 10), (rename("/a", "/a/f"), 11), (write("/g", ""), OK), (rename("/a", "/g"), 10), (rename("/g", "/a/b"), 10), (rename("/a/b", "/g/x"), 9), (rename("/g/x", "/a"), 9))
case("R13", (mkdir("/d"), OK), (write("/f", "x", 3), OK), (rename("/f", "/p/q/f", 8), OK), (meta("/p"), ok(rows=[stat("d", 0, 0o755, 8)])), (meta("/p/q"), ok(rows=[stat("d", 0, 0o755, 8)])), (meta("/p/q/f"), ok(rows=[F(1, 3)])), (link("/z", "/l"), OK), (rename("/p/q/f", "/l/f", 9), ok(1)), (meta("/z"), ok(rows=[stat("d", 0, 0o755, 9)])),
     (rename("/no", "/no"), OK), (rename("/no", "/d/../no"), OK), (rename("no", "/no/"), OK))


def main():
    failed = 0
    source = [model.HEAD]
    for i, (name, most, room, lines, expected) in enumerate(CASES):
        source.append(model.job_text(i, name, lines))
        code = [x for e in expected for x in model.result_code(e)]
        source.append("t%d : answer_number j%d (fresh_state %d %d) ≡ %s\nunfolding answer_number\nt%d = refl\n" % (i, i, most, room, model.packed(code), i))
    source.append("t999999 : answer_number j0 (fresh_state 512 32768) ≡ 1000\nunfolding answer_number\nt999999 = refl\n")
    bad = model.refused(model.checked("\n".join(source)))
    print("by hand: %d cases, %d calls, %d cases differ from the model" % (len(CASES), sum(len(c[3]) for c in CASES), len(bad)))
    os.makedirs("out", exist_ok=True)
    jobs = [(name.replace(" ", "_"), most, room, lines, e) for name, most, room, lines, e in CASES if not any(l.startswith("@") for l in lines)]
    with open("out/cases.jobs", "w") as f:
        for name, most, room, lines, _ in jobs:
            f.write("job %s %d %d\n%s\n" % (name, most, room, "\n".join(lines)))
    with open("out/cases.counted", "w") as f:
        subprocess.run(["../oracle/target/debug/driver_counted", "run", "out/cases.jobs"], stdout=f, check=True)
    results = compare.read_results("out/cases.counted")
    differ = 0
    for (name, _, _, lines, expected), r in zip(jobs, results):
        for l, e, d in zip(lines, expected, r):
            if any(e[x] != d[x] for x in ("r", "number", "out", "rows", "links")):
                differ += 1
                print("the expectation differs from the Rust (%s) in %s: %s\n   expected %s\n   Rust %s" % (d["how"], name, compare.readable(l)[:300], e, {x: d[x] for x in e}))
    print("by hand against the Rust: %d cases, %d calls differ" % (len(jobs), differ))
    for i in sorted(bad):
        print("MODEL DIFFERS from the expectation in case %r" % CASES[i][0])
    sys.exit(1 if bad or differ else 0)


if __name__ == "__main__":
    os.chdir(os.path.dirname(os.path.abspath(__file__)))
    main()

#!/usr/bin/env python3
"""search.py DRIVER: looks for differences that no case has. Needs the superuser, like record.py.

On one tree, with an entry of each kind, every call by path on every plain path, and of two paths every pair: where the system and the Rust
differ there must be a case of the same call with the same two answers. And every call but set times, on paths that are not plain (`..`,
a slash or `.` at the end, relative, empty): the Rust must answer as to the path once normalised, so that what differs is the text's
doing. Everywhere the Rust and this project must answer the same, but for link at `/`. Prints what is not so; status 1 then."""
import os
import sys

sys.dont_write_bytecode = True
sys.path.insert(0, os.path.dirname(os.path.abspath(__file__)))

import kernel
import project
import record
import seen
import tree
from cases import *

TREE = [mkdir("/", 0)] + d("/a", "/d", "/b/c") + [f("/a/f"), f("/f", "y"), l("a", "/l"), l("f", "/k"), l("none", "/g"), l("s", "/s"), l("d", "/m"), l("/", "/r")]
PLAIN = "/ /a /a/f /d /b /b/c /l /l/f /k /g /s /m /m/x /r /r/f /f /no /no/x /f/x /g/x /s/x /a/n /l/n /k/x".split()
ENDS = "/a /a/f /d /b /l /k /g /s /m /r /f /no /no/x /f/x".split()
OTHER = [p + e for p in ENDS for e in ("/", "/.", "/..")] + ["/.", "/..", "", ".", "..", "f", "../d", "./../l", "../no/../f"]
OPENS = {"open %d %s" % (flags, access): (flags, access) for flags in range(8) for access in ("r", "rw") if not (flags & 4 and access == "r")}
ONE = {"canon": canon, "cwd": cwd, "mkdir": mkdir, "read": read, "write": lambda p: write(p, "z"), "rmfile": rmfile, "rmdir": rmdir, "rmtree": rmtree,
       "meta": meta, "lmeta": lmeta, "readlink": readlink, "chmod": lambda p: chmod(p, 0o700), "utimes": utimes, "list": list_, "link": lambda p: link("t", p),
       **{n: (lambda p, a=a: open_(0, p, a[0], access=a[1])) for n, a in OPENS.items()}}
TWO = {"rename": rename, "copy": copy, "hard": hard}


def sort(case, real, rust):
    """The call, of open with create and create-new, and what the two answer."""
    word, _, nums, _ = case.call
    call = (word, nums[1] & 3) if word == "open" else (word,)
    return call + (real["answer"]["r"] or "accepted", rust["answer"]["r"] or "accepted")


def differing(cases, driver):
    """name -> sort, of those on which the system and the Rust differ."""
    rust, found = record.by_rust(driver, cases), {}
    for name, case in cases.items():
        real, ours = record.by_kernel(case), project.by_tree(case)
        said = [seen.result(case, real, lambda a: a["r"]), seen.result(case, rust[name], record.in_rust)]
        if record.posix_differs(case, real, rust[name], said):
            found[name] = sort(case, real, rust[name])
        r, o_ = rust[name]["answer"]["r"], ours["answer"]["r"]
        if (r, o_) != (99, 5) and (r != o_ or not r and said[1] != seen.result(case, ours, project.own)):
            if name not in CASES:
                yield "the Rust and this project differ: %s" % name
    yield found


def plain_cases():
    for p in PLAIN:
        for name, call in ONE.items():
            yield "%s %s" % (name, p), Case(TREE, call(p), [], False)
        for q in PLAIN:
            for name, call in TWO.items():
                yield "%s %s %s" % (name, p, q), Case(TREE, call(p, q), [], False)


def other_cases():
    """name -> (the call, the same with normalised paths)."""
    there = TREE + [cwd("/a")]
    made = lambda p: tree.shown(tree.normal((b"a",), p.encode())).decode()
    for p in OTHER:
        for name, call in ONE.items():
            if name != "utimes" and not (name in ("canon", "cwd") and p == ""):
                yield "%s %r" % (name, p), (Case(there, call(p), [], False), Case(there, call(made(p)), [], False))
        for q in ("/n", "/f", "/d"):
            for name, call in TWO.items():
                yield "%s %r %r" % (name, p, q), (Case(there, call(p, q), [], False), Case(there, call(made(p), q), [], False))
                yield "%s %r %r" % (name, q, p), (Case(there, call(q, p), [], False), Case(there, call(q, made(p)), [], False))


def main():
    driver = sys.argv[1]
    kernel.time.sleep = lambda s: None  # no times are looked at
    wrong = []
    named = {n: c for n, c in CASES.items() if not record.numberless(c)}
    *_, known = differing(named, driver)
    plain = dict(plain_cases())
    *said, found = differing(plain, driver)
    wrong += said
    missing = {}
    for name, s in found.items():
        if s not in known.values():
            missing.setdefault(s, name)
    wrong += ["no case of %s: %s" % (s, n) for s, n in missing.items()]
    other = dict(other_cases())
    given = record.by_rust(driver, {n: c[0] for n, c in other.items()})
    normal = record.by_rust(driver, {n: c[1] for n, c in other.items()})
    for n, (case, _) in other.items():
        words = [seen.result(case, x[n], record.in_rust) for x in (given, normal)]
        if words[0] != words[1]:
            wrong.append("the Rust does not answer as to the normalised path: %s: %s, %s" % (n, *words))
    for w in wrong:
        print(w)
    print("%d plain calls, %d differ in %d ways; %d calls by other paths; %d things wrong" % (len(plain), len(found), len(set(found.values())), len(other), len(wrong)))
    sys.exit(1 if wrong else 0)


if __name__ == "__main__":
    main()

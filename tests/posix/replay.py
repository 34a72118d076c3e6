#!/usr/bin/env python3
"""Checks recorded.txt without the Rust and without chroot: the project's column is worked out anew (tree.py), every call of docs/SCOPE.md
has a case, and docs/DIFFERENCES.md names exactly the cases that differ, on the right list. Prints what is wrong; status 1 then."""
import os
import re
import sys

sys.dont_write_bytecode = True
HERE = os.path.dirname(os.path.abspath(__file__))
sys.path.insert(0, HERE)

import project
import seen
from cases import CASES

WORDS = "canon cwd umask mkdir open read write copy hard link rmfile rmdir rmtree rename meta lmeta readlink chmod utimes list close readn seek setlen chmodn utimesn metan".split()
LISTS = {"POSIX": "## POSIX and the Rust", "Rust": "## The Rust and this project"}


def recorded():
    lines = [l.rstrip("\n").split(" | ") for l in open(HERE + "/recorded.txt") if not l.startswith("#")]
    return {l[0]: l[1:] for l in lines}


def listed(text, heading):
    """The cases that the tables of a list name, and its lines without one."""
    part = text[text.index(heading):].split("\n## ")[0]
    names, without = [], []
    for row in re.findall(r"^\| .* \|$", part, re.M):
        last = re.split(r"(?<!\\)\|", row)[-2].strip()
        if last in ("Cases", "---"):
            continue
        found = re.findall(r"`([a-z0-9_]+)`", last) if not last.startswith("no case: ") else []
        names += found
        if not found and not last.startswith("no case: "):
            without.append(row)
    return names, without


def main():
    wrong = []
    said = recorded()
    wrong += ["not recorded: %s" % n for n in CASES if n not in said] + ["no such case: %s" % n for n in said if n not in CASES]
    wrong += ["no case of %s" % w for w in WORDS if not any(c.call[0] == w for c in CASES.values())]
    for name in [n for n in CASES if n in said]:
        posix, rust, ours, verdict = said[name]
        now = seen.result(CASES[name], project.by_tree(CASES[name]), project.own)
        if now != ours:
            wrong.append("%s: recorded %s, now %s" % (name, ours, now))
        if not re.match(r"\d+ [a-z]", ours) and (verdict == "same" and posix != rust or "Rust" not in verdict and rust != ours):
            wrong.append("%s: %s, but the answers are not alike" % (name, verdict))
    text = open(HERE + "/../../docs/DIFFERENCES.md").read()
    for who, heading in LISTS.items():
        names, without = listed(text, heading)
        differ = [n for n, s in said.items() if who in s[3].replace("differs: ", "").split(", ")]
        wrong += ["differs and is not on the list of %s: %s" % (who, n) for n in differ if n not in names]
        wrong += ["on the list of %s and does not differ: %s" % (who, n) for n in names if n not in differ]
        wrong += ["twice on the list of %s: %s" % (who, n) for n in sorted(set(names)) if names.count(n) > 1]
        wrong += ["a line of %s without a case: %s" % (who, r) for r in without]
    for w in wrong:
        print(w)
    same = sum(s[3] == "same" for s in said.values())
    print("%d cases, %d the same in all three, %d things wrong" % (len(said), same, len(wrong)))
    sys.exit(1 if wrong else 0)


if __name__ == "__main__":
    main()

#!/usr/bin/env python3
"""record.py DRIVER: runs every case on this system, on the Rust (DRIVER is tests/model's driver, built) and on tree.py, and prints the
lines of recorded.txt. Needs the superuser (chroot)."""
import json
import os
import shutil
import subprocess
import sys
import tempfile
import time

sys.dont_write_bytecode = True
HERE = os.path.dirname(os.path.abspath(__file__))
sys.path.insert(0, HERE)

import kernel
import project
import seen
import tree
from cases import CASES, line


def by_kernel(case):
    root = tempfile.mkdtemp(dir="/dev/shm" if os.path.isdir("/dev/shm") else None)
    try:
        return kernel.seen(case, root)
    finally:
        shutil.rmtree(root)


def by_rust(driver, cases):
    with tempfile.NamedTemporaryFile("w", suffix=".jobs") as f:
        for case in cases.values():
            f.write("job x 0 0\n" + "".join(line(s) + "\n" for s in case.tree + [case.call]))
        f.flush()
        out = subprocess.run([driver, "raw", f.name], check=True, capture_output=True, text=True).stdout
    jobs = []
    for l in out.splitlines():
        d = json.loads(l)
        if "job" in d:
            jobs.append([])
        else:
            d["state"]["tree"] = [e[:3] for e in d["state"]["tree"]]
            jobs[-1].append(d)
    none = {"state": {"tree": [], "cwd": b"/".hex()}}
    return {n: {"answer": j[-1], "before": ([none] + j)[-2]["state"], "after": j[-1]["state"]} for n, j in zip(cases, jobs)}


def in_rust(answer):
    said = bytes.fromhex(answer["said"]).decode()
    said = "%s.. (%d bytes)" % (said[:40], len(said)) if len(said) > 110 else said
    return "panics (%s)" % said if answer["r"] == 99 else said


def numberless(case):
    """A call by a number that no step opened: the Rust has no such call, since a file is a value there."""
    word, _, nums, _ = case.call
    return word in tree.BY_NUMBER and not any(s[0] == "open" and s[2][0] == nums[0] for s in case.tree)


def posix_differs(case, real, rust, said):
    p, r = real["answer"]["r"], rust["answer"]["r"]
    if p and r:
        return r not in seen.stands_for(p, case.call[0])
    return said[0] != said[1]


def lines(driver):
    rust = by_rust(driver, {n: c for n, c in CASES.items() if not numberless(c)})
    for name, case in CASES.items():
        real, ours = by_kernel(case), project.by_tree(case)
        said = [seen.result(case, real, lambda a: a["r"]), "", seen.result(case, ours, project.own)]
        if numberless(case):
            said[1] = "no such call"
            differs = ["Rust"]
        else:
            said[1] = seen.result(case, rust[name], in_rust)
            differs = ["POSIX"] if posix_differs(case, real, rust[name], said) else []
            r, o = rust[name]["answer"]["r"], ours["answer"]["r"]
            if r != o if r or o else said[1] != said[2]:
                differs.append("Rust")
        yield " | ".join([name] + said + ["differs: " + ", ".join(differs) if differs else "same"])


def file_system():
    place = "/dev/shm" if os.path.isdir("/dev/shm") else tempfile.gettempdir()
    mounts = [l.split() for l in open("/proc/mounts")]
    return max((m for m in mounts if place.startswith(m[1])), key=lambda m: len(m[1]))[2]


HEAD = """# What this system, the Rust and this project answer to %d cases, one a line:
#   name | POSIX, that is %s on %s | the Rust, kind and message | this project | same, or who differs
# "differs: POSIX": the system and the Rust, whose answer is kept; "differs: Rust": the Rust and this project. docs/DIFFERENCES.md names both.
# Made on %s by `tests/posix/run SOURCES`, with SOURCES the src/ directory of sys_traits 0.1.29, %s with checked
# arithmetic, as the superuser, each case in a chroot of its own, with the umask 0 where the case sets none. cases.py has the cases;
# `python3 tests/posix/replay.py` works out the project's column anew."""


def head():
    system = os.uname()
    rust = subprocess.run(["rustc", "--version"], capture_output=True, text=True).stdout.split(" (")[0]
    day = time.strftime("%Y-%m-%d")
    return HEAD % (len(CASES), system.sysname + " " + system.release, file_system(), day, rust)


if __name__ == "__main__":
    print(head())
    for l in lines(sys.argv[1]):
        print(l)

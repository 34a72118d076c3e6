#!/usr/bin/env python3
"""Compares the model with the Rust: compare.py [--chunk N] JOBS RUST COUNTED

JOBS is a job file, RUST and COUNTED what the two drivers made of it (RUST may be `-`: then the counted copy alone is compared).
Compared after every call: refusal, answer, rows, link count (the copy's) and the whole state (by a digest). N jobs are worked out in
one run of the checker. Where a job differs, its first differing call is printed with both answers and states."""
import json
import sys
import time

import model


def read_jobs(name):
    jobs = []
    for line in open(name):
        line = line.rstrip("\n")
        if line.startswith("job "):
            _, i, most, room = line.split(" ")
            jobs.append((i, int(most), int(room), []))
        elif line and not line.startswith("#"):
            jobs[-1][3].append(line)
    return jobs


def read_results(name):
    jobs = []
    for line in open(name):
        d = json.loads(line)
        if "job" in d:
            jobs.append([])
        else:
            d["state"] = rust_state(d["state"])
            jobs[-1].append(d)
    return jobs


def rust_state(s):
    dehex = lambda h: bytes.fromhex(h).decode()
    tree = [[dehex(e[0]), e[1], e[2], e[3]] for e in s["tree"]]
    opens = [[o[0], o[1], dehex(o[2]), *o[3:]] for o in s["opens"]]
    return model.seen(tree, opens, dehex(s["cwd"]), s["mask"])


def readable(line):
    return " ".join(repr(bytes.fromhex(f[1:]).decode("utf8", "replace")) if f.startswith("x") else f for f in line.split(" "))


KEYS = ("r", "number", "out", "rows", "state")


def explain(job, results):
    """The first call on which the model differs, each tried on the state that the Rust was in."""
    steps, before = [], model.EMPTY
    for line, d in zip(job[3], results):
        steps.append((before, job[1], job[2], line))
        before = d["state"]
    for i, ((got, after), d) in enumerate(zip(model.show(steps), results)):
        said = []
        if isinstance(got, str) or isinstance(after, str):
            said.append("not shown: %s %s" % (got, after))
        else:
            for x in ("r", "number", "out", "rows", "links"):
                if got[x] != d[x]:
                    said.append("%s: model %s, Rust %s (%s)" % (x, got[x], d[x], d["how"]))
            for x in after:
                m, w = after[x], d["state"][x]
                if m != w and x in ("tree", "opens"):
                    m, w = [e for e in m if e not in w], [e for e in w if e not in m]
                if m != w:
                    said.append("%s after it: model %s, Rust %s" % (x, m, w))
        if said:
            print("DIFFERENCE in %s, call %d of %d: %s" % (job[0], i + 1, len(job[3]), readable(job[3][i])))
            for s in said:
                print("   ", s)
            print("    state before:", steps[i][0])
            for l, e in zip(job[3][:i + 1], results):
                if e["r"] == 0 or l is job[3][i]:
                    print("      ", readable(l))
            return
    print("DIFFERENCE in %s: found by no single call" % job[0])


def main():
    args = sys.argv[1:]
    chunk = 25
    if args[0] == "--chunk":
        chunk = int(args[1])
        args = args[2:]
    jobs, counted = read_jobs(args[0]), read_results(args[2])
    rust = counted if args[1] == "-" else read_results(args[1])
    assert len(jobs) == len(rust) == len(counted)
    calls = differences = linked = 0
    for job, r, c in zip(jobs, rust, counted):
        assert len(job[3]) == len(r) == len(c), job[0]
        for d, e in zip(r, c):
            assert all(d[x] == e[x] for x in KEYS), "the counted copy differs from the Rust: %s %s" % (job[0], readable(d["call"]))
            calls += 1
            linked += e["links"] > 0 and e["r"] == 0
    start = time.time()
    for at in range(0, len(jobs), chunk):
        some = jobs[at:at + chunk]
        expected = [[(d, d["state"]) for d in results] for results in counted[at:at + chunk]]
        failed = model.agree(some, expected)
        differences += len(failed)
        for i in sorted(failed):
            explain(some[i], counted[at + i])
        print("%d jobs, %d differ, %.0f s" % (at + len(some), differences, time.time() - start), flush=True)
    print("%s: %d jobs, %d calls, %d accepted with links followed, %d jobs differ" % (args[0], len(jobs), calls, linked, differences))
    sys.exit(1 if differences else 0)


if __name__ == "__main__":
    main()

#!/usr/bin/env python3
"""Compares tree.py with what the drivers of tests/model made of random jobs: against_rust.py JOBS COUNTED. COUNTED is the output of
driver_counted (`run`): the Rust with a link counter, 6 on the walk, and the added refusals. After every call the whole answer and
the whole state are compared. Status 1 where anything differs."""
import os
import sys

sys.dont_write_bytecode = True
HERE = os.path.dirname(os.path.abspath(__file__))
sys.path.insert(0, os.path.join(HERE, "..", "model"))
sys.path.insert(0, HERE)

import compare
import tree


def main():
    jobs, results = compare.read_jobs(sys.argv[1]), compare.read_results(sys.argv[2])
    calls = differ = 0
    for (name, most, room, lines), said in zip(jobs, results):
        t = tree.Tree(most, room)
        for line, d in zip(lines, said):
            answer, t = tree.perform(t, line)
            calls += 1
            wrong = [k for k in ("r", "number", "out", "rows") + (("links",) if d["r"] == 0 else ()) if answer[k] != d[k]]
            if wrong or compare.rust_state(tree.state(t)) != d["state"]:
                differ += 1
                print("DIFFERENCE in %s: %s: %s" % (name, compare.readable(line)[:300], [(k, answer[k], d[k]) for k in wrong] or "state"))
                break
    print("%s: %d calls, %d jobs differ" % (os.path.basename(sys.argv[1]), calls, differ))
    sys.exit(1 if differ else 0)


main()

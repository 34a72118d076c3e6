#!/usr/bin/env python3
"""jobs.py DIR: the cases as jobs of tests/model (DIR/posix.jobs), with what tree.py answers and leaves (DIR/posix.tree), in the form of
its drivers. tests/model/compare.py then asks the checker whether the model's definitions say the same: compare.py posix.jobs - posix.tree.
Left out are three cases that are too long to compute: one fills the entry limit, one passes the byte limit, one sets a length of 2^63."""
import json
import os
import sys

sys.dont_write_bytecode = True
sys.path.insert(0, os.path.dirname(os.path.abspath(__file__)))

import tree
from cases import CASES, line

with open(sys.argv[1] + "/posix.jobs", "w") as jobs, open(sys.argv[1] + "/posix.tree", "w") as said:
    for name, case in CASES.items():
        lines = [line(s) for s in case.tree + [case.call]]
        if name in ("write_over_entries", "write_over_bytes", "set_length_2_63"):
            continue
        jobs.write("job %s 512 32768\n%s\n" % (name, "\n".join(lines)))
        said.write(json.dumps({"job": name}) + "\n")
        t = tree.Tree()
        for l in lines:
            answer, t = tree.perform(t, l)
            said.write(json.dumps({"call": l, "how": "tree", **answer, "state": tree.state(t)}) + "\n")

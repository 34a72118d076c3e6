#!/usr/bin/env python3
"""Counts rarer things in result files of the counted driver: coverage.py FILE..."""
import collections
import sys

import compare
import model

count = collections.Counter()
for name in sys.argv[1:]:
    for job in compare.read_results(name):
        before = model.EMPTY
        for d in job:
            op, s = d["call"].split(" ")[0], d["state"]
            count["calls"] += 1
            removed = [o for o in before["opens"] if not isinstance(o[3], str)]
            count["state with a removed open file"] += bool(removed)
            count["state where numbers share a file"] += any(a[0] < b[0] and a[3] == b[3] for a in before["opens"] for b in before["opens"])
            count["state whose cwd is not /"] += before["cwd"] != "/"
            count["state whose cwd is gone or no directory"] += before["cwd"] != "/" and not any(e[0] == before["cwd"] and e[1][0] == "d" for e in before["tree"])
            count["state without a root"] += not before["tree"]
            count["how: " + d["how"]] += 1
            if d["r"] == 0:
                count["accepted with %s links" % (d["links"] if d["links"] < 4 else "4 or more")] += 1
            if op in ("readn", "setlen", "seek", "metan", "utimesn", "chmodn") and d["r"] == 0:
                n = int(d["call"].split(" ")[1])
                o = next(o for o in before["opens"] if o[0] == n)
                count[op + " of a removed file"] += not isinstance(o[3], str)
                count[op + " of a moved file"] += isinstance(o[3], str) and o[3] != o[2]
                if op == "metan":
                    count["metan accepted with links"] += d["links"] > 0
            if op == "metan" and d["r"] in (7, 8, 9):
                count["metan refused %d" % d["r"]] += 1
            if op == "rename" and d["r"] == 0:
                b, a = {e[0]: e for e in before["tree"]}, {e[0]: e for e in s["tree"]}
                count["rename accepted"] += 1
                count["rename accepted, nothing changed"] += a == b
                count["rename accepted with links"] += d["links"] > 0
                count["rename that made directories"] += len(a) > len(b)
                count["rename that replaced an entry"] += len(a) < len(b)
                count["rename that left an open file removed"] += sum(not isinstance(o[3], str) for o in s["opens"]) > len(removed)
                gone = [p for p in b if p not in a]
                count["rename whose old name stands anew as a made directory"] += len(a) > len(b) and not gone
                count["rename of a link"] += any(b[p][1][0] == "l" for p in gone)
                count["rename of a directory with entries"] += any(b[p][1][0] == "d" and any(q.startswith(p + "/") for q in gone) for p in gone)
            if op == "utimes" and d["r"] == 0:
                count["set times through links"] += d["links"] > 0
            if op in ("mkdir", "open", "write") and d["r"] == 0 and d["links"] and len(s["tree"]) > len(before["tree"]):
                count[op + " made something through links"] += 1
            if op in ("link", "rmtree", "rmfile", "rename") and d["r"] == 0:
                count[op + " left an open file removed"] += sum(not isinstance(o[3], str) for o in s["opens"]) > len(removed)
            before = s
for k, v in sorted(count.items()):
    print("%7d %s" % (v, k))

#!/usr/bin/env python3
"""Counts the calls of result files by word and refusal: tally.py FILE..."""
import collections
import json
import sys

count = collections.Counter()
for name in sys.argv[1:]:
    for line in open(name):
        d = json.loads(line)
        if "call" in d:
            count[d["call"].split(" ")[0], d["r"]] += 1
refusals = sorted({k[1] for k in count})
print("| call | " + " | ".join("accepted" if n == 0 else str(n) for n in refusals) + " | all |")
print("|" + "---|" * (len(refusals) + 2))
for op in sorted({k[0] for k in count}) + [None]:
    row = [sum(v for k, v in count.items() if k[1] == n and op in (None, k[0])) for n in refusals]
    print(f"| {op or 'all'} | " + " | ".join(str(v) if v else "" for v in row) + f" | {sum(row)} |")

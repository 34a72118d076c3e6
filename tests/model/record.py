#!/usr/bin/env python3
"""Writes a sample of compared jobs as a table of the model (crates/model/proofs/Tables/Recorded.antt), which the gate works out without the
Rust: record.py OUT KIND-SEED:JOBS...  reads OUT/KIND-SEED.jobs and OUT/KIND-SEED.counted, and takes JOBS jobs of each: one after the
other the job that has most of what no job before it has, a call with a refusal or with a link count."""
import sys

import compare
import model

HEAD = """-- Random jobs, each call with what the Rust answered to it, or, for the added refusals, what 01 says: a sample of the comparison in
-- tests/model, written by tests/model/record.py.
-- Assumes nothing.
use mathlib.Core.List.{List, [], ◌∷◌}
use mathlib.Core.Path.{◌≡◌, refl}
use Prim.Native.Nat.{ℕ}
use lib.IntN.{pos, negsuc}
use Rattle.text.specs.Utf8.{Bytes}
use Rattle.model.specs.Tree.{Time}
use Rattle.model.specs.Prog.{Kind, a_dir, aFile, a_link, Stat}
use Rattle.model.specs.Operations.{plain_reply, number_reply, bytes_reply}
use Rattle.model.specs.Calls as Calls
use Rattle.model.specs.Calls.{fresh_state, Call, Result, accepted, refusal}
use Rattle.model.proofs.Computing.{bytes, answered, call}

-- accepted with the link count alone
abbrev done : ℕ → Result
done k = accepted (plain_reply k)

-- with a number
abbrev num : ℕ → ℕ → Result
num n k = accepted (number_reply n k)

-- with bytes
abbrev txt : Bytes → ℕ → Result
txt s k = accepted (bytes_reply s k)

-- a record: kind, length, mode, then the times accessed, changed, created, modified
abbrev row : Kind → ℕ → ℕ → Time → Time → Time → Time → Stat
row k size mode a c b m = record { kind = k; size = size; meta = record { mode = mode; accessed = a; changed = c; created = b; modified = m } }

-- with bytes and records
abbrev rows : ℕ → Bytes → List Stat → ℕ → Result
rows n s rs k = accepted (record { number = n; out = s; rows = rs; link_count = k })

-- a call, and what it answered
pub record Line : Type 0 where
  pub call : Call
  pub answer : Result

infixl 20 ◌gives◌
abbrev ◌gives◌ : Call → Result → Line
c gives r = record { call = c; answer = r }

-- a job on a fresh state with these limits
pub record Job : Type 0 where
  pub most : ℕ
  pub room : ℕ
  pub lines : List Line

-- its calls
unfoldable pub calls_of : List Line → List Call
calls_of [] = []
calls_of (l ∷ ls) = l.call ∷ calls_of ls

-- its answers
unfoldable pub answers_of : List Line → List Result
answers_of [] = []
answers_of (l ∷ ls) = l.answer ∷ answers_of ls

-- each call of the job answers so
abbrev pub AnswersSo : Job → Type 0
AnswersSo j = answered (calls_of j.lines) (fresh_state j.most j.room) ≡ answers_of j.lines
"""


def stat(s):
    kind = {"d": "a_dir", "f": "aFile", "l": "a_link"}[s[0]]
    return "row %s %d 0o%o %s" % (kind, s[1], s[2], " ".join(model.time(t) for t in s[3]))


def answer(r):
    out = bytes.fromhex(r["out"])
    if r["r"]:
        return "refusal %d" % r["r"]
    if r["rows"]:
        return "rows %d %s (%s∷ []) %d" % (r["number"], model.text(out), "".join(stat(s) + " " for s in r["rows"][:1]) + "".join("∷ %s " % stat(s) for s in r["rows"][1:]), r["links"])
    if r["number"] == len(out) and out:
        return "txt %s %d" % (model.text(out), r["links"])
    return "num %d %d" % (r["number"], r["links"]) if r["number"] else "done %d" % r["links"]


def shows(job):
    return {(d["call"].split(" ")[0], d["r"], min(d["links"], 2)) for d in job[1]}


def chosen(jobs, count, shown):
    """That many of the jobs; shown has what the ones before them show, and then theirs too."""
    for _ in range(count):
        best = max(jobs, key=lambda j: len(shows(j) - shown))
        shown |= shows(best)
        yield best


def main():
    print(HEAD)
    names, shown = [], set()
    for what in sys.argv[2:]:
        kind, count = what.split(":")
        at = "%s/%s" % (sys.argv[1], kind)
        jobs = list(zip(compare.read_jobs(at + ".jobs"), compare.read_results(at + ".counted")))
        for (name, most, room, lines), results in chosen(jobs, int(count), shown):
            name = name.replace("-", "")
            names.append(name)
            print("abbrev %s : Job\n%s =\n    record {\n      most = %d;\n      room = %d;\n      lines =" % (name, name, most, room))
            for line, r in zip(lines, results):
                print("          (%s gives %s) ∷" % (model.call(line), answer(r)))
            print("          [];\n    }\n")
            print("%s_so : AnswersSo %s\nunfolding answered calls_of answers_of\n%s_so = refl\n" % (name, name, name))
    print("-- every job answers as recorded\npub recorded : %s" % " × ".join("AnswersSo %s" % n for n in names))
    print("recorded = (%s)" % ", ".join("%s_so" % n for n in names))


main()

#!/usr/bin/env python3
"""That the repository's own `answered` and `left` (proofs/Computing.antt) give what Codes.antt's steps give, on a few jobs."""
import sys

import compare
import model

EXTRA = """
use mathlib.Core.List.{◌++◌}
use Prim.Native.Nat.{ℕ}
use Rattle.model.specs.Calls.{Result}
use Rattle.model.proofs.Computing.{answered, left}
use Rattle.model.proofs.Codes.{result_code, state_code, packed, runs, path_codes, row_codes, tree_codes, file_codes, open_codes}

unfoldable pub codes : List Result → List ℕ
codes [] = []
codes (r ∷ l) = result_code r ++ codes l

unfoldable pub own_answers : List Call → State → ℕ
unfolding answered codes packed runs path_codes row_codes
own_answers j s = packed 1 (codes (answered j s))

unfoldable pub own_state : List Call → State → ℕ
unfolding left packed runs path_codes tree_codes file_codes open_codes
own_state j s = packed 1 (state_code (left j s))
"""
source = [model.HEAD + EXTRA.lstrip("\n")]
for i, (name, most, room, lines) in enumerate(compare.read_jobs(sys.argv[1])[:10]):
    source.append(model.job_text(i, name, lines))
    for k, own, f in (("a", "own_answers", "answer_number"), ("s", "own_state", "state_number")):
        source.append("%s%d : %s j%d (fresh_state %d %d) ≡ %s j%d (fresh_state %d %d)\nunfolding %s %s\n%s%d = refl\n" % (k, i, own, i, most, room, f, i, most, room, own, f, k, i))
out = model.checked("\n".join(source))
print([l for l in out.split("\n") if "Check.antt" in l or "logic=" in l][:6])

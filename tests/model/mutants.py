#!/usr/bin/env python3
"""How sharp the comparison is: wrong edits of the model's definitions, each in a copy of the crates, must be found.

mutants.py [NAME...], after a run, in compare/ of the folder that the run works in: for each edit, how many of a sample of random jobs, and how many of the cases
by hand, differ. Status 1 where one is not found."""
import glob
import os
import shutil
import sys
import time

HERE = os.path.dirname(os.path.abspath(__file__))
ROOT = os.path.dirname(HERE)

LOOKUP, TREE, PROG = "Lookup", "Tree", "Prog"
STEPS, DIRECTORIES, CONTENTS, ENTRIES, SHOWS, NUMBERS = ("Operations/" + p for p in ("Steps", "Directories", "Contents", "Entries", "Shows", "Numbers"))
STATES, CALLING, PERFORMING = ("Calls/" + p for p in ("States", "Calling", "Performing"))

# name: page of crates/model/specs, old, new
EDITS = {
    # lookups
    "41 links": (LOOKUP, "most_links = 40", "most_links = 41"),
    "chain bound one short": (PERFORMING, "perform_with (links_in s.tree) c s", "perform_with (Rattle.std.specs.Prelude.◌-◌ (links_in s.tree) 1) c s"),
    "target from the link itself": (LOOKUP, "(followed (drop_last d) (text_or s) r)) path_too_long\n  ret (followed (drop_last d) (text_or s) r)", "(followed d (text_or s) r)) path_too_long\n  ret (followed d (text_or s) r)"),
    "6 before 7 at the 41st": (LOOKUP, "  ended ls m (λ d r. stop link_loop)", "  ended ls m (λ d r. do\n    q ← behind_link d r\n    stop link_loop)"),
    "count goes on at a last link": (LOOKUP, "following (suc b) p ls = do\n  w ← no_follow most_links p ls\n", "following (suc b) p ls = do\n  w ← no_follow (Rattle.std.specs.Prelude.◌-◌ most_links (Rattle.std.specs.Prelude.length ls)) p ls\n"),
    "find looks one directory up": (LOOKUP, "find d x = asks (kind? (d ++ (x ∷ [])))", "find d x = asks (kind? (drop_last d ++ (x ∷ [])))"),
    "find looks at the directory": (LOOKUP, "find d x = asks (kind? (d ++ (x ∷ [])))", "find d x = asks (kind? d)"),
    "a file on the way is missing": (LOOKUP, "onward d (x ∷ r) (some aFile) = stop not_directory", "onward d (x ∷ r) (some aFile) = ret (ends (missing (d ++ (x ∷ r))))"),
    "a missing name without the rest": (LOOKUP, "ret (ends (missing (d ++ (x ∷ r))))", "ret (ends (missing d))"),
    # steps
    "last entry follows the last link": (STEPS, "  k ← find d.path l.name\n  ret (record { path = d.path ++ (l.name ∷ []); kind = k; links = d.links })", "  w ← lookup b (d.path ++ (l.name ∷ []))\n  ret (record { path = w.path; kind = w.kind; links = d.links })"),
    "parent a file is 10": (STEPS, "is_directory aFile = stop not_directory", "is_directory aFile = stop wrong_kind"),
    "second path made absolute from the first": (STEPS, "  q ← to_absolute d\n", "  q ← ret (absolute p d)\n"),
    # questions
    "umask question answers 0": (PROG, "answer mask? w = w.mask", "answer mask? w = 0"),
    "current directory question answers the root": (PROG, "answer here? w = w.here", "answer here? w = []"),
    "a directory with one entry is bare": (PROG, "answer (bare? p) w = is_nil (listing w p)", "answer (bare? p) w = Rattle.std.specs.Prelude.leb (length (listing w p)) 1"),
    "bytes of a number are those at its kept path": (PROG, "answer (held? n) w = on_some (open_of w.opens n) (λ o. on_some (file_of w.files o.id) (λ f. some f.bytes))", "answer (held? n) w = on_some (open_of w.opens n) (λ o. on_some (look w.at o.kept) (bytes_of w))"),
    # directories
    "current directory as given": (DIRECTORIES, "  edits (go e.path)", "  edits (go p)"),
    "made by umask": (DIRECTORIES, "fresh_dir t = fresh 0o755 t", "fresh_dir t = fresh 0o777 t"),
    "directories between are skipped": (DIRECTORIES, "  make_missing m (d ++ (x ∷ [])) r", "  e ← asks (kind? (d ++ (x ∷ r)))\n  make_if m (d ++ (x ∷ r)) e"),
    "the directory before the last is skipped": (DIRECTORIES, "make_missing m d (x ∷ r) = do\n  k ← asks (kind? d)\n  make_if m d k\n  make_missing m (d ++ (x ∷ [])) r", "make_missing m d (x ∷ []) = do\n  k ← asks (kind? (d ++ (x ∷ [])))\n  make_if m (d ++ (x ∷ [])) k\nmake_missing m d (x ∷ y ∷ r) = do\n  k ← asks (kind? d)\n  make_if m d k\n  make_missing m (d ++ (x ∷ [])) (y ∷ r)"),
    "create directory on a file is 10": (DIRECTORIES, "not_file (some k) = is_directory k", "not_file (some k) = Rattle.model.specs.Operations.Steps.only_dir k"),
    # contents
    "create-new before kind": (CONTENTS, "  only_file k\n  need (not o.create_new) already_there\n", "  need (not o.create_new) already_there\n  only_file k\n"),
    "open asks the length before truncating": (CONTENTS, "  truncated o.truncate p t\n  a ← start_at o.append p\n", "  a ← start_at o.append p\n  truncated o.truncate p t\n"),
    "create before the parent is asked": (CONTENTS, "open_entry o n t p none = do\n  parent_stands p\n", "open_entry o n t p none = do\n"),
    "write makes by octal 666": (CONTENTS, "  m ← new_mode none\n", "  m ← new_mode (some 0o666)\n"),
    "copy measures late": (PERFORMING, "on_paths s d (copy_at b t)", "on_path s (λ p. Rattle.model.specs.Prog.◌>>=◌ (Rattle.model.specs.Operations.Contents.source_at b p) (λ f. on_path d (copy_at b t p)))"),
    "copy counts the links of the new path alone": (CONTENTS, "(f.link_count + k)", "k"),
    "hard link's source is opened": (CONTENTS, "hard_link_at b t p q = do\n", "hard_link_at b t p q = do\n  _ ← open_walk b p\n"),
    # entries
    "link over a directory is 10": (ENTRIES, "not_dir (some k) = need (not (is_dir k)) already_there", "not_dir (some k) = need (not (is_dir k)) wrong_kind"),
    "tree missing is 8": (ENTRIES, "a_tree_out p none = ret tt", "a_tree_out p none = must none"),
    "new parent before taking": (ENTRIES, "  edits (take old)\n  d ← lookup b new.before\n  make_missing (fresh_dir t) [] d.path\n", "  d ← lookup b new.before\n  make_missing (fresh_dir t) [] d.path\n  edits (take old)\n"),
    "emptiness of the entry": (ENTRIES, "  replaces v.kind w.path w.kind\n", "  replaces v.kind q w.kind\n"),
    "rename moves the resolved entry": (ENTRIES, "  take_then_make b old.path new t\n", "  take_then_make b v.path new t\n"),
    "rename counts the old parent's links too": (ENTRIES, "(length v.links + length w.links)", "(length v.links + length w.links + length old.links)"),
    "11 for files too": (ENTRIES, "need (not (is_dir v.kind && is_some (behind p q))) under_itself", "need (not (is_some (behind p q))) under_itself"),
    "equal paths tested": (ENTRIES, "rename_at b t p q = rename_by (same_path p q) b t p q", "rename_at b t p q = rename_by false b t p q"),
    # shows
    "set times normalised": (SHOWS, "  f (names s)\n", "  f (Rattle.path.specs.Path.absolute [] s)\n"),
    "14 before 8": (SHOWS, "  e ← leads b p\n  s ← asks (stat? e.path)\n  fits 1 lent\n", "  fits 1 lent\n  e ← leads b p\n  s ← asks (stat? e.path)\n"),
    "read link measures": (SHOWS, "  d ← only_link w.end\n", "  d ← only_link w.end\n  _ ← Rattle.model.specs.Lookup.behind_link d []\n"),
    # numbers
    "seek from the end to 2^63": (NUMBERS, "ltb (sum_above size offset) (2 ^ 64)) bad_seek", "leb (sum_above size offset) (2 ^ 64)) bad_seek"),
    "seek from the end to 2^63 - 1 refused": (NUMBERS, "ltb (sum_above size offset) (2 ^ 64)) bad_seek", "ltb (sum_above size offset) (2 ^ 64 - 1)) bad_seek"),
    "seek from the end to 0 refused": (NUMBERS, "leb (2 ^ 63) (sum_above size offset)", "ltb (2 ^ 63) (sum_above size offset)"),
    "offset 2^63 - 1 taken as negative": (NUMBERS, "(offset + 2 ^ 63) % 2 ^ 64", "((offset + 2 ^ 63 + 1) % 2 ^ 64 - 1)"),
    "no wrap": (NUMBERS, "ret ((pos + offset) % 2 ^ 64)", "ret (pos + offset)"),
    "length grows by ones": (NUMBERS, "replicate (k - length s) 0", "replicate (k - length s) 1"),
    # changes of an entry
    "write sets changed": (TREE, "change_meta (write b t) m = record { mode = m.mode; accessed = m.accessed; changed = m.changed;", "change_meta (write b t) m = record { mode = m.mode; accessed = m.accessed; changed = t;"),
    "set times by number sets changed": (TREE, "accessed = given a m.accessed; changed = m.changed;", "accessed = given a m.accessed; changed = given a m.changed;"),
    # calls
    "number 32": (CALLING, "number_fits (free n) os = leb n 31", "number_fits (free n) os = leb n 32"),
    "3 before 2": (CALLING, "    (first_of (all text g.texts) bad_text\n    (first_of (all lengths_ok g.texts) text_too_long\n", "    (first_of (all lengths_ok g.texts) text_too_long\n    (first_of (all text g.texts) bad_text\n"),
    "target not tested": (CALLING, "given_to (link_file g s t) = with_texts (g ∷ s ∷ [])", "given_to (link_file g s t) = with_texts (s ∷ [])"),
    "metadata by number asks no working buffers": (CALLING, "given_to (metadata_number n r) = record { walks = true;", "given_to (metadata_number n r) = record { walks = false;"),
    "flags of times the other way": (PERFORMING, "(given_if (bit f 1) a) (given_if (bit f 2) m)", "(given_if (bit f 2) a) (given_if (bit f 1) m)"),
    "16 before 15": (PERFORMING, "settle_by false b s r t = outcome (refusal no_entries) s\nsettle_by true false s r t = outcome (refusal no_bytes) s", "settle_by a false s r t = outcome (refusal no_bytes) s\nsettle_by false true s r t = outcome (refusal no_entries) s"),
    "removed files kept for ever": (STATES, "keep_if (is_named t f.0 || is_held os f.0) f (kept_files t os fs)", "f ∷ kept_files t os fs"),
    "removed files dropped": (STATES, "keep_if (is_named t f.0 || is_held os f.0) f (kept_files t os fs)", "keep_if (is_named t f.0) f (kept_files t os fs)"),
}


# how many random jobs of each kind are tried
KINDS = {"plain": 1, "links": 1, "rename": 2, "files": 2, "dirty": 1, "tight": 1}
# cases with more characters than this take long, and are tried only where nothing else finds the edit
LONG = 2000


def sample():
    """Jobs, each with what is expected: random jobs of the last run, cases by hand, cases by hand that take long. A case with short
    working buffers, which the Rust does not have, has its answers alone."""
    by_hand = [(name, most, room, lines, [(e, None) for e in expected]) for name, most, room, lines, expected in cases.CASES if any(l.startswith("@") for l in lines)]
    by_hand += read(HERE + "/out/cases", None)
    random = [j for kind, count in KINDS.items() for j in read(glob.glob(HERE + "/out/%s-*.jobs" % kind)[0][:-len(".jobs")], count)]
    is_long = lambda j: sum(map(len, j[3])) > LONG
    return random, [j for j in by_hand if not is_long(j)], [j for j in by_hand if is_long(j)]


def read(name, count):
    jobs, results = compare.read_jobs(name + ".jobs")[:count], compare.read_results(name + ".counted")
    return [(*j, [(d, d["state"]) for d in r]) for j, r in zip(jobs, results)]


def differ(jobs):
    """The indices of the jobs that the definitions, as they stand in the copy now, do not give as expected."""
    failed = model.agree([j[:4] for j in jobs], [j[4] for j in jobs])
    wrong = [l for l in open(model.ROOT + "/compare/out/last-check.txt") if "specs/" in l]
    assert not wrong, "not a definition: %s" % wrong[:2]
    return failed


def found(name, random, short, long):
    """Whether what stands in the copy now is seen to be wrong; prints by what."""
    start = time.time()
    try:
        failed = differ(random + short)
        by_random = sum(i < len(random) for i in failed)
        said = "%d of %d random jobs, %d of %d cases" % (by_random, len(random), len(failed) - by_random, len(short))
        if not failed:
            failed = differ(long)
            said += ", %d of %d long cases" % (len(failed), len(long))
    except AssertionError as e:
        failed, said = [], "nothing, stopped: " + str(e)[-300:]
    print("%-46s found by %s, %.0f s" % (name, said, time.time() - start), flush=True)
    return bool(failed)


def main():
    wanted = sys.argv[1:] or list(EDITS)
    jobs = sample()
    assert not differ([j for part in jobs for j in part]), "the definitions as they stand differ"
    missed = []
    for name in wanted:
        page, old, new = EDITS[name]
        path = model.ROOT + "/crates/model/specs/%s.antt" % page
        text = open(path).read()
        if text.count(old) != 1:
            print("%-46s does not apply: its text stands there %d times" % (name, text.count(old)))
            missed.append(name)
            continue
        open(path, "w").write(text.replace(old, new))
        if not found(name, *jobs):
            missed.append(name)
        open(path, "w").write(text)
    print("%d edits, missed: %s" % (len(wanted), missed or "none"))
    sys.exit(1 if missed else 0)


if __name__ == "__main__":
    # a copy, so that the tree of the comparison is never left with an edit in it
    root = ROOT + "/mutants"
    shutil.rmtree(root, ignore_errors=True)
    os.makedirs(root + "/compare/out")
    for d in ("crates", "target", "crates.txt"):
        (shutil.copytree if os.path.isdir(ROOT + "/" + d) else shutil.copy)(ROOT + "/" + d, root + "/" + d)
    os.environ["MODEL_TREE"] = root
    import cases
    import compare
    import model
    main()

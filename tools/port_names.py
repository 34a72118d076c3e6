#!/usr/bin/env python3
"""Brings the repository's own definitions and lemmas to the spelling of today's Rattle. Run once, at the top, behind port.py.

A word of a name is in snake case (charLength becomes char_length), and a plain word of English is joined by `_` (by-class becomes
by_class), so that a dash stands between two names (text-octets: a law of `text` and `octets`). Types, names of src/, exported C names, strings, inputs and outputs keep theirs, and so
do names that come from a library, and the goals that a proof file answers. A name that would fall together with another keeps its dash.

Prints each renaming, old and new; with --dry changes nothing.
"""
import collections, os, re, sys

TOP = os.path.dirname(os.path.dirname(os.path.abspath(__file__)))
TOKEN = re.compile(r"[^\W\d][\w'→←∘?∷≡≤<ℕℤ-]*", re.U)
SIGNATURE = re.compile(r"^(?:abbrev |unfoldable |pub )*([^\s:(){}]+) : ")
WITHIN = re.compile(r"^ +(?:abbrev |unfoldable |pub )*([^\s:(){}λ]+) : ")
ANSWERS = ("Proof.antt", "Answers.antt", "Invariants.antt")
PLAIN = set("""a all also an and any as at be both by each first for from has if in into is it its itself last least left more most next
    no none not of on one only or other out over own past right same so some still than that the their then there they to too two under up
    upto was well when where which whole with within without""".split())
GOAL = re.compile(r" : (?:\(.*\) → )*tie\.")


def read(path):
    with open(path, encoding="utf-8") as f:
        return f.read()


def under(folder, ends):
    for d, ds, fs in os.walk(os.path.join(TOP, folder)):
        ds[:] = sorted(x for x in ds if x not in ("out", "target", ".git"))
        for f in sorted(fs):
            if f.endswith(ends):
                yield os.path.join(d, f)


def split_comment(line, mark):
    at = line.find(mark)
    return (line, "") if at < 0 else (line[:at], line[at:])


def snake(word):
    """A word in snake case, where it begins with a small letter."""
    if not re.match(r"[a-z]", word):
        return word
    return re.sub(r"(?<=[a-z0-9])([A-Z])", lambda m: "_" + m.group(1).lower(), word)


def declared():
    """Names that the repository declares, and names that it takes from elsewhere or that answer goals."""
    names, outside = set(), set()
    for p in under("crates", ".antt"):
        lines, inside = read(p).split("\n"), None
        answers = os.path.basename(p) in ANSWERS
        for line in lines:
            if answers and (m := SIGNATURE.match(line)) and not re.search(r"[a-z][A-Z]", m.group(1)):
                # a proof of one function: its names go with the goals
                outside.add(m.group(1))
                continue
            if m := re.match(r"^(?:pub )?(record|data) (\S+)", line):
                names.add(m.group(2))
                inside = m.group(1)
                continue
            if line and not line.startswith(" "):
                inside = None
            if inside and (m := re.match(r"^  (?:pub )?(\S+) : ", line)):
                names.add(m.group(1))
            if m := SIGNATURE.match(line):
                (outside if GOAL.search(line) else names).add(m.group(1))
            if m := re.match(r"^(?:pub )?use (\S+?)\.\{(.*)\}", line):
                if not m.group(1).startswith("Rattle.") or m.group(1).startswith("Rattle.std."):
                    outside.update(x.strip() for x in m.group(2).split(","))
            # what stands in a module or a `where`, and names bound by `let` or `λ`, go with the words of the file
            if (m := WITHIN.match(line)) and not answers and (re.search(r"[a-z0-9][A-Z]", m.group(1)) or line[2:3] != " " or m.group(1).isidentifier()):
                names.add(m.group(1))
            names.update(re.findall(r"\(([a-z][a-z0-9]*[A-Z]\w*) :", line))
            names.update(re.findall(r"let ([a-z][a-z0-9]*[A-Z]\w*)", line))
    return names, outside


def taken():
    """Each word that stands in code now."""
    words = set()
    for p in under("crates", (".antt", ".rt")):
        mark = "--" if p.endswith(".antt") else "//"
        for line in read(p).split("\n"):
            words.update(TOKEN.findall(split_comment(line, mark)[0]))
    return words


def functions():
    """The names of the functions of src/, which a definition may share."""
    return {w for p in under("crates", ".rt") for w in re.findall(r"\bfn (\w+)", read(p))}


def in_proofs():
    """Words that stand in files of definitions and proofs, but for projections and parts of paths."""
    words = set()
    for p in under("crates", ".antt"):
        for line in read(p).split("\n"):
            words.update(re.findall(r"(?<![\w.'-])([a-z]\w*)(?![\w.'-])", split_comment(line, "--")[0]))
    return words


def renamings():
    """Old and new names; and words that have to make room for a definition, which are lemmas or fields: they get `_lem`."""
    names, outside = declared()
    words = taken()
    shared = functions()
    free = in_proofs()
    room = {}
    out, new_names = {}, collections.Counter()
    # definitions first: a lemma between two names keeps its dash where a definition has the word
    for name in sorted(names - outside, key=lambda n: ("-" in n, n)):
        parts = [snake(p) for p in name.split("-")]
        new = parts[0]
        for old, p in zip(parts, parts[1:]):
            new += ("_" if old in PLAIN or p in PLAIN else "-") + p
        if new == name:
            continue
        if len(parts) > 1 and (new in words or new_names[new]):
            new = "-".join(parts)
            if new == name:
                continue
        if new_names[new] or len(parts) > 1 and new in words:
            print("falls together, kept:", name, "with", new)
            continue
        if new in free or new in words and new not in shared:
            room[new] = new + "_lem"
        new_names[new] += 1
        out[name] = new
    return out, room, shared


def turn(text, mapping):
    return TOKEN.sub(lambda m: mapping.get(m.group(0), m.group(0)), text)


def make_room(text, room, shared):
    """A word that a definition takes now becomes a lemma's; where a function has the word, projections and paths stay its own."""
    def one(m):
        new = room.get(m.group(0))
        if new is None:
            return m.group(0)
        before, after = text[m.start() - 1:m.start()], text[m.end():m.end() + 1]
        return m.group(0) if m.group(0) in shared and (before == "." or after == ".") else new
    return TOKEN.sub(one, text)


def turn_marked(text, mapping):
    """Prose: names stand between backticks; a word with a capital inside is a name anywhere."""
    camel = {a: b for a, b in mapping.items() if re.match(r"^[a-z]\w*[A-Z]\w*$", a)}
    parts = re.split(r"(`[^`\n]*`)", text)
    return "".join(turn(x, mapping if i % 2 else camel) for i, x in enumerate(parts))


def main():
    dry = "--dry" in sys.argv
    mapping, room, shared = renamings()
    for a in sorted(mapping):
        print(a, mapping[a])
    for a in sorted(room):
        print(a, room[a], "(makes room)")
    if dry:
        return
    for p in under("crates", (".antt", ".rt", ".edit")):
        mark = "--" if p.endswith(".antt") else "//"
        old, new = read(p), []
        for line in old.split("\n"):
            if p.endswith(".edit"):
                head = re.match(r"^(old|new): ", line)
                new.append(turn(line, mapping) if head else turn_marked(line, mapping))
                continue
            code, comment = split_comment(line, mark)
            if p.endswith(".antt"):
                code = make_room(code, room, shared)
            new.append(turn(code, mapping) + turn_marked(comment, mapping))
        write(p, old, "\n".join(new))
    for p in under("tests", ".edit"):
        old = read(p)
        write(p, old, "\n".join(turn(x, mapping) if re.match(r"^(old|new): ", x) else turn_marked(x, mapping) for x in old.split("\n")))
    for folder in ("docs", "tests", "bench"):
        for p in under(folder, (".md", ".antt.txt")):
            old = read(p)
            write(p, old, turn_marked(old, mapping) if p.endswith(".md") else turn(old, mapping))
    p = os.path.join(TOP, "README.md")
    write(p, read(p), turn_marked(read(p), mapping))


def write(path, old, new):
    if old != new:
        with open(path, "w", encoding="utf-8") as f:
            f.write(new)


if __name__ == "__main__":
    main()

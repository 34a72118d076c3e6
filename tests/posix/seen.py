"""What is seen of a case, in words, and when two answers are the same.

Seen is {answer, before, after}: an answer has r (0 or None where accepted), number, out, rows; before and after have the tree
(path, record, contents or target) and the current directory. The same words serve the real system, the Rust and this project."""

KIND = {"d": "directory", "f": "file", "l": "link"}
NAMES = {1: "badStore", 2: "badText", 3: "tooLong", 4: "badNumber", 5: "noLastName", 6: "pathTooLong", 7: "linkLoop", 8: "notFound",
         9: "notDirectory", 10: "wrongKind", 11: "underItself", 12: "alreadyThere", 13: "badSeek", 14: "shortBuffer", 15: "noEntries", 16: "noBytes"}

# the refusals that an error of the system stands for; EINVAL by the call
ERRORS = {"ENOENT": {8}, "ENOTDIR": {9, 10}, "EISDIR": {5, 10}, "ELOOP": {7}, "EEXIST": {12}, "ENOTEMPTY": {12}, "EBUSY": {5},
          "ENAMETOOLONG": {3, 6}, "EBADF": {4}, "EPERM": {10}, "EOVERFLOW": {13}, "rm refuses": {5}}
EINVAL = {"readlink": {10}, "rename": {11}, "seek": {13}}


TIMES = ["accessed", "changed", "created", "modified"]


def stands_for(error, word):
    return EINVAL.get(word, set()) if error == "EINVAL" else ERRORS.get(error, set())


def text(b):
    """Bytes, printable and short."""
    s = "".join(chr(c) if 32 <= c < 127 and c != 92 else "\\x%02x" % c for c in b)
    return s if len(s) <= 40 else "%s..%s (%d bytes)" % (s[:8], s[-4:], len(b))


def quoted(b):
    return '"%s"' % text(b)


def what(record, data):
    kind = record[0]
    return "file " + quoted(data) if kind == "f" else "link to " + quoted(data) if kind == "l" else "directory"


def answered(word, answer, after):
    out = bytes.fromhex(answer["out"])
    if word in ("canon",):
        return text(out)
    if word in ("read", "readn", "readlink"):
        return quoted(out)
    if word == "umask":
        return "%o" % answer["number"]
    if word in ("copy", "seek"):
        return str(answer["number"])
    if word == "cwd":
        return "at " + text(bytes.fromhex(after["cwd"]))
    if word in ("meta", "lmeta", "metan"):
        r = answer["rows"][0]
        return "file of %d" % r[1] if r[0] == "f" else KIND[r[0]]
    if word == "list":
        return " ".join(sorted(text(n) for n in out.split(b"\0")[:-1] if n not in (b".", b".."))) or "empty"
    return "accepted"


def changes(before, after):
    old, new = ({p: (r, d) for p, r, d in s["tree"]} for s in (before, after))
    said = []
    for p in sorted(set(old) | set(new)):
        name = text(bytes.fromhex(p)) or "/"
        if p not in new:
            said.append("%s gone" % name)
        else:
            w = what(new[p][0], bytes.fromhex(new[p][1]))
            if p not in old:
                said.append("%s a new %s" % (name, w))
            elif w != what(old[p][0], bytes.fromhex(old[p][1])):
                said.append("%s now %s" % (name, w))
    return said


def watched(what_, path, answer, before, after):
    key = b"" if path == "/" else path.encode()
    if what_ in ("order", "dots"):
        names = [n.decode() for n in bytes.fromhex(answer["out"]).split(b"\0")[:-1]]
        if what_ == "order":
            return "as listed: " + " ".join(n for n in names if n not in (".", ".."))
        return "`.` and `..` listed" if "." in names else "no `.` and `..`"
    old, new = (dict((p, r) for p, r, _ in s["tree"]).get(key.hex()) for s in (before, after))
    if what_ == "mode":
        return "%s mode %s" % (path, "%o" % new[2] if new else "-")
    if what_ == "length":
        return "%s length %s" % (path, "0" if new[1] == 0 else "not 0" if new[0] == "d" else new[1])
    if what_ in TIMES:
        t = new[3][TIMES.index(what_)]
        return "%s %s %s" % (path, what_, "none" if t is None else "the clock's" if t > 10 ** 15 else t)
    if old is None:
        old = next(r for p, r, _ in before["tree"] if r[0] == new[0] and p)
    same = lambda i: "old" if old[3][i] == new[3][i] else "new"
    return "%s accessed %s, changed %s, modified %s" % (path, same(0), same(1), same(3))


def result(case, seen, refused):
    """In words. refused says how a refusal is written."""
    answer = seen["answer"]
    said = [refused(answer)] if answer["r"] else [answered(case.call[0], answer, seen["after"])]
    said += changes(seen["before"], seen["after"])
    if not answer["r"]:
        said += [watched(w, p, answer, seen["before"], seen["after"]) for w, p in case.watch]
    return "; ".join(said)

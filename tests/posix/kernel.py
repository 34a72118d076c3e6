"""A case on a real file system: in a child process, below a root of its own (chroot), so that `/` and absolute links mean the case's
tree. Needs the superuser. Gives what is seen as seen.py has it."""
import ctypes
import errno
import json
import os
import stat as statmod
import time

libc = ctypes.CDLL(None, use_errno=True)
libc.realpath.restype = ctypes.c_void_p
libc.realpath.argtypes = [ctypes.c_char_p, ctypes.c_char_p]
libc.opendir.restype = ctypes.c_void_p
libc.opendir.argtypes = [ctypes.c_char_p]
libc.closedir.argtypes = [ctypes.c_void_p]
libc.readdir64.argtypes = [ctypes.c_void_p]
libc.lseek64.restype = ctypes.c_int64
libc.lseek64.argtypes = [ctypes.c_int, ctypes.c_int64, ctypes.c_int]
libc.ftruncate64.argtypes = [ctypes.c_int, ctypes.c_int64]

USER = 65534
KINDS = {statmod.S_IFDIR: "d", statmod.S_IFREG: "f", statmod.S_IFLNK: "l"}


class Dirent(ctypes.Structure):
    _fields_ = [("ino", ctypes.c_uint64), ("off", ctypes.c_int64), ("reclen", ctypes.c_uint16), ("type", ctypes.c_uint8), ("name", ctypes.c_char * 256)]


class Timespec(ctypes.Structure):
    _fields_ = [("sec", ctypes.c_int64), ("nsec", ctypes.c_int64)]


libc.readdir64.restype = ctypes.POINTER(Dirent)


class Said(Exception):
    """What is no error of a system call."""


def checked(result):
    if result == -1:
        raise OSError(ctypes.get_errno(), "")
    return result


def signed(n):
    return n if n < 2 ** 63 else n - 2 ** 64


def c_text(p):
    if b"\0" in p:
        raise Said("cannot be passed")
    return p


def row(st):
    return [KINDS[statmod.S_IFMT(st.st_mode)], st.st_size, statmod.S_IMODE(st.st_mode), [st.st_atime_ns, st.st_ctime_ns, None, st.st_mtime_ns]]


class Kernel:
    def __init__(self):
        self.fds, self.making = {}, False

    def fd(self, n):
        return self.fds.get(n, 999)

    def canon(self, p, lent):
        buf = ctypes.create_string_buffer(8192)
        if libc.realpath(c_text(p), buf) is None:
            raise OSError(ctypes.get_errno(), "")
        return {"out": buf.value}

    def cwd(self, p):
        os.chdir(c_text(p))

    def umask(self, m):
        return {"number": os.umask(m)}

    def mkdir(self, p, t):
        if self.making:
            os.makedirs(p, 0o755, exist_ok=True)
        else:
            os.mkdir(c_text(p), 0o755)

    def open(self, p, n, flags, mode, t, access):
        how = {"r": os.O_RDONLY, "w": os.O_WRONLY, "rw": os.O_RDWR}[access]
        for bit, flag in ((1, os.O_CREAT), (2, os.O_EXCL), (4, os.O_TRUNC), (8, os.O_APPEND)):
            how |= flag if flags & bit else 0
        self.fds[n] = checked(libc.open64(c_text(p), how, ctypes.c_uint32(mode if flags & 16 else 0o666)))

    def read(self, p, lent):
        fd = os.open(c_text(p), os.O_RDONLY)
        try:
            return {"out": os.read(fd, 1 << 20)}
        finally:
            os.close(fd)

    def write(self, p, data, t):
        fd = os.open(c_text(p), os.O_WRONLY | os.O_CREAT | os.O_TRUNC, 0o666)
        os.write(fd, data)
        os.close(fd)

    def copy(self, p, q, t):
        data = self.read(p, 0)["out"]
        self.write(q, data, t)
        return {"number": len(data)}

    def hard(self, p, q, t):
        checked(libc.link(c_text(p), c_text(q)))

    def link(self, target, p, t):
        if self.making and os.path.lexists(p):
            os.unlink(p)
        os.symlink(c_text(target), c_text(p))

    def rmfile(self, p):
        os.unlink(c_text(p))

    def rmdir(self, p):
        os.rmdir(c_text(p))

    def rmtree(self, p):
        """The utility rm -r, which refuses `/`."""
        if p and os.path.normpath(p) == b"/":
            raise Said("rm refuses")
        if statmod.S_ISDIR(os.lstat(p).st_mode):
            for name in os.listdir(p):
                self.rmtree(p + b"/" + name)
            os.rmdir(p)
        else:
            os.unlink(p)

    def rename(self, p, q, t):
        os.rename(c_text(p), c_text(q))

    def meta(self, p, rows):
        return {"rows": [row(os.stat(c_text(p)))]}

    def lmeta(self, p, rows):
        return {"rows": [row(os.lstat(c_text(p)))]}

    def readlink(self, p, lent):
        return {"out": os.readlink(c_text(p))[:lent]}

    def chmod(self, p, mode):
        checked(libc.chmod(c_text(p), ctypes.c_uint32(mode)))

    def utimes(self, p, a, m):
        os.utime(c_text(p), ns=(a, m))

    def list(self, p, lent, rows):
        d = libc.opendir(c_text(p))
        if not d:
            raise OSError(ctypes.get_errno(), "")
        names = []
        while True:
            e = libc.readdir64(d)
            if not e:
                break
            names.append(e.contents.name)
        libc.closedir(d)
        return {"out": b"".join(n + b"\0" for n in names)}

    def close(self, n):
        os.close(self.fd(n))

    def readn(self, n, lent):
        return {"out": os.read(self.fd(n), lent)}

    def seek(self, n, origin, offset):
        return {"number": checked(libc.lseek64(self.fd(n), signed(offset), origin))}

    def setlen(self, n, size):
        checked(libc.ftruncate64(self.fd(n), signed(size)))

    def chmodn(self, n, mode):
        checked(libc.fchmod(self.fd(n), ctypes.c_uint32(mode)))

    def utimesn(self, n, given, a, m):
        omit = (1 << 30) - 2
        times = (Timespec * 2)(Timespec(0, a if given & 1 else omit), Timespec(0, m if given & 2 else omit))
        checked(libc.futimens(self.fd(n), times))

    def metan(self, n, rows):
        return {"rows": [row(os.fstat(self.fd(n)))]}


def tree(path=b""):
    """Every entry: path, record, contents or target."""
    r = row(os.lstat(path or b"/"))
    data = b""
    if r[0] == "f":
        with open(path, "rb") as f:
            data = f.read(1 << 16)
    if r[0] == "l":
        data = os.readlink(path)
    out = [[path.hex(), r, data.hex()]]
    if r[0] == "d":
        for name in sorted(os.listdir(path or b"/")):
            out += tree(path + b"/" + name)
    return out


def again(entries):
    """The same entries with their records as they are now."""
    return [[p, row(os.lstat(bytes.fromhex(p) or b"/")), d] for p, _, d in entries]


def where():
    try:
        return os.getcwdb().hex()
    except OSError:
        return b"(removed)".hex()


def as_user(user, on):
    if user:
        os.setegid(USER if on else 0)
        os.seteuid(USER if on else 0)


def in_child(case, root):
    os.chroot(root)
    os.chdir("/")
    os.umask(0)
    os.chmod("/", 0o755)
    if case.user:
        os.chown("/", USER, USER)
        os.setgroups([])
    k = Kernel()
    run = lambda s: getattr(k, s[0])(*s[1], *s[2], *([s[3]] if s[0] == "open" else []))
    as_user(case.user, True)
    k.making = True
    try:
        for s in case.tree:
            run(s)
    except OSError:
        nothing = {"tree": [], "cwd": ""}
        return {"answer": {"r": "cannot be made"}, "before": nothing, "after": nothing}
    k.making = False
    as_user(case.user, False)
    entries = tree()
    for p, _, _ in entries:
        os.utime(bytes.fromhex(p) or b"/", ns=(0, 0), follow_symlinks=False)
    before = {"tree": again(entries), "cwd": where()}
    time.sleep(0.02)
    answer = {"r": None, "number": 0, "out": b"", "rows": []}
    as_user(case.user, True)
    try:
        answer.update(run(case.call) or {})
    except Said as e:
        answer["r"] = str(e)
    except OSError as e:
        answer["r"] = errno.errorcode[e.errno]
    as_user(case.user, False)
    entries = [[p, r, None] for p, r, _ in before["tree"] if os.path.lexists(bytes.fromhex(p) or b"/")]
    records = {p: r for p, r, _ in again(entries)}  # before the contents are read again, which changes accessed
    after = {"tree": [[p, records.get(p, r), d] for p, r, d in tree()], "cwd": where()}
    answer["out"] = answer["out"].hex()
    return {"answer": answer, "before": before, "after": after}


def seen(case, root):
    r, w = os.pipe()
    pid = os.fork()
    if pid == 0:
        try:
            os.write(w, json.dumps(in_child(case, root)).encode())
        except BaseException as e:
            os.write(w, json.dumps({"failed": repr(e)}).encode())
        os._exit(0)
    os.close(w)
    parts = []
    while True:
        part = os.read(r, 1 << 16)
        if not part:
            break
        parts.append(part)
    os.close(r)
    os.waitpid(pid, 0)
    out = json.loads(b"".join(parts))
    assert "failed" not in out, out
    return out

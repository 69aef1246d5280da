"""The calls of the tables, by their names. Each takes the case's open files and the words after its name, and gives what it returns, as
text, or nothing. A word that begins with % is an open file."""
import ctypes
import os
import stat

AT_FDCWD, AT_SYMLINK_NOFOLLOW, AT_REMOVEDIR, AT_SYMLINK_FOLLOW = -100, 0x100, 0x200, 0x400
UTIME_NOW, UTIME_OMIT = (1 << 30) - 1, (1 << 30) - 2

ACCESS = {"r": os.R_OK, "w": os.W_OK, "x": os.X_OK, "f": os.F_OK}
OPEN = {name[2:].lower(): getattr(os, name) for name in dir(os) if name.startswith("O_")}
RENAME = {"noreplace": 1, "exchange": 2, "whiteout": 4}
FALLOCATE = {"allocate": 0, "keep_size": 1, "punch_hole": 2, "collapse_range": 8, "zero_range": 16, "insert_range": 32}
XATTR = {"create": os.XATTR_CREATE, "replace": os.XATTR_REPLACE}
WHENCE = {"set": os.SEEK_SET, "cur": os.SEEK_CUR, "end": os.SEEK_END, "data": os.SEEK_DATA, "hole": os.SEEK_HOLE}
KINDS = {
    "file": stat.S_IFREG, "dir": stat.S_IFDIR, "fifo": stat.S_IFIFO, "char": stat.S_IFCHR, "block": stat.S_IFBLK, "sock": stat.S_IFSOCK,
    "sym": stat.S_IFLNK, "none": 0,
}

libc = ctypes.CDLL(None, use_errno=True)
libc.fallocate.argtypes = [ctypes.c_int, ctypes.c_int, ctypes.c_int64, ctypes.c_int64]


class Timespec(ctypes.Structure):
    _fields_ = [("sec", ctypes.c_long), ("nsec", ctypes.c_long)]


def of_libc(result):
    if result < 0:
        code = ctypes.get_errno()
        raise OSError(code, os.strerror(code))


def bits_of(words, bits):
    """The sum of the named bits in `a,b`; a number stands for itself."""
    return sum(int(word, 0) if word[:1].isdigit() else bits[word] for word in words.split(","))


def mode_of(word):
    return int(word, 8)


def id_of(word):
    return -1 if word == "-" else int(word)


def owner_of(word):
    """`1001`, `1001:1002`"""
    uid, _, gid = word.partition(":")
    return int(uid), int(gid or uid)


def device_of(word):
    return os.makedev(*[int(it) for it in word.split(":")])


def bytes_of(text):
    return text.encode("latin-1")


def text_of(data):
    return data.decode("latin-1")


def time_of(word):
    """`now`, `omit`, seconds, or seconds and nanoseconds after a dot"""
    if word in ("now", "omit"):
        return Timespec(0, UTIME_NOW if word == "now" else UTIME_OMIT)
    seconds, _, nanos = word.partition(".")
    return Timespec(int(seconds), int(nanos or 0))


def times_of(words):
    """The two times of utimensat; without words there are none, which means now."""
    return (Timespec * 2)(*[time_of(it) for it in words]) if words else None


class Files:
    """The open files of a case, by their names."""

    def __init__(self):
        self.numbers = {}

    def of(self, word):
        if word == "%none":
            return 1 << 20
        return self.numbers[word] if word.startswith("%") else word

    def add(self, name, number):
        self.numbers[name] = number

    def close(self, name):
        os.close(self.numbers.pop(name))

    def close_all(self):
        for name in list(self.numbers):
            self.close(name)


# ---- what a case begins with: made by root, with exactly this mode and owner


def make(kind, path, mode="0644", owner="0", text=""):
    if kind == "file":
        with open(path, "xb") as file:
            file.write(bytes_of(text))
    elif kind == "dir":
        os.mkdir(path)
    elif kind == "sym":
        os.symlink(text or "nowhere", path)
    else:
        os.mknod(path, KINDS[kind] | 0o600, os.makedev(1, 3) if kind in ("char", "block") else 0)
    os.chown(path, *owner_of(owner), follow_symlinks=False)
    if kind != "sym":
        os.chmod(path, mode_of(mode))


# ---- calls


def do_open(files, path, flags, *words):
    """open PATH FLAGS [MODE] [%NAME]: without a name it is closed at once."""
    name = words[-1] if words and words[-1].startswith("%") else None
    mode = mode_of(words[0]) if words and words[0] != name else 0o666
    number = os.open(path, bits_of(flags, OPEN), mode)
    if name:
        files.add(name, number)
    else:
        os.close(number)


def do_renameat2(files, old, new, flags):
    of_libc(libc.renameat2(AT_FDCWD, bytes_of(old), AT_FDCWD, bytes_of(new), bits_of(flags, RENAME)))


def do_linkat(files, old, new, flags):
    of_libc(libc.linkat(AT_FDCWD, bytes_of(old), AT_FDCWD, bytes_of(new), {"follow": AT_SYMLINK_FOLLOW, "none": 0}[flags]))


def do_link_open(files, name, new):
    """Links an open file, by its name in /proc."""
    of_libc(libc.linkat(AT_FDCWD, bytes_of(f"/proc/self/fd/{files.of(name)}"), AT_FDCWD, bytes_of(new), AT_SYMLINK_FOLLOW))


def do_unlinkat(files, path, flags):
    of_libc(libc.unlinkat(AT_FDCWD, bytes_of(path), {"removedir": AT_REMOVEDIR, "none": 0}[flags]))


def do_mknod(files, path, kind, mode, device="0:0"):
    os.mknod(path, KINDS[kind] | mode_of(mode), device_of(device))


def do_utimensat(files, path, *words):
    of_libc(libc.utimensat(AT_FDCWD, bytes_of(path), times_of(words), 0))


def do_lutimensat(files, path, *words):
    of_libc(libc.utimensat(AT_FDCWD, bytes_of(path), times_of(words), AT_SYMLINK_NOFOLLOW))


def do_futimens(files, name, *words):
    of_libc(libc.futimens(files.of(name), times_of(words)))


def do_setxattr(files, path, name, text, flags="0"):
    os.setxattr(files.of(path), name, bytes_of(text), bits_of(flags, XATTR))


def do_lsetxattr(files, path, name, text, flags="0"):
    os.setxattr(path, name, bytes_of(text), bits_of(flags, XATTR), follow_symlinks=False)


def names_in(names):
    return ",".join(sorted(names))


def do_write(files, name, text, offset=None):
    """write %NAME TEXT [OFFSET]: with an offset, pwrite."""
    number, data = files.of(name), bytes_of(text)
    return str(os.write(number, data) if offset is None else os.pwrite(number, data, int(offset)))


def do_read(files, name, size, offset=None):
    number = files.of(name)
    return text_of(os.read(number, int(size)) if offset is None else os.pread(number, int(size), int(offset)))


def do_mkdirat(files, name, path, mode):
    os.mkdir(path, mode_of(mode), dir_fd=files.of(name))


def do_openat(files, name, path, flags, mode="0666"):
    os.close(os.open(path, bits_of(flags, OPEN), mode_of(mode), dir_fd=files.of(name)))


def do_access(files, path, words):
    """access(2) asks for the real user."""
    of_libc(libc.access(bytes_of(path), bits_of(words, ACCESS)))


def do_run(files, path):
    """Runs a program; its status."""
    return str(os.waitstatus_to_exitcode(os.waitpid(os.posix_spawn(path, [path], {}), 0)[1]))


def do_lstat(files, path):
    os.lstat(path)


def do_stat(files, path):
    os.stat(path)


def do_umask(files, mode):
    os.umask(mode_of(mode))


CALLS = {
    "access": do_access,
    "cd": lambda files, path: os.chdir(path),
    "chmod": lambda files, path, mode: os.chmod(path, mode_of(mode)),
    "chown": lambda files, path, uid, gid: os.chown(path, id_of(uid), id_of(gid)),
    "close": lambda files, name: files.close(name),
    "fallocate": lambda files, name, mode, offset, size: of_libc(
        libc.fallocate(files.of(name), bits_of(mode, FALLOCATE), int(offset), int(size))),
    "fchdir": lambda files, name: os.fchdir(files.of(name)),
    "fchmod": lambda files, name, mode: os.fchmod(files.of(name), mode_of(mode)),
    "fchown": lambda files, name, uid, gid: os.fchown(files.of(name), id_of(uid), id_of(gid)),
    "fdatasync": lambda files, name: os.fdatasync(files.of(name)),
    "fsync": lambda files, name: os.fsync(files.of(name)),
    "ftruncate": lambda files, name, size: os.ftruncate(files.of(name), int(size)),
    "futimens": do_futimens,
    "getxattr": lambda files, path, name: text_of(os.getxattr(files.of(path), name)),
    "lchown": lambda files, path, uid, gid: os.lchown(path, id_of(uid), id_of(gid)),
    "lgetxattr": lambda files, path, name: text_of(os.getxattr(path, name, follow_symlinks=False)),
    "link": lambda files, old, new: of_libc(libc.link(bytes_of(old), bytes_of(new))),
    "link_open": do_link_open,
    "linkat": do_linkat,
    "listxattr": lambda files, path: names_in(os.listxattr(files.of(path))),
    "ls": lambda files, path: names_in(os.listdir(files.of(path))),
    "lseek": lambda files, name, offset, whence: str(os.lseek(files.of(name), int(offset), bits_of(whence, WHENCE))),
    "lsetxattr": do_lsetxattr,
    "lstat": do_lstat,
    "lutimensat": do_lutimensat,
    "mkdir": lambda files, path, mode: os.mkdir(path, mode_of(mode)),
    "mkdirat": do_mkdirat,
    "mkfifo": lambda files, path, mode: os.mkfifo(path, mode_of(mode)),
    "mknod": do_mknod,
    "open": do_open,
    "openat": do_openat,
    "posix_fallocate": lambda files, name, offset, size: os.posix_fallocate(files.of(name), int(offset), int(size)),
    "read": do_read,
    "readlink": lambda files, path: os.readlink(path),
    "removexattr": lambda files, path, name: os.removexattr(files.of(path), name),
    "rename": lambda files, old, new: os.rename(old, new),
    "renameat2": do_renameat2,
    "rmdir": lambda files, path: os.rmdir(path),
    "run": do_run,
    "setxattr": do_setxattr,
    "stat": do_stat,
    "symlink": lambda files, target, path: os.symlink(target, path),
    "truncate": lambda files, path, size: os.truncate(path, int(size)),
    "umask": do_umask,
    "unlink": lambda files, path: os.unlink(path),
    "unlinkat": do_unlinkat,
    "utimensat": do_utimensat,
    "write": do_write,
}
CALLS.update({kind: lambda files, *words, kind=kind: make(kind, *words) for kind in KINDS if kind != "none"})

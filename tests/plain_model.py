"""A plain file system in python, by the rules alone: what `tests/run` compares the program's replies with."""

NUMBER = {"NotFound": 1, "Exists": 2, "NotDir": 3, "IsDir": 4, "BadPath": 5, "TooLong": 6, "TooMuch": 7, "IntoSelf": 8}
MOST_BYTES, LONGEST, MOST_CUT = 262144, 268435456, 64


class PlainError(Exception):
    pass


def names_of(path):
    if path == "/":
        return ()
    names = tuple(path.split("/"))
    if len(path.encode()) > 4096 or names[0] != "" or len(names) < 2:
        raise PlainError("BadPath")
    for name in names[1:]:
        if not 1 <= len(name.encode()) <= 255 or name in (".", "..") or "\0" in name:
            raise PlainError("BadPath")
    return names[1:]


def blocks(length):
    return -(-length // 4096)


class Plain:
    def __init__(self):
        self.tree = {(): None}  # a directory is None, a file its bytes

    def resolve(self, names):
        """What stands at the names, going from the root."""
        for n in range(len(names)):
            if self.tree[names[:n]] is not None:
                raise PlainError("NotDir")
            if names[: n + 1] not in self.tree:
                raise PlainError("NotFound")
        return self.tree[names]

    def new_place(self, names):
        if not names:
            raise PlainError("Exists")
        if self.resolve(names[:-1]) is not None:
            raise PlainError("NotDir")
        if names in self.tree:
            raise PlainError("Exists")

    def file(self, names):
        bytes_ = self.resolve(names)
        if bytes_ is None:
            raise PlainError("IsDir")
        return bytes_

    def make(self, path, what):
        names = names_of(path)
        self.new_place(names)
        self.tree[names] = what
        return "done"

    def mkdir(self, path):
        return self.make(path, None)

    def create(self, path):
        return self.make(path, b"")

    def write(self, path, offset, data):
        names = names_of(path)
        if len(data) > MOST_BYTES:
            raise PlainError("TooMuch")
        old = self.file(names)
        if not data:
            return "done"
        if offset + len(data) > LONGEST:
            raise PlainError("TooLong")
        old = old.ljust(offset, b"\0")
        self.tree[names] = old[:offset] + data + old[offset + len(data) :]
        return "done"

    def read(self, path, offset, length):
        names = names_of(path)
        if length > MOST_BYTES:
            raise PlainError("TooMuch")
        return "bytes " + (self.file(names)[offset : offset + length].hex() or "-")

    def resize(self, path, length):
        names = names_of(path)
        old = self.file(names)
        if length > LONGEST:
            raise PlainError("TooLong")
        if length == len(old):
            return "done"
        if length > 0 and blocks(length) + MOST_CUT < blocks(len(old)):
            raise PlainError("TooMuch")
        self.tree[names] = old[:length].ljust(length, b"\0")
        return "done"

    def stat(self, path):
        at = self.resolve(names_of(path))
        return "stat dir 0" if at is None else f"stat file {len(at)}"

    def list(self, path, after=""):
        names = names_of(path)
        if self.resolve(names) is not None:
            raise PlainError("NotDir")
        there = sorted(n[-1].encode() for n in self.tree if n and n[:-1] == names and n[-1].encode() > after.encode())[:64]
        return "names " + " ".join([str(len(there))] + [name.decode() for name in there])

    def rename(self, source, to):
        olds = names_of(source)
        news = names_of(to)
        if not olds:
            raise PlainError("BadPath")
        self.resolve(olds)
        if news[: len(olds)] == olds and len(news) > len(olds):
            raise PlainError("IntoSelf")
        self.new_place(news)
        moved = {names: what for names, what in self.tree.items() if names[: len(olds)] == olds}
        for names in moved:
            del self.tree[names]
        for names, what in moved.items():
            self.tree[news + names[len(olds) :]] = what
        return "done"

    def remove(self, path):
        names = names_of(path)
        if not names:
            raise PlainError("BadPath")
        self.resolve(names)
        for below in [n for n in self.tree if n[: len(names)] == names]:
            del self.tree[below]
        return "done"

    def sync(self):
        return "synced"

    def reply(self, request, *args):
        try:
            return getattr(self, request)(*args)
        except PlainError as error:
            return f"error {NUMBER[error.args[0]]} {error.args[0]}"

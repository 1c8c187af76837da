"""The table beneath the plain file system in python, with its root hash from scratch: ids, versions, trash and records by
the rules of docs/FORMATS.md alone."""

import hashlib
import hmac

from plain_model import Plain, blocks


def sha(data):
    return hashlib.sha256(data).digest()


class Row:
    def __init__(self, number, is_file):
        self.id, self.is_file, self.inside = number, is_file, {}
        self.length = self.counter = 0
        self.versions = {}  # of the places that are no holes

    def own_blocks(self):
        return blocks(self.length)


def side(file, level, index, versions):
    """The side of a range of places, as bytes."""
    count = 1 << level
    there = {v for place, v in versions.items() if place // count == index}
    holes = count - sum(place // count == index for place in versions)
    if not there or (len(there) == 1 and not holes):
        return b"\0" + (there.pop() if there else 0).to_bytes(8, "big")
    halves = [side(file, level - 1, 2 * index + half, versions) for half in (0, 1)]
    part = b"\1\3" + file.to_bytes(8, "big") + bytes([level]) + index.to_bytes(4, "big") + halves[0] + halves[1]
    return b"\1" + sha(part)


class Table:
    def __init__(self, master):
        self.order = hmac.new(master, b"order", hashlib.sha256).digest()
        self.plain, self.next = Plain(), 2
        self.root, self.trash = Row(0, False), Row(1, False)

    def priority(self, row):
        return hmac.new(self.order, row.id.to_bytes(8, "big"), hashlib.sha256).digest()[:8], -row.id

    def at(self, path):
        row = self.root
        for name in path.split("/")[1:]:
            row = row.inside[name.encode()]
        return row

    def above(self, path):
        front, _, name = path.rpartition("/")
        return (self.at(front) if front else self.root), name.encode()

    def new(self, path, is_file):
        row, name = self.above(path)
        row.inside[name] = Row(self.next, is_file)
        self.next += 1

    def throw(self, row):
        self.trash.inside[b"%016x" % row.id] = row

    def change(self, request, path, *args):
        if request in ("mkdir", "create"):
            self.new(path, request == "create")
        elif request == "write" and args[1]:
            row, offset, end = self.at(path), args[0], args[0] + len(args[1])
            row.counter += 1
            row.length = max(row.length, end)
            row.versions.update({place: row.counter for place in range(offset // 4096, (end - 1) // 4096 + 1)})
        elif request == "resize" and args[0] != self.at(path).length:
            self.resize(path, args[0])
        elif request == "rename":
            (row, name), (to, new) = self.above(path), self.above(args[0])
            to.inside[new] = row.inside.pop(name)
        elif request == "remove":
            row, name = self.above(path)
            self.throw(row.inside.pop(name))

    def resize(self, path, length):
        row = self.at(path)
        if length == 0:
            self.throw(row)
            return self.new(path, True)
        row.counter += 1
        if length < row.length:
            row.versions = {place: v for place, v in row.versions.items() if place < blocks(length)}
            if length % 4096 and length // 4096 in row.versions:
                row.versions[length // 4096] = row.counter
        row.length = length

    def reclaim(self):
        if self.trash.inside:
            name, row = min(self.trash.inside.items())
            if row.versions:
                for place in sorted(row.versions)[:16]:
                    del row.versions[place]
            elif row.inside:
                self.throw(row.inside.pop(min(row.inside)))
            else:
                del self.trash.inside[name]
        return "reclaimed left" if self.trash.inside else "reclaimed empty"

    def link(self, rows):
        """The link to the treap of rows, with its count of blocks."""
        if not rows:
            return b"\0", 0
        name, top = max(rows, key=lambda named: self.priority(named[1]))
        (less, a), (more, b) = self.link([r for r in rows if r[0] < name]), self.link([r for r in rows if r[0] > name])
        record, inside = self.record(name, top, less, more)
        count = a + inside + b
        return b"\1" + top.id.to_bytes(8, "big") + sha(record) + count.to_bytes(8, "big"), count

    def record(self, name, row, less, more):
        front = row.id.to_bytes(8, "big") + bytes([len(name)]) + name + less + more
        if row.is_file:
            numbers = row.length.to_bytes(8, "big") + row.counter.to_bytes(8, "big")
            return b"\1\2" + front + numbers + side(row.id, 16, 0, row.versions), row.own_blocks()
        top, inside = self.link(list(row.inside.items()))
        return b"\1\1" + front + top, inside

    def root_hash(self):
        both = [sha(self.record(b"", row, b"\0", b"\0")[0]) for row in (self.root, self.trash)]
        return sha(both[0] + both[1] + self.next.to_bytes(8, "big"))

    def walk(self, rows):
        """The blocks of rows as their treap is walked over, holes too: file, place and version."""
        if not rows:
            return []
        name, top = max(rows, key=lambda named: self.priority(named[1]))
        own = [(top.id, place, top.versions.get(place, 0)) for place in range(top.own_blocks())]
        middle = own if top.is_file else self.walk(list(top.inside.items()))
        return self.walk([r for r in rows if r[0] < name]) + middle + self.walk([r for r in rows if r[0] > name])

    def probe(self, at):
        blocks = [block for row in (self.root, self.trash) for block in self.walk(list(row.inside.items()))]
        return "probed %d %d %d" % blocks[at] if at < len(blocks) else "error 1 NotFound"

    def reply(self, request, *args):
        if request == "reclaim":
            return self.reclaim()
        if request == "probe":
            return self.probe(*args)
        if request == "root":
            return "digest " + self.root_hash().hex()
        said = self.plain.reply(request, *args)
        if not said.startswith("error"):
            self.change(request, *args)
        return said

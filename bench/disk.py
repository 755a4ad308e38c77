"""A model of a disk for `bench/powercut`: what a program did to the files of a folder, and what of it a power cut may leave.

A node is a folder, with names of nodes, or a file, with bytes. What was synced lasts:

- a name that was put, taken away or moved lasts once the folder in which it stands, or stood, was synced, and where it was moved the one
  into which it was; a rename is one step
- bytes that were written, and a length that was set, last once their file was synced

Of what wasn't synced any part may be there, in no order. Of a file's writes it is a first part, the last of them maybe cut; or, with `holes`,
any of its pages, each as it was at some place, the others being zeros.
"""

from collections import namedtuple
import hashlib
import os

Put = namedtuple("Put", "folder name node")
Drop = namedtuple("Drop", "folder name node")
Move = namedtuple("Move", "folder name to new_name node")
Write = namedtuple("Write", "node at data")
Resize = namedtuple("Resize", "node length")
Sync = namedtuple("Sync", "node path")
Told = namedtuple("Told", "data")
End = namedtuple("End", "")

NAMES, BYTES = (Put, Drop, Move), (Write, Resize)
TOP, PAGE = 1, 4096


class Disk:
    """Nodes by their numbers; the folder in which the program runs is `TOP`."""

    def __init__(self):
        self.nodes, self.next = {TOP: {}}, TOP + 1

    def copy(self):
        other = Disk()
        other.next = self.next
        other.nodes = {number: dict(node) if isinstance(node, dict) else node for number, node in self.nodes.items()}
        return other

    def add(self, node):
        self.nodes[self.next] = node
        self.next += 1
        return self.next - 1

    def load(self, folder, at=TOP):
        for name in sorted(os.listdir(folder)):
            path = os.path.join(folder, name)
            if os.path.isdir(path):
                self.nodes[at][name] = self.add({})
                self.load(path, self.nodes[at][name])
            else:
                with open(path, "rb") as file:
                    self.nodes[at][name] = self.add(file.read())
        return self

    def store(self, folder, at=TOP, above=()):
        for name, number in self.nodes[at].items():
            path, node = os.path.join(folder, name), self.nodes[number]
            if not isinstance(node, dict):
                with open(path, "wb") as file:
                    file.write(node)
            elif number not in above:
                os.mkdir(path)
                self.store(path, number, above + (number,))

    def find(self, path, at=TOP):
        for part in path.split("/"):
            if part not in ("", "."):
                names = self.nodes.get(at)
                if not isinstance(names, dict) or part not in names:
                    return None
                at = names[part]
        return at

    def place(self, path, at=TOP):
        """The folder above a path, and the last name."""
        above, _, name = path.rstrip("/").rpartition("/")
        return self.find(above, at), name

    def text(self, at=TOP):
        """What stands here, as one text: equal disks have equal ones, whatever the numbers of their nodes."""
        node = self.nodes[at]
        if isinstance(node, dict):
            return "{" + ",".join(f"{name!r}:{self.text(number)}" for name, number in sorted(node.items())) + "}"
        return hashlib.sha1(node).hexdigest()

    def do(self, op):
        if isinstance(op, Put):
            self.nodes[op.folder][op.name] = op.node
        elif isinstance(op, Drop):
            if self.nodes[op.folder].get(op.name) == op.node:
                del self.nodes[op.folder][op.name]
        elif isinstance(op, Move):
            if self.nodes[op.folder].get(op.name) == op.node:
                del self.nodes[op.folder][op.name]
            self.nodes[op.to][op.new_name] = op.node
        elif isinstance(op, Write):
            old = self.nodes[op.node].ljust(op.at, b"\0")
            self.nodes[op.node] = old[: op.at] + op.data + old[op.at + len(op.data):]
        elif isinstance(op, Resize):
            self.nodes[op.node] = self.nodes[op.node].ljust(op.length, b"\0")[: op.length]


def carrier(op):
    """The node whose sync makes the operation last. Of a move it is the folder into which it goes: a disk that brought the other one alone
    to rest may have the name in neither."""
    if isinstance(op, Move):
        return op.to
    return op.folder if isinstance(op, NAMES) else op.node


def pages(op):
    """A write as writes to single pages, with the numbers of these."""
    at, data = op.at, op.data
    while data:
        size = PAGE - at % PAGE
        yield at // PAGE, Write(op.node, at, data[:size])
        at, data = at + size, data[size:]


class Cut:
    """What a power cut behind the first operations leaves on a disk. `how` is what stays of what wasn't synced: none, all, all names,
    all bytes, or some; and with holes any pages of it."""

    def __init__(self, start, numbers, ops, how, random):
        self.how, self.random, self.disk, self.count, self.written = how, random, start.copy(), len(ops), {}
        for number, node in numbers.items():
            self.disk.nodes.setdefault(number, {} if isinstance(node, dict) else b"")
        self.synced = {op.node: place for place, op in enumerate(ops) if isinstance(op, Sync)}
        loose = {}
        for place, op in enumerate(ops):
            if isinstance(op, BYTES) and not self.lasts(place, op):
                loose[op.node] = loose.get(op.node, 0) + 1
        self.kept = {node: self.some_of(number) for node, number in loose.items()}
        for place, op in enumerate(ops):
            if isinstance(op, NAMES + BYTES) and self.lasts(place, op):
                self.disk.do(op)
            elif isinstance(op, NAMES):
                if how in ("all", "names") or how in ("some", "holes") and random.random() < 0.5:
                    self.disk.do(op)
            elif isinstance(op, BYTES):
                self.write(place, op)
        self.disk.next = max(self.disk.nodes) + 1

    def lasts(self, place, op):
        return place < self.synced.get(carrier(op), -1)

    def some_of(self, number):
        """How many of a file's writes that weren't synced are there."""
        if self.how in ("all", "bytes"):
            return number
        return 0 if self.how in ("none", "names") else self.random.choice([0, number, self.random.randint(0, number)])

    def write_pages(self, place, op):
        """Does a write where its pages went out behind it; and a length by chance."""
        if isinstance(op, Resize):
            if self.random.random() < 0.5:
                self.disk.do(op)
            return
        for page, piece in pages(op):
            out = self.written.setdefault((op.node, page), self.random.choice([0, self.count, self.random.randint(0, self.count)]))
            if place < out:
                self.disk.do(piece)

    def write(self, place, op):
        if self.how == "holes":
            self.write_pages(place, op)
            return
        self.kept[op.node] -= 1
        if self.kept[op.node] >= 0:
            self.disk.do(op)
        elif self.kept[op.node] == -1 and self.how == "some" and isinstance(op, Write):
            self.disk.do(Write(op.node, op.at, op.data[: self.random.randint(0, len(op.data))]))

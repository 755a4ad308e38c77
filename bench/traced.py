"""Runs of a program, with what it did to the files of its folder. It needs `strace`."""

from collections import namedtuple
import os
import re
import subprocess

from disk import BYTES, NAMES, Drop, End, Move, Put, Resize, Sync, Told, Write

CALLS = ("openat,open,creat,close,write,pwrite64,writev,ftruncate,truncate,rename,renameat,renameat2,mkdir,mkdirat,unlink,unlinkat,rmdir,"
         "fsync,fdatasync,lseek,link,linkat,symlink,symlinkat,sync,syncfs,sync_file_range,dup,dup2,dup3,copy_file_range,sendfile,pwritev,"
         "pwritev2,fallocate,exit_group")

Traced = namedtuple("Traced", "ops status output")


def bytes_of(word):
    return bytes(int(digits, 16) for digits in re.findall(r"\\x([0-9a-f]{2})", word))


class Reader:
    """Reads the lines of a trace, and does on a disk what they tell."""

    def __init__(self, disk):
        self.disk, self.ops, self.opened, self.output = disk, [], {}, b""

    def do(self, op):
        self.ops.append(op)
        self.disk.do(op)

    def from_here(self, folder, word):
        """The node at which a path begins, and the path; no path where it leads out of the folder."""
        path = bytes_of(word).decode()
        if folder == "AT_FDCWD":
            return 1, path if path == "." or path.split("/")[0] == "host" else None
        if int(folder) in self.opened:
            return self.opened[int(folder)][0], path
        return 1, None

    def open(self, folder, word, flags, number):
        self.opened.pop(number, None)
        at, path = self.from_here(folder, word)
        if path is None:
            return
        node = self.disk.find(path, at)
        if node is None:
            above, name = self.disk.place(path, at)
            node = self.disk.add(b"")
            self.do(Put(above, name, node))
        elif "O_TRUNC" in flags:
            self.do(Resize(node, 0))
        self.opened[number] = [node, 0, "O_APPEND" in flags, path]

    def write(self, number, data, at=None):
        if number == 1:
            self.output += data
            self.ops.append(Told(data))
        elif number in self.opened:
            node, place, appends, _ = self.opened[number]
            start = at if at is not None else len(self.disk.nodes[node]) if appends else place
            self.do(Write(node, start, data))
            if at is None:
                self.opened[number][1] = start + len(data)

    def move(self, folder, word, to_folder, to_word):
        at, path = self.from_here(folder, word)
        to, new_path = self.from_here(to_folder, to_word)
        above, name = self.disk.place(path, at)
        new_above, new_name = self.disk.place(new_path, to)
        self.do(Move(above, name, new_above, new_name, self.disk.find(path, at)))

    def remove(self, folder, word):
        at, path = self.from_here(folder, word)
        above, name = self.disk.place(path, at)
        self.do(Drop(above, name, self.disk.nodes[above].get(name)))

    def make(self, folder, word):
        at, path = self.from_here(folder, word)
        above, name = self.disk.place(path, at)
        self.do(Put(above, name, self.disk.add({})))

    def call(self, name, words, result):
        here = "AT_FDCWD"
        if name in ("openat", "open", "creat"):
            words = words if name == "openat" else [here, *words]
            self.open(words[0], words[1], words[2] if name != "creat" else "O_TRUNC", result)
        elif name == "close":
            self.opened.pop(int(words[0]), None)
        elif name == "write":
            self.write(int(words[0]), bytes_of(words[1])[:result])
        elif name == "pwrite64":
            self.write(int(words[0]), bytes_of(words[1])[:result], int(words[3]))
        elif name == "lseek":
            if int(words[0]) in self.opened:
                self.opened[int(words[0])][1] = result
        elif name == "ftruncate":
            if int(words[0]) in self.opened:
                self.do(Resize(self.opened[int(words[0])][0], int(words[1])))
        elif name in ("mkdir", "mkdirat"):
            self.make(*(words[:2] if name == "mkdirat" else (here, words[0])))
        elif name in ("rename", "renameat", "renameat2"):
            self.move(*(words[:4] if name != "rename" else (here, words[0], here, words[1])))
        elif name in ("unlink", "rmdir", "unlinkat"):
            self.remove(*(words[:2] if name == "unlinkat" else (here, words[0])))
        elif name in ("fsync", "fdatasync"):
            if int(words[0]) in self.opened:
                node, _, _, path = self.opened[int(words[0])]
                self.ops.append(Sync(node, path))
        else:
            raise SystemExit(f"the model has no {name}")

    def line(self, line):
        found = re.match(r"(?:\d+ +)?(\w+)\((.*)\) += (-?\d+)", line)
        if found is None:
            if "exit_group" in line:
                self.ops.append(End())
            elif "unfinished" in line or "resumed" in line:
                raise SystemExit(f"the model has no second thread: {line}")
        elif int(found[3]) >= 0:
            self.call(found[1], [word.strip() for word in found[2].split(", ")], int(found[3]))


def traced(command, folder, disk):
    """Runs a command in a folder that holds what the disk does, and does on the disk what the command did."""
    trace, reader = folder + ".trace", Reader(disk)
    run = subprocess.run(["strace", "-f", "-xx", "-s", "100000000", "-e", "signal=none", "-e", "trace=" + CALLS, "-o", trace, *command],
                         cwd=folder, stdout=subprocess.PIPE, stderr=subprocess.PIPE, check=False)
    with open(trace, errors="replace") as lines:
        for line in lines:
            reader.line(line)
    os.remove(trace)
    return Traced(reader.ops, run.returncode, reader.output)


def changes(op):
    """Whether an operation changes what stands on a disk."""
    return isinstance(op, NAMES + BYTES)

"""A model of a folder on a disk, for tests of what a crash leaves: a program's calls are traced and applied to it, one by one.

A file is on the disk as of the last wait for it, and a name as of the last wait for the folder. What came later may be lost by a loss of power: each
name for itself, each write for itself, and of the last write of a file each sector of 512 bytes. A rename is lost as a whole or not at all.
"""
import itertools
import os
import re
import subprocess
from pathlib import Path

SECTOR = 512
# How many sets of what is lost are tried at most; if there are no more, all of them.
MOST_SETS = 1 << 10
TRACED = (
    "open,openat,creat,write,pwrite64,writev,pwritev,pwritev2,ftruncate,truncate,fallocate,fsync,fdatasync,sync_file_range,syncfs,sync,"
    "link,linkat,symlink,symlinkat,rename,renameat,renameat2,unlink,unlinkat,close,dup,dup2,dup3,fcntl"
)
CALL = re.compile(r"(\d+) +(\w+)\((.*)\) += (-?\d+|\?)(.*)")
STRING = re.compile(r'"((?:\\x[0-9a-f]{2})*)"')
FOLDER = "the folder"


class Call:
    """One call of a trace: its name, the texts and the other words among its arguments, and what it returned."""

    def __init__(self, name, arguments, result):
        self.name = name
        self.texts = [bytes.fromhex(it.replace("\\x", "")) for it in STRING.findall(arguments)]
        self.words = [it.strip() for it in STRING.sub("", arguments).split(",")]
        self.result = result

    def __str__(self):
        return f"{self.name}({', '.join(repr(it[:40]) for it in self.texts)} {' '.join(filter(None, self.words))}) = {self.result}"


def traced(words, traces, submit, **how):
    """Runs a program under strace. Its calls, its status and its standard error; `submit` gets the process, and talks to it."""
    command = ["strace", "-f", "-xx", "-s", "3000000", "-e", f"trace={TRACED}", "-o", traces, *words]
    with subprocess.Popen(command, stdin=subprocess.PIPE, stdout=subprocess.PIPE, stderr=subprocess.PIPE, **how) as process:
        submit(process)
        _, errors = process.communicate(timeout=120)
    return calls_of(Path(traces).read_text()), process.returncode, errors.decode()


def calls_of(text):
    """The calls that a trace has, in the order in which they ended."""
    begun, calls = {}, []
    for line in text.splitlines():
        number, _, rest = line.partition(" ")
        if line.endswith("<unfinished ...>"):
            begun[number] = line.removesuffix("<unfinished ...>").rstrip()
            continue
        if "resumed>" in rest:
            line = begun.pop(number) + rest.partition("resumed>")[2]
        found = CALL.fullmatch(line)
        if found:
            calls.append(Call(found[2], found[3], -1 if found[4] == "?" else int(found[4])))
    return calls


class Content:
    """The bytes of a file, without the zeros at the end, and its size."""

    def __init__(self, data=b"", size=0):
        self.data, self.size = bytearray(data), size

    def copy(self):
        return Content(self.data, self.size)

    def put(self, at, piece):
        whole = len(piece)
        piece = piece.rstrip(b"\0") if at + whole >= len(self.data) else piece
        self.data.extend(bytes(max(at - len(self.data), 0)))
        self.data[at : at + whole] = piece
        self.size = max(self.size, at + whole)

    def cut(self, size):
        del self.data[size:]
        self.size = size

    def key(self):
        return bytes(self.data).rstrip(b"\0"), self.size


class State:
    """What a folder has after a crash: the inode of each name, and the content of each inode."""

    def __init__(self, names, contents):
        self.names, self.contents = names, contents

    def key(self):
        """States with equal keys have the same files."""
        numbers = {}
        return tuple((name, numbers.setdefault(self.names[name], len(numbers)), self.contents[self.names[name]].key()) for name in sorted(self.names))

    def make(self, folder):
        """Makes the folder with these files."""
        folder.mkdir(parents=True)
        first = {}
        for name, inode in self.names.items():
            if inode in first:
                os.link(first[inode], folder / name)
                continue
            first[inode] = folder / name
            with open(folder / name, "wb") as file:
                file.write(self.contents[inode].data)
                file.truncate(self.contents[inode].size)


def read_folder(folder):
    """The state that a folder has."""
    names, contents = {}, {}
    for path in sorted(folder.iterdir()):
        inode, data = path.stat().st_ino, path.read_bytes()
        names[path.name] = inode
        contents[inode] = Content(data.rstrip(b"\0"), len(data))
    return State(names, contents)


class Disk:
    """A folder to which calls are applied. All that is there at first has been waited for."""

    def __init__(self, folder, state):
        self.folder = folder
        self.names = dict(state.names)
        self.kept_names = dict(state.names)
        self.kept = {inode: content.copy() for inode, content in state.contents.items()}
        self.renamings = []
        self.writes = {inode: [] for inode in self.kept}
        self.handles = {}
        self.made = 0
        self.output = b""

    def name_of(self, text):
        """The name in the folder that a path of a call has, if it is there."""
        path = Path(os.fsdecode(text))
        path = path if path.is_absolute() else self.folder / path
        return path.name if path.parent == self.folder else None

    def is_folder(self, text):
        return Path(os.fsdecode(text)) == self.folder

    def change(self, updates):
        """Gives names their inodes, or takes them away."""
        self.renamings.append(updates)
        for name, inode in updates.items():
            self.names[name] = inode
            if inode is None:
                del self.names[name]

    def apply(self, call):
        """Applies a call; whether it touched the folder or wrote output."""
        if call.result < 0 and call.name != "close":
            return False
        act = getattr(self, f"do_{call.name}", None)
        if act is None:
            raise ValueError(f"a call that the model doesn't know: {call}")
        return bool(act(call))

    def do_openat(self, call):
        text, flags = call.texts[0], call.words[2]
        name = self.name_of(text)
        if name is None:
            if self.is_folder(text):
                self.handles[call.result] = FOLDER
            return False
        is_new = name not in self.names
        if is_new:
            self.made += 1
            self.kept[f"made {self.made}"], self.writes[f"made {self.made}"] = Content(), []
            self.change({name: f"made {self.made}"})
        self.handles[call.result] = self.names[name]
        if "O_TRUNC" in flags:
            self.writes[self.names[name]].append(("cut", 0))
        return is_new or "O_TRUNC" in flags

    def do_close(self, call):
        self.handles.pop(int(call.words[0]), None)

    def do_fcntl(self, call):
        if "F_DUPFD" in call.words[1]:
            self.handles[call.result] = self.handles.get(int(call.words[0]))

    def do_dup(self, call):
        self.handles[call.result] = self.handles.get(int(call.words[0]))

    def do_write(self, call):
        handle = int(call.words[0])
        if handle == 1:
            self.output += call.texts[0][: call.result]
            return True
        if self.handles.get(handle):
            raise ValueError(f"a write without a place: {call}")
        return False

    def do_pwrite64(self, call):
        inode = self.handles.get(int(call.words[0]))
        if inode:
            self.writes[inode].append(("put", int(call.words[3]), call.texts[0][: call.result]))
        return inode

    def do_ftruncate(self, call):
        inode = self.handles.get(int(call.words[0]))
        if inode:
            self.writes[inode].append(("cut", int(call.words[1])))
        return inode

    def do_fsync(self, call):
        inode = self.handles.get(int(call.words[0]))
        if inode == FOLDER:
            self.kept_names, self.renamings = dict(self.names), []
        elif inode:
            perform(self.kept[inode], self.writes[inode])
            self.writes[inode] = []
        return inode

    do_fdatasync = do_fsync

    def do_link(self, call):
        first, second = map(self.name_of, call.texts)
        self.change({second: self.names[first]})
        return True

    do_linkat = do_link

    def do_rename(self, call):
        first, second = map(self.name_of, call.texts)
        inode = self.names[first]
        # Two names of one file: a rename does nothing.
        if self.names.get(second) != inode:
            self.change({first: None, second: inode})
        return True

    do_renameat = do_renameat2 = do_rename

    def do_unlink(self, call):
        self.change({self.name_of(call.texts[0]): None})
        return True

    do_unlinkat = do_unlink

    def state(self, lost=frozenset()):
        """What is there after a crash that loses these units; if none is lost, after a kill."""
        names = dict(self.kept_names)
        for number, updates in enumerate(self.renamings):
            if ("name", number) not in lost:
                names.update(updates)
        names = {name: inode for name, inode in names.items() if inode is not None}
        contents = {}
        for inode in set(names.values()):
            contents[inode] = self.kept[inode].copy()
            left = [piece for number, write in enumerate(self.writes[inode]) for piece in pieces(write, inode, number) if piece[0] not in lost]
            perform(contents[inode], [write for _, write in left])
        return State(names, contents)

    def units(self):
        """All that a loss of power may lose now."""
        units = [("name", number) for number in range(len(self.renamings))]
        for inode, writes in self.writes.items():
            last = len(writes) - 1
            for number, write in enumerate(writes):
                found = [unit for unit, _ in pieces(write, inode, number)]
                units += found if number == last else [tuple(found)]
        return units

    def states(self, chance):
        """The states that a kill and a loss of power can leave now: for each set of units, or for some, if there are too many."""
        units = self.units()
        if 1 << len(units) <= MOST_SETS:
            sets = itertools.chain.from_iterable(itertools.combinations(units, size) for size in range(len(units) + 1))
        else:
            sets = [[], units, *([unit for unit in units if chance.random() < share] for share in (0.1, 0.5, 0.9) for _ in range(MOST_SETS // 24))]
        for lost in sets:
            yield self.state(frozenset(itertools.chain.from_iterable(it if type(it[0]) is tuple else [it] for it in lost)))


def perform(content, writes):
    for write in writes:
        getattr(content, write[0])(*write[1:])


def pieces(write, inode, number):
    """The parts of a write that are lost each for itself: sectors, or some long parts of a write of zeros alone."""
    if write[0] == "cut":
        return [(("cut", inode, number), write)]
    _, at, data = write
    step = SECTOR if data.strip(b"\0") else max(len(data) // 2, 1)
    parts, begin = [], at
    while begin < at + len(data):
        end = min((begin // step + 1) * step, at + len(data))
        parts.append((("put", inode, number, begin), ("put", begin, data[begin - at : end - at])))
        begin = end
    return parts

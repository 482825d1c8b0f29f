"""A plain model of the calls of a script that succeed: the tree that they make, and what they answer.

`replay` runs it beside a recorded trace, to see at once where the calls that it wrote do not explain what Linux answered.
"""

from __future__ import annotations

from dataclasses import dataclass, field

BLOCK, BLOCKS_IN_CHAIN = 4096, 255


class Differs(Exception):
    """The model cannot make a call that Linux made."""


@dataclass(eq=False)
class File:
    """A file, which stays as long as it is open."""

    data: bytearray = field(default_factory=bytearray)


@dataclass(eq=False)
class Folder:
    """A directory."""

    names: dict[str, File | Folder] = field(default_factory=dict)


@dataclass(eq=False)
class Description:
    """An open file, with its offset and the letters of its flags."""

    file: File
    flags: str
    offset: int = 0


def spelled(data: bytes) -> str:
    """Returns bytes as a script and a history write them."""
    if not data:
        return "-"
    if len(data) >= 9 and data.count(data[0]) == len(data):
        return f"{data[0]:02x}*{len(data)}"
    return data.hex()


def read_back(data: str) -> bytes:
    if data == "-":
        return b""
    byte, many, count = data.partition("*")
    return bytes.fromhex(byte) * int(count) if many else bytes.fromhex(data)


class Model:
    """The state of the file system behind the calls so far."""

    def __init__(self) -> None:
        self.root = Folder()
        self.handles: dict[str, Description] = {}

    def find(self, path: str) -> File | Folder | None:
        node: File | Folder | None = self.root
        for name in path.split("/"):
            if name:
                node = node.names.get(name) if isinstance(node, Folder) else None
        return node

    def place(self, path: str) -> tuple[Folder, str]:
        """Returns the folder in which a path's last name stands, and this name."""
        above, _, name = path.rpartition("/")
        folder = self.find(above)
        if not isinstance(folder, Folder) or not name:
            raise Differs(f"there is no folder for {path}")
        return folder, name

    def take(self, path: str) -> File | Folder:
        folder, name = self.place(path)
        if name not in folder.names:
            raise Differs(f"{path} is not there")
        return folder.names.pop(name)

    def opened(self, handle: str) -> Description:
        if handle not in self.handles:
            raise Differs(f"{handle} is not open")
        return self.handles[handle]

    def apply(self, call: str) -> str:
        """Makes a call that succeeds, and returns its reply."""
        words = call.split(" ")
        made: str = getattr(self, f"call_{words[0]}")(*words[1:])
        return made

    def call_mkdir(self, path: str) -> str:
        folder, name = self.place(path)
        folder.names[name] = Folder()
        return "ok"

    def call_rmdir(self, path: str) -> str:
        self.take(path)
        return "ok"

    call_unlink = call_rmdir

    def call_rename(self, old: str, new: str) -> str:
        if self.find(old) is not self.find(new):
            node = self.take(old)
            folder, name = self.place(new)
            folder.names[name] = node
        return "ok"

    def call_open(self, handle: str, path: str, flags: str) -> str:
        node = self.find(path)
        if node is None and "c" in flags:
            folder, name = self.place(path)
            node = folder.names[name] = File()
        if not isinstance(node, File):
            raise Differs(f"{path} is no file")
        if "t" in flags:
            del node.data[:]
        self.handles[handle] = Description(node, flags)
        return "fd ?"

    def call_close(self, handle: str) -> str:
        self.opened(handle)
        del self.handles[handle]
        return "ok"

    def call_dup(self, handle: str, new: str) -> str:
        self.handles[new] = self.opened(handle)
        return "fd ?"

    def call_stat(self, path: str) -> str:
        node = self.find(path)
        if node is None:
            raise Differs(f"{path} is not there")
        return "dir" if isinstance(node, Folder) else f"file {len(node.data)}"

    def call_list(self, path: str) -> str:
        node = self.find(path)
        if not isinstance(node, Folder):
            raise Differs(f"{path} is no folder")
        return " ".join(["names", *sorted(node.names)])

    def call_pread(self, handle: str, place: str, count: str) -> str:
        data = self.opened(handle).file.data
        return f"data {spelled(bytes(data[int(place) : int(place) + int(count)]))}"

    def call_read(self, handle: str, count: str) -> str:
        opened = self.opened(handle)
        reply = self.call_pread(handle, str(opened.offset), count)
        opened.offset += len(read_back(reply[5:]))
        return reply

    def call_pwrite(self, handle: str, place: str, data: str) -> str:
        file, start, new = self.opened(handle).file, int(place), read_back(data)
        if new and start > len(file.data):
            file.data.extend(bytes(start - len(file.data)))
        if new:
            file.data[start : start + len(new)] = new
        return f"count {len(new)}"

    def call_write(self, handle: str, data: str) -> str:
        opened = self.opened(handle)
        start = len(opened.file.data) if "a" in opened.flags else opened.offset
        reply = self.call_pwrite(handle, str(start), data)
        if data != "-":
            opened.offset = start + len(read_back(data))
        return reply

    def call_seek(self, handle: str, whence: str, by: str) -> str:
        opened = self.opened(handle)
        start = {"set": 0, "cur": opened.offset, "end": len(opened.file.data)}[whence]
        opened.offset = start + int(by)
        return f"offset {opened.offset}"

    def call_truncate(self, handle: str, length: str) -> str:
        data, wanted = self.opened(handle).file.data, int(length)
        del data[wanted:]
        data.extend(bytes(wanted - len(data)))
        return "ok"

    def call_fsync(self, handle: str) -> str:
        self.opened(handle)
        return "ok"

    def nodes(self) -> list[tuple[str, File | Folder]]:
        """Returns the paths and nodes of the tree, in the order in which the program prints them."""
        found: list[tuple[str, File | Folder]] = []

        def walk(path: str, node: File | Folder) -> None:
            found.append((path or "/", node))
            if isinstance(node, Folder):
                for name in sorted(node.names):
                    walk(f"{path}/{name}", node.names[name])

        walk("", self.root)
        return found

    def tree(self) -> list[str]:
        """Returns the lines of the tree, as the program prints them."""
        lines = []
        for path, node in self.nodes():
            if isinstance(node, Folder):
                lines.append(f"{path} dir")
            else:
                data = f" {spelled(bytes(node.data))}" if node.data else ""
                lines.append(f"{path} file {len(node.data)}{data}")
        return lines

    def files(self) -> list[File]:
        """Returns all files, those that are open without a name too."""
        named = [node for _, node in self.nodes() if isinstance(node, File)]
        return [*named, *{id(it.file): it.file for it in self.handles.values() if it.file not in named}.values()]

    def blocks(self) -> int:
        """Returns the blocks that the files hold, with those of their chains."""
        blocks = [-(-len(file.data) // BLOCK) for file in self.files()]
        return sum(count + -(-count // BLOCKS_IN_CHAIN) for count in blocks)

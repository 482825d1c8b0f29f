"""The processes of a trace, with their descriptors and the folders in which they are."""

from __future__ import annotations

import os
import re
from dataclasses import dataclass, field

from tools.recorded import Record
from tools.trace import Syscall


@dataclass(eq=False)
class Opened:
    """What a descriptor stands for. A file of the folder has a handle; a directory of it has a path alone; a file outside that
    is open has the path by which it was opened; a pipe has nothing, and the standard output of the command is said."""

    handle: str = ""
    folder: str = ""
    outside: str = ""
    users: int = 1
    names: list[str] = field(default_factory=list)
    is_said: bool = False
    is_synced: bool = False
    appends: bool = False
    is_closed_by_exec: bool = False


@dataclass(eq=False)
class Table:
    """The descriptors of a process, which its threads share."""

    opened: dict[int, Opened] = field(default_factory=dict)
    users: int = 1


@dataclass(eq=False)
class Process:
    """A process or a thread: its descriptors and the folder in which it is."""

    table: Table
    cwd: list[str]


class Processes:
    """The processes so far. The record gets a call `close` where the last process closes a file."""

    def __init__(self, root: str, record: Record):
        self.root, self.record = root, record
        self.known: dict[int, Process] = {}
        self.children: dict[int, Syscall] = {}

    def born(self, calls: list[Syscall]) -> None:
        """Notes which call made which process, since a child may come before its parent's call returned."""
        for call in calls:
            if call.name in ("clone", "clone3", "fork", "vfork") and call.result and call.result > 0:
                self.children[call.result] = call

    def process(self, number: int) -> Process:
        """Returns a process. One that is new is the first, or a child of another."""
        if number not in self.known:
            born = self.children.get(number)
            if born is None or born.process not in self.known:
                self.known[number] = Process(Table(), [self.root])
            else:
                self.known[number] = self.child(self.known[born.process], " ".join(born.arguments))
        return self.known[number]

    def child(self, parent: Process, flags: str) -> Process:
        cwd = parent.cwd if "CLONE_FS" in flags else list(parent.cwd)
        if "CLONE_FILES" in flags:
            parent.table.users += 1
            return Process(parent.table, cwd)
        for opened in parent.table.opened.values():
            opened.users += 1
        return Process(Table(dict(parent.table.opened)), cwd)

    def path(self, process: Process, call: Syscall, places: tuple[int | None, int]) -> str | None:
        """Returns the path below the folder that a call names, `/` being the folder itself, or nothing of one outside."""
        at, place = places
        named = os.path.join(self.base(process, call, at), call.text(place))
        whole = os.path.normpath(named)
        if whole == self.root:
            return "/"
        return whole[len(self.root) :] if whole.startswith(self.root + "/") else None

    def base(self, process: Process, call: Syscall, at: int | None) -> str:
        """Returns the folder from which a call's path leads."""
        if at is None or call.arguments[at] == "AT_FDCWD":
            return process.cwd[0]
        opened = process.table.opened.get(call.number(at))
        if opened and opened.folder:
            return self.root + opened.folder.rstrip("/")
        return (opened and opened.outside) or "/outside"

    def opened(self, process: Process, call: Syscall, at: int = 0) -> Opened | None:
        """Returns what the descriptor of a call stands for, where it is known."""
        word = call.arguments[at] if at < len(call.arguments) else ""
        return process.table.opened.get(int(word)) if re.fullmatch(r"\d+", word) else None

    def is_ours(self, process: Process, call: Syscall) -> bool:
        """Whether a call takes a descriptor or a path of the folder."""
        for at, word in enumerate(call.arguments):
            opened = self.opened(process, call, at)
            if opened and at in (0, 2, 4) and (opened.handle or opened.folder):
                return True
            if word.startswith('"/') or word.startswith('"\\x2f'):
                if (call.text(at) + "/").startswith(self.root + "/"):
                    return True
        return False

    def handle(self, path: str) -> str:
        """Returns a handle that is not in use, named after the file."""
        stem = re.sub(r"[^a-z0-9]", "", path.rpartition("/")[2].lower()) or "file"
        more = [f"{stem[: 8 - len(str(number))]}{number}" for number in range(2, 100)]
        return next(it for it in [stem[:8], *more] if it not in self.record.model.handles)

    def put(self, process: Process, number: int, opened: Opened, flags: str) -> None:
        self.drop(process.table, number)
        opened.is_closed_by_exec = "CLOEXEC" in flags
        process.table.opened[number] = opened

    def drop(self, table: Table, number: int) -> None:
        """Closes a descriptor: the handle is closed where no process has it any more."""
        opened = table.opened.pop(number, None)
        if opened is None:
            return
        opened.users -= 1
        if opened.handle and opened.users == 0:
            self.record.add(f"close {opened.handle}", "ok")
        elif opened.handle:
            self.record.leave_out("close", "of a descriptor that another process has, too")

"""Turns the system calls of a trace into the calls of a script.

A folder stands for `/`. Each descriptor of a file below it is a handle; a child that is forked shares the handles of its parent,
and one is closed where the last process closes it. What a script has no call for is left out and counted where it changes nothing
that a script can see, and refused where it does.
"""

from __future__ import annotations

import os
import re

from tools.model import Differs, Folder, spelled
from tools.processes import Opened, Process, Processes, Table
from tools.recorded import LONGEST_FILE, LONGEST_WRITE, Record, Refusal, check_path
from tools.trace import Syscall, bytes_in

LOCK, MODE, TIME, HINT = "a lock", "a mode, an owner or an attribute", "a time", "a hint"
ASKS = "asks what a script cannot ask"
DIRECTORY = "a directory is opened, to be read or synced: scripts open files alone"
HARMLESS = {
    **dict.fromkeys(("flock",), LOCK),
    **dict.fromkeys(("chmod", "fchmod", "fchmodat", "fchmodat2", "chown", "fchown", "lchown", "fchownat"), MODE),
    **dict.fromkeys(("setxattr", "fsetxattr", "lsetxattr", "removexattr", "fremovexattr", "lremovexattr"), MODE),
    **dict.fromkeys(("utime", "utimes", "futimesat", "utimensat"), TIME),
    **dict.fromkeys(("fadvise64", "readahead", "sync_file_range"), HINT),
    **dict.fromkeys(("fstat", "statfs", "fstatfs", "readlink", "readlinkat", "getxattr", "fgetxattr", "lgetxattr"), ASKS),
    **dict.fromkeys(("listxattr", "flistxattr", "llistxattr", "inotify_add_watch", "name_to_handle_at", "getcwd"), ASKS),
    **dict.fromkeys(("poll", "ppoll", "select", "pselect6", "epoll_ctl"), ASKS),
}
# Errors of Linux that a script can answer. A call that failed for another reason changed nothing, and is left out.
ERRORS = set("ENOENT ENOTDIR EEXIST EISDIR ENOTEMPTY EPERM EBUSY EINVAL EMFILE ENOSPC EFBIG ENAMETOOLONG".split())
DEVICES = re.compile(r"/dev/(null|zero|full|tty|stdout|stderr|ptmx|pts/\d+)")
AT_PATHS = {
    "open": (None, 0), "creat": (None, 0), "openat": (0, 1), "openat2": (0, 1),
    "mkdir": (None, 0), "mkdirat": (0, 1), "rmdir": (None, 0), "unlink": (None, 0), "unlinkat": (0, 1),
    "stat": (None, 0), "lstat": (None, 0), "newfstatat": (0, 1), "statx": (0, 1),
    "access": (None, 0), "faccessat": (0, 1), "faccessat2": (0, 1), "truncate": (None, 0),
    "rename": (None, 0), "renameat": (0, 1), "renameat2": (0, 1),
    "link": (None, 0), "linkat": (0, 1), "symlink": (None, 1), "symlinkat": (1, 2), "mknod": (None, 0), "mknodat": (0, 1),
    "chdir": (None, 0),
}  # fmt: skip
NEW_PATHS = {"rename": (None, 1), "renameat": (2, 3), "renameat2": (2, 3), "link": (None, 1), "linkat": (2, 3)}


class Converter(Processes):
    """Takes system calls one by one."""

    def __init__(self, root: str, record: Record):
        super().__init__(root, record)
        self.mapped: list[tuple[int, int]] = []

    def run(self, calls: list[Syscall]) -> None:
        """Converts a whole trace."""
        self.born(calls)
        for call in calls:
            self.record.line = call.line
            try:
                self.take(call)
            except Differs as error:
                raise Refusal(f"line {call.line}, {call.name}: {error}") from error

    def take(self, call: Syscall) -> None:
        """Converts a call."""
        process = self.process(call.process)
        if call.result is None:
            return
        if call.name in HARMLESS:
            self.left_out_where_ours(process, call, HARMLESS[call.name])
            return
        made = getattr(self, f"take_{SAME.get(call.name, call.name)}", None)
        if made:
            made(process, call)
        elif self.is_ours(process, call):
            raise Differs("a script has no call for it, and what it does is not known here")

    def left_out_where_ours(self, process: Process, call: Syscall, why: str) -> None:
        if self.is_ours(process, call):
            self.record.leave_out(call.name, why)

    def add(self, call: Syscall, text: str, reply: str) -> None:
        """Adds a call with the reply of Linux. One that failed for a reason that a script does not have is left out."""
        if call.result == -1 and call.error not in ERRORS:
            self.record.leave_out(call.name, f"failed with {call.error}")
            return
        self.record.add(text, call.error or reply)

    def is_said(self, process: Process, call: Syscall, at: int) -> bool:
        """Whether a descriptor is the standard output of the command."""
        opened = self.opened(process, call, at)
        return opened.is_said if opened else call.arguments[at] == "1"

    def write_outside(self, path: str) -> None:
        if not DEVICES.fullmatch(path):
            raise Differs(f"a path out of the folder is written to: {path}")

    # Opening and closing

    def take_open(self, process: Process, call: Syscall) -> None:
        place = AT_PATHS[call.name]
        path = self.path(process, call, place)
        flags = "O_WRONLY|O_CREAT|O_TRUNC" if call.name == "creat" else call.arguments[place[1] + 1]
        whole = os.path.normpath(os.path.join(self.base(process, call, place[0]), call.text(place[1])))
        if path is None:
            if call.result is not None and call.result >= 0:
                if re.search("O_CREAT|O_TRUNC", flags) and re.search("O_WRONLY|O_RDWR", flags) and not os.path.isdir(whole):
                    self.write_outside(whole)
                self.put(process, call.result, Opened(outside=whole), flags)
            return
        if "O_TMPFILE" in flags:
            raise Differs("a file without a name is made (O_TMPFILE)")
        if "O_TRUNC" in flags and not re.search("O_WRONLY|O_RDWR", flags):
            raise Differs("a file is cut that is opened to be read alone")
        self.open_ours(process, call, path, flags)

    def open_ours(self, process: Process, call: Syscall, path: str, flags: str) -> None:
        """Opens a file or a directory of the folder."""
        check_path(path)
        is_folder = "O_DIRECTORY" in flags or (call.result != -1 and isinstance(self.record.model.find(path), Folder))
        if is_folder or "O_PATH" in flags:
            self.record.leave_out(call.name, DIRECTORY if is_folder else ASKS)
            if call.result is not None and call.result >= 0:
                self.put(process, call.result, Opened(folder=path), flags)
            return
        handle = self.handle(path)
        self.add(call, f"open {handle} {path} {letters(flags)}", "fd ?")
        if call.result is not None and call.result >= 0:
            opened = Opened(handle, is_synced=bool(re.search(r"O_D?SYNC", flags)), appends="O_APPEND" in flags)
            self.put(process, call.result, opened, flags)

    def take_close(self, process: Process, call: Syscall) -> None:
        if call.result == 0:
            self.drop(process.table, call.number(0))

    def take_close_range(self, process: Process, call: Syscall) -> None:
        if "CLOEXEC" in " ".join(call.arguments):
            raise Differs("descriptors are marked by close_range")
        for number in sorted(process.table.opened):
            if call.number(0) <= number <= call.number(1):
                self.drop(process.table, number)

    def take_dup(self, process: Process, call: Syscall) -> None:
        """A second descriptor of an open file."""
        opened = self.opened(process, call)
        if call.result is None or call.result < 0 or call.result == call.number(0):
            return
        if opened is None:
            opened = Opened(is_said=call.arguments[0] == "1")
        again = Opened(folder=opened.folder, outside=opened.outside, is_said=opened.is_said)
        again.is_synced, again.appends = opened.is_synced, opened.appends
        self.drop(process.table, call.result)
        if opened.handle:
            again.handle = self.handle(opened.handle)
            self.record.add(f"dup {opened.handle} {again.handle}", "fd ?")
        self.put(process, call.result, again, " ".join(call.arguments[2:]))

    def take_fcntl(self, process: Process, call: Syscall) -> None:
        opened, what = self.opened(process, call), call.arguments[1]
        if call.result is None or call.result == -1:
            return
        if what.startswith("F_DUPFD"):
            self.take_dup(process, call)
            process.table.opened[call.result].is_closed_by_exec = what == "F_DUPFD_CLOEXEC"
        elif opened is None:
            return
        elif what == "F_SETFD":
            opened.is_closed_by_exec = "FD_CLOEXEC" in call.arguments[2]
        elif what == "F_SETFL" and opened.handle and ("O_APPEND" in call.arguments[2]) != opened.appends:
            raise Differs("the flags of an open file are changed (O_APPEND)")
        elif opened.handle and "LK" in what:
            self.record.leave_out("fcntl", LOCK)

    def take_execve(self, process: Process, call: Syscall) -> None:
        """Another program begins: it has its own table, and descriptors that are marked so are closed."""
        if call.result != 0:
            return
        if process.table.users > 1:
            process.table.users -= 1
            for opened in process.table.opened.values():
                opened.users += 1
            process.table = Table(dict(process.table.opened))
        for number in [number for number, it in process.table.opened.items() if it.is_closed_by_exec]:
            self.drop(process.table, number)

    def take_exited(self, process: Process, call: Syscall) -> None:
        del self.known[call.process]
        process.table.users -= 1
        if process.table.users == 0:
            for number in sorted(process.table.opened):
                self.drop(process.table, number)

    def take_fork(self, process: Process, call: Syscall) -> None:
        if call.result is not None and call.result > 0:
            self.process(call.result)

    def take_chdir(self, process: Process, call: Syscall) -> None:
        if call.result == 0:
            process.cwd[0] = os.path.normpath(os.path.join(process.cwd[0], call.text(0)))

    def take_fchdir(self, process: Process, call: Syscall) -> None:
        opened = self.opened(process, call)
        if call.result == 0 and opened:
            process.cwd[0] = self.root + opened.folder.rstrip("/") if opened.folder else opened.outside

    # Reading and writing

    def take_read(self, process: Process, call: Syscall) -> None:
        opened = self.opened(process, call)
        if opened and opened.handle:
            data = bytes_in(call.arguments[1], call.line)[: max(call.result or 0, 0)]
            self.add(call, f"read {opened.handle} {asked(call)}", f"data {spelled(data)}")

    def take_pread64(self, process: Process, call: Syscall) -> None:
        opened = self.opened(process, call)
        if opened and opened.handle:
            data = bytes_in(call.arguments[1], call.line)[: max(call.result or 0, 0)]
            self.add(call, f"pread {opened.handle} {call.number(3)} {asked(call)}", f"data {spelled(data)}")

    def take_write(self, process: Process, call: Syscall) -> None:
        opened = self.opened(process, call)
        if self.is_said(process, call, 0) and call.result and call.result > 0:
            self.record.said += bytes_in(call.arguments[1], call.line)[: call.result].decode(errors="replace")
        elif opened and opened.outside:
            self.write_outside(opened.outside)
        elif opened and opened.handle:
            self.pieces(call, opened, "write {handle}", None)

    def take_pwrite64(self, process: Process, call: Syscall) -> None:
        opened = self.opened(process, call)
        if opened and opened.outside:
            self.write_outside(opened.outside)
        elif opened and opened.handle:
            start = call.number(3)
            if opened.appends:
                start = len(self.record.model.opened(opened.handle).file.data)
            self.pieces(call, opened, "pwrite {handle} {start}", start)

    def pieces(self, call: Syscall, opened: Opened, form: str, start: int | None) -> None:
        """Adds a write, as several where it is long, and a sync behind it where the file was opened so."""
        data = bytes_in(call.arguments[1], call.line)
        if call.result is not None and call.result >= 0:
            data = data[: call.result]
            self.check_length(opened, start, len(data))
        for at in range(0, max(len(data), 1), LONGEST_WRITE):
            piece = data[at : at + LONGEST_WRITE]
            begin = form.format(handle=opened.handle, start=(start or 0) + at)
            self.add(call, f"{begin} {spelled(piece)}", f"count {len(piece)}")
        if opened.is_synced or any("SYNC" in it for it in call.arguments[4:]):
            self.record.add(f"fsync {opened.handle}", "ok")

    def check_length(self, opened: Opened, start: int | None, count: int) -> None:
        it = self.record.model.opened(opened.handle)
        begin = start if start is not None else len(it.file.data) if opened.appends else it.offset
        if begin + count > LONGEST_FILE:
            raise Differs(f"a file gets more than {LONGEST_FILE} bytes")

    def take_lseek(self, process: Process, call: Syscall) -> None:
        opened = self.opened(process, call)
        if opened is None or not opened.handle:
            return
        whence = {"SEEK_SET": "set", "SEEK_CUR": "cur", "SEEK_END": "end"}.get(call.arguments[2])
        by = call.number(1)
        if whence is None:
            whence, by = "set", call.result or 0
        self.add(call, f"seek {opened.handle} {whence} {by}", f"offset {call.result}")

    def take_ftruncate(self, process: Process, call: Syscall) -> None:
        opened = self.opened(process, call)
        if opened and opened.outside:
            self.write_outside(opened.outside)
        elif opened and opened.handle:
            self.truncate(call, opened.handle, call.number(1))

    def truncate(self, call: Syscall, handle: str, length: int) -> None:
        if call.result == 0 and length > LONGEST_FILE:
            raise Differs(f"a file gets more than {LONGEST_FILE} bytes")
        self.add(call, f"truncate {handle} {length}", "ok")

    def take_truncate(self, process: Process, call: Syscall) -> None:
        """A file is cut by its name: it is opened for that, and closed."""
        path = self.path(process, call, AT_PATHS["truncate"])
        if path is None:
            if call.result == 0:
                self.write_outside(call.text(0))
        elif call.result == 0:
            check_path(path)
            self.record.add(f"open cut {path} w", "fd ?")
            self.truncate(call, "cut", call.number(1))
            self.record.add("close cut", "ok")
        else:
            self.record.leave_out("truncate", f"failed with {call.error}")

    def take_fallocate(self, process: Process, call: Syscall) -> None:
        opened = self.opened(process, call)
        if opened is None or not opened.handle or call.result != 0:
            return
        end = call.number(2) + call.number(3)
        if call.arguments[1] not in ("0", "FALLOC_FL_KEEP_SIZE"):
            raise Differs(f"a part of a file is changed by {call.arguments[1]}")
        if call.arguments[1] == "0" and end > len(self.record.model.opened(opened.handle).file.data):
            self.truncate(call, opened.handle, end)
        else:
            self.record.leave_out("fallocate", "room for a file, which a script cannot ask for")

    def take_fsync(self, process: Process, call: Syscall) -> None:
        opened = self.opened(process, call)
        if opened and opened.handle:
            self.add(call, f"fsync {opened.handle}", "ok")
        elif opened and opened.folder:
            self.record.leave_out(call.name, DIRECTORY)

    def take_sync(self, process: Process, call: Syscall) -> None:
        """Everything is synced: each file that is open."""
        done = set()
        for handle, opened in list(self.record.model.handles.items()):
            if id(opened.file) not in done:
                done.add(id(opened.file))
                self.record.add(f"fsync {handle}", "ok")

    def take_sendfile(self, process: Process, call: Syscall) -> None:
        """Bytes go from one file into another; the trace does not tell them, but the model of the folder does."""
        into, source = (0, 1) if call.name == "sendfile" else (2, 0)
        places = (None, call.arguments[2]) if call.name == "sendfile" else (call.arguments[3], call.arguments[1])
        start, origin_start = (int(it.strip("[]").split("]")[0]) if it and it != "NULL" else None for it in places)
        target, origin = self.opened(process, call, into), self.opened(process, call, source)
        if call.result is None or call.result <= 0:
            return
        if target and target.outside:
            self.write_outside(target.outside)
        if origin is None or not origin.handle:
            if target and target.handle:
                raise Differs("bytes come from a file out of the folder, and the trace does not tell them")
            return
        data = self.read_by_model(origin.handle, call.result, origin_start)
        if target and target.handle:
            self.write_pieces(target.handle, data, start)
        elif self.is_said(process, call, into):
            self.record.said += data.decode(errors="replace")

    def read_by_model(self, handle: str, count: int, start: int | None) -> bytes:
        """Adds a read, with the bytes that the model gives, and returns them."""
        opened = self.record.model.opened(handle)
        begin = opened.offset if start is None else start
        data = bytes(opened.file.data[begin : begin + count])
        if len(data) != count:
            raise Differs(f"{count} bytes are copied, and the calls before it make {len(data)}")
        text = f"read {handle} {count}" if start is None else f"pread {handle} {start} {count}"
        self.record.add(text, f"data {spelled(data)}")
        return data

    def write_pieces(self, handle: str, data: bytes, start: int | None) -> None:
        """Adds a write at the offset or at a place, as several where it is long."""
        for at in range(0, max(len(data), 1), LONGEST_WRITE):
            piece = data[at : at + LONGEST_WRITE]
            begin = f"write {handle}" if start is None else f"pwrite {handle} {start + at}"
            self.record.add(f"{begin} {spelled(piece)}", f"count {len(piece)}")

    # Mappings

    def take_mmap(self, process: Process, call: Syscall) -> None:
        opened = self.opened(process, call, 4)
        if opened is None or call.result == -1 or not opened.handle:
            return
        if "MAP_SHARED" in call.arguments[3]:
            if "PROT_WRITE" in call.arguments[2]:
                raise Differs("a file of the folder is mapped shared and writable, so that stores change it without a call")
            self.mapped.append((call.result or 0, (call.result or 0) + call.number(1)))
        self.record.leave_out("mmap", "a file is read through a mapping")

    def take_mprotect(self, process: Process, call: Syscall) -> None:
        start = call.number(0)
        if "PROT_WRITE" in call.arguments[2] and any(low <= start < high for low, high in self.mapped):
            raise Differs("a shared mapping of a file of the folder becomes writable")

    def take_ioctl(self, process: Process, call: Syscall) -> None:
        opened = self.opened(process, call)
        if call.result == -1 or opened is None or not (opened.handle or opened.folder):
            return
        if call.arguments[1] in ("FIOCLEX", "FIONCLEX"):
            opened.is_closed_by_exec = call.arguments[1] == "FIOCLEX"
            return
        raise Differs(f"a script has no call for {call.arguments[1]}")

    def take_io_uring_setup(self, process: Process, call: Syscall) -> None:
        if call.result != -1:
            raise Differs("what goes through io_uring is not seen")

    take_io_submit = take_io_uring_setup

    # Names

    def take_mkdir(self, process: Process, call: Syscall) -> None:
        removes = "AT_REMOVEDIR" in " ".join(call.arguments)
        word = {"mkdir": "mkdir", "mkdirat": "mkdir", "rmdir": "rmdir", "unlink": "unlink"}.get(call.name, "rmdir" if removes else "unlink")
        path = self.path(process, call, AT_PATHS[call.name])
        if path is not None:
            check_path(path)
            self.add(call, f"{word} {path}", "ok")
        elif call.result == 0:
            self.write_outside(call.text(AT_PATHS[call.name][1]))

    def take_rename(self, process: Process, call: Syscall) -> None:
        old, new = (self.path(process, call, it[call.name]) for it in (AT_PATHS, NEW_PATHS))
        if old is None and new is None:
            if call.result == 0:
                self.write_outside(call.text(AT_PATHS[call.name][1]))
            return
        if old is None or new is None:
            if call.result == 0:
                raise Differs("a name is moved into the folder or out of it")
            return
        if "RENAME_EXCHANGE" in call.arguments[-1] and call.result == 0:
            raise Differs("two names are exchanged")
        if "RENAME_" in call.arguments[-1] and call.result == -1:
            self.record.leave_out(call.name, f"failed with {call.error}")
            return
        check_path(old)
        check_path(new)
        self.add(call, f"rename {old} {new}", "ok")

    def take_link(self, process: Process, call: Syscall) -> None:
        """A link or a special file: a script has none."""
        paths = [self.path(process, call, it[call.name]) for it in (AT_PATHS, NEW_PATHS) if call.name in it]
        if call.result == 0 and any(paths):
            raise Differs("a link or a special file is made in the folder")
        if call.result == 0:
            self.write_outside(call.text(AT_PATHS[call.name][1]))

    # Asking

    def take_stat(self, process: Process, call: Syscall) -> None:
        place = AT_PATHS[call.name]
        if place[0] is not None and call.text(place[1]) == "":
            self.left_out_where_ours(process, call, ASKS)
            return
        path = self.path(process, call, place)
        if path is None or path == "/":
            return
        check_path(path)
        told = " ".join(call.arguments)
        size = re.search(r"stx?_size=(\d+)", told)
        reply = "dir" if "S_IFDIR" in told else f"file {size[1]}" if size and "S_IFREG" in told else "?"
        self.add(call, f"stat {path}", reply)

    def take_getdents64(self, process: Process, call: Syscall) -> None:
        opened = self.opened(process, call)
        if opened is None or not opened.folder or call.result is None or call.result < 0:
            return
        named = re.findall(r'd_name=("[^"]*")', " ".join(call.arguments))
        opened.names += [bytes_in(it, call.line).decode(errors="surrogateescape") for it in named]
        if call.result == 0:
            names = sorted(name for name in opened.names if name not in (".", ".."))
            opened.names = []
            self.record.add(f"list {opened.folder}", " ".join(["names", *names]))


# Calls that are converted as another one is.
SAME = {
    **dict.fromkeys(("openat", "openat2", "creat"), "open"),
    **dict.fromkeys(("dup2", "dup3"), "dup"),
    **dict.fromkeys(("clone", "clone3", "vfork"), "fork"),
    **dict.fromkeys(("readv",), "read"),
    **dict.fromkeys(("preadv", "preadv2"), "pread64"),
    **dict.fromkeys(("writev",), "write"),
    **dict.fromkeys(("pwritev", "pwritev2"), "pwrite64"),
    **dict.fromkeys(("fdatasync",), "fsync"),
    **dict.fromkeys(("syncfs",), "sync"),
    **dict.fromkeys(("copy_file_range",), "sendfile"),
    **dict.fromkeys(("mkdirat", "rmdir", "unlink", "unlinkat"), "mkdir"),
    **dict.fromkeys(("renameat", "renameat2"), "rename"),
    **dict.fromkeys(("linkat", "symlink", "symlinkat", "mknod", "mknodat"), "link"),
    **dict.fromkeys(("lstat", "newfstatat", "statx", "access", "faccessat", "faccessat2"), "stat"),
    **dict.fromkeys(("execveat",), "execve"),
}


def letters(flags: str) -> str:
    """Returns the flags of a script for those of `open`."""
    writes = "O_WRONLY" in flags or "O_RDWR" in flags
    reads = not "O_WRONLY" in flags
    creates = "O_CREAT" in flags
    parts = {"r": reads, "w": writes, "a": writes and "O_APPEND" in flags, "c": creates}
    parts |= {"x": creates and "O_EXCL" in flags, "t": writes and "O_TRUNC" in flags}
    return "".join(letter for letter, is_there in parts.items() if is_there)


def asked(call: Syscall) -> int:
    """Returns how many bytes a read asked for. A scattered one asked for those of its parts."""
    if call.arguments[1].startswith("["):
        return sum(int(it) for it in re.findall(r"iov_len=(\d+)", call.arguments[1]))
    return call.number(2)

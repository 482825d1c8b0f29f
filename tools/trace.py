"""Reads what `strace` wrote: the system calls, in the order in which they returned."""

from __future__ import annotations

import codecs
import re
from collections.abc import Iterable, Iterator
from dataclasses import dataclass

# The calls that are traced: those that name files, take descriptors or make processes, and the few beside them that matter.
WANTED = "%file,%desc,%process,mprotect,sync,io_uring_setup,io_submit"
STRACE = ["strace", "-f", "-xx", "-v", "-s", "20000000", "-e", f"trace={WANTED}", "-e", "signal=none"]

START = re.compile(r"(\d+) +(.*)")
CALL = re.compile(r"(\w+)\((.*)\) += (0x[0-9a-f]+|-?\d+|\?)(?: ([A-Z][A-Z0-9]*))?.*")
RESUMED = re.compile(r"<\.\.\. (\w+) resumed>(.*)")
CUT = " <unfinished ...>"
QUOTED = re.compile(r'"([^"]*)"(\.\.\.)?')


class BadTrace(Exception):
    """A line that is none of strace's, or that leaves something out."""


@dataclass(frozen=True)
class Syscall:
    """A system call that returned: its process, name, arguments as they are written, result and error, and its line, from 1. A
    process that ended is a call `exited`."""

    process: int
    name: str
    arguments: tuple[str, ...]
    result: int | None
    error: str
    line: int

    def number(self, at: int) -> int:
        """Returns the argument at a place, where it is a number."""
        word = self.arguments[at]
        return int(word, 0) if not re.fullmatch(r"0[0-7]+", word) else int(word, 8)

    def text(self, at: int) -> str:
        """Returns the argument at a place, where it is a path."""
        return bytes_in(self.arguments[at], self.line).decode(errors="surrogateescape")


def bytes_in(argument: str, line: int) -> bytes:
    """Returns the bytes of all strings of an argument, joined: those of a write, or of the parts of a gathered one."""
    parts = []
    for escaped, is_cut in QUOTED.findall(argument):
        if is_cut:
            raise BadTrace(f"line {line}: strace left out a part of the bytes")
        parts.append(codecs.decode(escaped, "unicode_escape").encode("latin-1"))
    return b"".join(parts)


def parted(arguments: str) -> Iterator[str]:
    """Parts arguments at their commas, but for those inside brackets. Strings were set aside."""
    depth, start = 0, 0
    for at, letter in enumerate(arguments):
        if letter in "([{":
            depth += 1
        elif letter in ")]}":
            depth -= 1
        elif letter == "," and depth == 0:
            yield arguments[start:at].strip()
            start = at + 1
    if arguments.strip():
        yield arguments[start:].strip()


def parts_of(arguments: str) -> tuple[str, ...]:
    """Returns the arguments. A long string is set aside first, so that it is not read letter by letter."""
    strings: list[str] = []

    def aside(found: re.Match[str]) -> str:
        strings.append(found[0])
        return f"\0{len(strings) - 1}\0"

    short = re.sub(r'"[^"]*"', aside, re.sub(r"/\*.*?\*/", "", arguments))
    return tuple(re.sub("\0(\\d+)\0", lambda found: strings[int(found[1])], part) for part in parted(short))


def read_trace(lines: Iterable[str]) -> list[Syscall]:
    """Reads a trace. A call that was cut by others of other processes stands where it returned."""
    calls: list[Syscall] = []
    cut: dict[int, str] = {}
    for number, line in enumerate(lines, 1):
        said = START.fullmatch(line.rstrip("\n"))
        if not said:
            if line.startswith("#") or not line.strip():
                continue
            raise BadTrace(f"line {number} is none of strace's: {line[:60]}")
        process, rest = int(said[1]), said[2]
        if rest.startswith(("+++ exited", "+++ killed")):
            calls.append(Syscall(process, "exited", (), 0, "", number))
            continue
        if rest.endswith(CUT):
            cut[process] = rest[: -len(CUT)]
            continue
        resumed = RESUMED.fullmatch(rest)
        if resumed:
            rest = cut.pop(process, resumed[1] + "(") + resumed[2]
        call = CALL.fullmatch(rest)
        if call:
            result = None if call[3] == "?" else int(call[3], 0)
            calls.append(Syscall(process, call[1], parts_of(call[2]), result, call[4] or "" if result == -1 else "", number))
    return calls

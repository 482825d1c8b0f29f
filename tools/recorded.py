"""What a recorded program did, as calls of a script: the calls with the replies of Linux, and what was left out."""

from __future__ import annotations

import re
from collections import Counter
from dataclasses import dataclass, field

from tools.model import Description, Differs, File, Folder, Model, spelled

LONGEST_NAME, MOST_NAMES = 48, 16
LONGEST_FILE, LONGEST_WRITE, LONGEST_TEXT = 16_777_216, 131_072, 4_194_304
MOST_CALLS, MOST_OPEN = 4096, 64


class Refusal(Exception):
    """Something that a script cannot say, with the call and its line in the trace."""


@dataclass(frozen=True)
class Call:
    """A call of a script, and the reply of Linux, in which `?` stands for what the trace does not tell. What the program had put
    on its standard output since the call before is `said`; the line of the trace is 0 where none made it."""

    text: str
    reply: str
    said: str = ""
    line: int = 0


@dataclass
class Record:
    """The calls so far, the model behind them, and what was left out: each call and reason, and how often. The line is that of the
    call of the trace that is converted now."""

    model: Model = field(default_factory=Model)
    calls: list[Call] = field(default_factory=list)
    left_out: Counter[tuple[str, str]] = field(default_factory=Counter)
    said: str = ""
    line: int = 0

    def leave_out(self, call: str, why: str) -> None:
        self.left_out[call, why] += 1

    def add(self, text: str, reply: str) -> None:
        """Adds a call. One that succeeded is made in the model, whose reply has to be that of Linux."""
        if not re.fullmatch(r"E[A-Z]+", reply):
            made = self.model.apply(text)
            if made != reply and "?" not in (made[-1], reply[-1]):
                raise Differs(f"Linux answered `{reply[:80]}`, and the calls before it make `{made[:80]}`")
        self.calls.append(Call(text, reply, self.said, self.line))
        self.said = ""
        if len(self.model.handles) > MOST_OPEN:
            raise Differs(f"more than {MOST_OPEN} descriptors are open")


def check_path(path: str) -> None:
    """Refuses a path that a script cannot name."""
    names = [name for name in path.split("/") if name]
    if len(names) > MOST_NAMES:
        raise Differs(f"a path has at most {MOST_NAMES} names")
    for name in names:
        if len(name) > LONGEST_NAME:
            raise Differs(f"a name has at most {LONGEST_NAME} bytes, and this one {len(name)}")
        if not re.fullmatch(r"[!-~]+", name):
            raise Differs("a name has printable ASCII letters alone, and no blank")


def calls_that_make(model: Model) -> list[str]:
    """Returns calls that make the tree of a model in an empty image."""
    calls = []
    for path, node in model.nodes():
        if isinstance(node, Folder):
            calls += [f"mkdir {path}"] if path != "/" else []
            continue
        calls.append(f"open made {path} wc")
        for start in range(0, len(node.data), LONGEST_WRITE):
            calls.append(f"write made {spelled(bytes(node.data[start : start + LONGEST_WRITE]))}")
        calls.append("close made")
    return calls


def calls_that_open(model: Model) -> list[Call]:
    """Returns calls that open what is open in a model, each with its offset."""
    paths = {id(node): path for path, node in model.nodes() if isinstance(node, File)}
    first: dict[int, str] = {}
    calls: list[Call] = []
    for handle, opened in model.handles.items():
        if id(opened) in first:
            calls.append(Call(f"dup {first[id(opened)]} {handle}", "fd ?"))
            continue
        if id(opened.file) not in paths:
            raise Refusal(f"the part begins while {handle} is open, which has no name any more: begin elsewhere")
        first[id(opened)] = handle
        calls += open_again(handle, paths[id(opened.file)], opened)
    return calls


def open_again(handle: str, path: str, opened: Description) -> list[Call]:
    flags = "".join(letter for letter in opened.flags if letter in "rwa")
    calls = [Call(f"open {handle} {path} {flags}", "fd ?")]
    return calls + ([Call(f"seek {handle} set {opened.offset}", f"offset {opened.offset}")] if opened.offset else [])

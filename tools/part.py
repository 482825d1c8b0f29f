"""A part of what was recorded, as a script and as the image on which it begins."""

from __future__ import annotations

import itertools
import re
from dataclasses import dataclass, replace

from tools.model import Folder, Model
from tools.recorded import LONGEST_TEXT, MOST_CALLS, Call, Record, Refusal, calls_that_make, calls_that_open
from tools.verdicts import SAID

DEFAULT = (256, 64, 64, 128)
LIMITS = (16384, 1024, 1024, 4096)
METADATA, STAGING_FILES, SPARE_BLOCKS = 64, 4, 32
# How many letters of what a command said stand in a line of a script, which has at most 400,000 bytes.
LONGEST_SAID = 10_000


@dataclass
class Room:
    """What an image has to have: the most blocks, nodes and names that a tree had so far."""

    blocks: int = 0
    nodes: int = 1
    names: int = 0

    def see(self, model: Model) -> None:
        nodes = model.nodes()
        folders = sum(isinstance(node, Folder) for _, node in nodes)
        self.blocks = max(self.blocks, model.blocks())
        self.nodes = max(self.nodes, folders + len(model.files()))
        self.names = max(self.names, len(nodes) - 1)

    def numbers(self) -> tuple[int, ...]:
        """Returns the numbers of an image that has this room and some more, at least those of the fresh one."""
        blocks = min(-(-(METADATA + 3 * self.blocks) // 64) * 64, LIMITS[0])
        wanted = (blocks, 64, self.nodes + STAGING_FILES + 8, self.names + 16)
        return tuple(max(pair) for pair in zip(wanted, DEFAULT))

    def is_too_large(self) -> bool:
        is_over = any(it > limit for it, limit in zip(self.numbers(), LIMITS))
        return is_over or self.blocks + METADATA + SPARE_BLOCKS > LIMITS[0]


@dataclass(frozen=True)
class Part:
    """Calls that stand one behind the other in a record, the first of them under this number, and before them those that open what
    was open; with the tree before them and the one behind them, what the command said behind the last of them, and the room that
    they take."""

    first: int
    opens: int
    calls: list[Call]
    before: Model
    behind: Model
    said: str
    room: Room

    def setup(self) -> list[str]:
        return setup_texts(self.before)

    def numbers(self) -> tuple[int, ...] | None:
        """Returns the numbers of the image; nothing where it is the fresh one, and nothing is put into it first."""
        numbers = self.room.numbers()
        return None if numbers == DEFAULT and len(self.before.nodes()) == 1 else numbers


def model_of_calls(text: str) -> Model:
    model = Model()
    for line in text.splitlines():
        if line and not line.startswith("#"):
            model.apply(line)
    return model


def apply(model: Model, call: Call) -> None:
    if not re.fullmatch(r"E[A-Z]+", call.reply):
        model.apply(call.text)


def place_of(call: Call) -> str:
    """Names a call in a refusal, with its line in the trace."""
    return f"line {call.line}, {call.text.split(' ')[0]}"


def part_of(record: Record, begin: str, first: int, last: int | None) -> Part:
    """Returns the calls from the first to the last, from 0. What was open before is opened first, and what was said before is said."""
    count = len(record.calls)
    if first < 0 or (first > 0 and first >= count) or (last is not None and last < first):
        raise Refusal(f"the trace has the calls 0 to {count - 1}, and --from and --to name no part of them")
    model = model_of_calls(begin)
    for call in record.calls[:first]:
        apply(model, call)
    opens = calls_that_open(model)
    calls = [*opens, *record.calls[first : None if last is None else last + 1]]
    earlier = "".join(call.said for call in record.calls[:first])
    if calls:
        calls[0], earlier = replace(calls[0], said=earlier + calls[0].said), ""
    behind, room = made_by(model, calls)
    is_to_the_end = last is None or last >= count - 1
    return Part(first, len(opens), calls, model, behind, earlier + record.said if is_to_the_end else "", room)


def made_by(before: Model, calls: list[Call]) -> tuple[Model, Room]:
    """Returns the tree behind the calls, and the room that they take."""
    model, room = model_of_calls("\n".join(calls_that_make(before))), Room()
    room.see(model)
    for call in calls:
        apply(model, call)
        if call.text.startswith(("open", "mkdir", "write", "pwrite", "truncate", "rename")):
            room.see(model)
        if room.is_too_large():
            raise Refusal(f"{place_of(call)}: an image has no room for {room.blocks} blocks, {room.nodes} files and {room.names} names")
    return model, room


def script_text(part: Part, head: str) -> str:
    """Returns the script. What the command put on its standard output stands between the calls, as comments."""
    texts = [f"# {head}\n", *(lines_of(call.said, call.text) for call in part.calls), lines_of(part.said)]
    sizes = itertools.accumulate(map(len, texts))
    long = next((at for at, size in enumerate(sizes) if size > LONGEST_TEXT), None)
    if len(part.calls) > MOST_CALLS:
        refuse(part, MOST_CALLS, f"a script has at most {MOST_CALLS} calls, and these are {len(part.calls)}")
    if long is not None:
        refuse(part, min(long, len(part.calls)) - 1, f"a script has at most {LONGEST_TEXT} bytes")
    return "".join(texts)


def refuse(part: Part, at: int, why: str) -> None:
    number = part.first + at - part.opens
    raise Refusal(f"{place_of(part.calls[at])}: {why}: take a part with --from and --to (this is call {number})")


def lines_of(said: str, *more: str) -> str:
    """Returns what was said as comments, and the other lines."""
    told = [line[at : at + LONGEST_SAID] for line in said.splitlines(keepends=True) for at in range(0, len(line), LONGEST_SAID)]
    lines = [*(SAID + it.encode("unicode_escape").decode() for it in told), *more]
    return "".join(f"{line}\n" for line in lines)


def setup_texts(model: Model) -> list[str]:
    """Returns the scripts that make a tree: several, where one would be too long. A file is made whole in one of them or goes on
    in the next by its open handle, so each begins and ends between files or between writes."""
    texts, text, path = [], "", ""
    for call in calls_that_make(model):
        path = call.split(" ")[2] if call.startswith("open ") else path
        if len(text) + len(call) + 16 > LONGEST_TEXT or text.count("\n") >= MOST_CALLS - 2:
            is_inside = call.startswith("write ") or call == "close made"
            texts.append(text + ("close made\n" if is_inside else ""))
            text = f"open made {path} wa\n" if is_inside else ""
        text += call + "\n"
    return [*texts, text] if text else texts

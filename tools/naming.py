"""Says in words what happened in an outcome: the last call that returned, and what differs in the tree."""

from __future__ import annotations

import copy
import itertools
import re

from tools.model import Differs, File, Folder, Model
from tools.program import CHOICES, Found

QUIET = {"stat", "list", "read", "pread", "seek", "dup", "close"}
NODE = re.compile(r"(/.*?) (?:dir|file (\d+)(?: (\S+))?)")


def cut(text: str, width: int) -> str:
    return text if len(text) <= width else text[: width - 1] + "…"


def call_of(line: str) -> str:
    """Returns the call of a line of the history, without its number and its reply."""
    return line.split(" ", 1)[1].rsplit(" = ", 1)[0]


def caller_of(line: str) -> str:
    """Returns who made the call of a line of the history: `s` for the set-up, or the number of a thread."""
    return line.split(".", 1)[0]


def said_calls(found: Found) -> list[str]:
    """Returns the calls of the whole run as they are told: with their callers in front, as `1: write y 62`, where these are
    several."""
    lines = found.whole.calls
    if len({caller_of(line) for line in lines}) < 2:
        return [call_of(line) for line in lines]
    return [f"{caller_of(line)}: {call_of(line)}" for line in lines]


def nodes_of(tree: tuple[str, ...]) -> dict[str, tuple[int, str] | None]:
    """Returns the nodes by their paths: nothing of a directory, and the length and the bytes of a file as they are printed."""
    nodes: dict[str, tuple[int, str] | None] = {}
    for line in tree:
        said = NODE.fullmatch(line)
        assert said, line
        nodes[said[1]] = None if said[2] is None else (int(said[2]), said[3] or "")
    return nodes


def bytes_of(printed: str) -> bytes:
    """Returns the bytes of a file from what is printed of them."""
    if "*" in printed:
        byte, count = printed.split("*")
        return bytes.fromhex(byte) * int(count)
    return b"" if printed == "-" else bytes.fromhex(printed)


def difference(old: tuple[str, ...], new: tuple[str, ...]) -> str:
    """Says what the new tree has that the old one has not; nothing where they are the same."""
    before, behind = nodes_of(old), nodes_of(new)
    parts = []
    for path in sorted({*before, *behind}):
        had, has = before.get(path), behind.get(path)
        if path not in behind:
            parts.append(f"{path} gone")
        elif path not in before:
            parts.append(f"{path} there" + (f", {has[0]} bytes" if has else ""))
        elif had != has and had and has:
            parts.append(f"{path} {had[0]} → {has[0]} bytes" if had[0] != has[0] else f"{path} with other bytes")
        elif had != has:
            parts.append(f"{path} of another kind")
    return "; ".join(parts)


def named(choice: str) -> str:
    """Returns the choice as it is told: a number is a seed."""
    return choice if choice.isalpha() else f"seed {choice}"


def model_of_tree(tree: tuple[str, ...]) -> Model:
    """Returns a model that begins with a tree."""
    model = Model()
    for path, file in nodes_of(tree).items():
        if path != "/":
            folder, name = model.place(path)
            folder.names[name] = Folder() if file is None else File(bytearray(bytes_of(file[1])))
    return model


def succeeded(line: str) -> bool:
    return not re.fullmatch(r"E[A-Z]+", line.rsplit(" = ", 1)[1].split(" ")[0])


def models_of_history(found: Found) -> dict[int, Model]:
    """Returns what the calls make without a loss, by the number of calls, for those numbers that outcomes have."""
    counts = {len(outcome.calls) for outcome in found.outcomes}
    model, models = model_of_tree(found.begin), {}
    for count, line in enumerate(["", *found.whole.calls]):
        if count and succeeded(line):
            model.apply(call_of(line))
        if count in counts:
            models[count] = copy.deepcopy(model)
    return models


def next_places(found: Found, count: int) -> list[int]:
    """Returns the places in the whole history of the calls that come next behind so many: one of each caller at most, and none of
    a thread before the set-up is done."""
    places: dict[str, int] = {}
    for place in range(count, len(found.whole.calls)):
        places.setdefault(caller_of(found.whole.calls[place]), place)
    return [count] if places.get("s") == count else sorted(places.values())


def is_part(old: tuple[str, ...], new: tuple[str, ...], tree: tuple[str, ...]) -> bool:
    """Says whether a tree has the paths and lengths of the new one, and each byte of its files is the old one or the new one."""
    before, made, found = nodes_of(old), nodes_of(new), nodes_of(tree)
    if found.keys() != made.keys():
        return False
    for path, has in found.items():
        will, had = made[path], before.get(path)
        if has == will:
            continue
        if not has or not will or not had or has[0] != will[0]:
            return False
        olds = bytes_of(had[1])
        pairs = enumerate(zip(bytes_of(has[1]), bytes_of(will[1])))
        if any(byte != now and byte != (olds[at] if at < len(olds) else now) for at, (byte, now) in pairs):
            return False
    return True


def unfinished_of(found: Found, model: Model, count: int, tree: tuple[str, ...]) -> tuple[list[int], str] | None:
    """Returns the fewest unfinished calls behind so many, by their places in the whole history, that make this tree, or else a part
    of them does, as in sync mode, with the word that tells them; None where none do."""
    places = [it for it in next_places(found, count) if succeeded(found.whole.calls[it])]
    old, parts = tuple(model.tree()), None
    for many in range(1, len(places) + 1):
        for some in itertools.combinations(places, many):
            made = copy.deepcopy(model)
            try:
                for place in some:
                    made.apply(call_of(found.whole.calls[place]))
            except Differs:
                continue
            new = tuple(made.tree())
            if new == tree:
                return list(some), "unfinished"
            if parts is None and is_part(old, new, tree):
                parts = list(some), "unfinished, in part"
    return parts


def loud(calls: list[str]) -> list[str]:
    """Returns the calls but those that only ask, or all where they all do."""
    return [call for call in calls if call.split(": ", 1)[-1].split(" ")[0] not in QUIET] or calls


def what_happened(found: Found) -> list[str]:
    """Returns a name for each outcome: the last call that returned, and what changed since the outcome with fewer calls; or the
    unfinished calls, of those that come next, which the tree has already. Where the tree is neither, what differs from that of the
    history is told."""
    models, calls = models_of_history(found), ["", *said_calls(found)]
    trees = {count: tuple(model.tree()) for count, model in models.items()}
    counts = {len(outcome.calls) for outcome in found.outcomes}
    names = []
    for outcome in found.outcomes:
        count = len(outcome.calls)
        before = max((it for it in counts if it < count), default=count)
        since = loud(calls[before + 1 : count + 1]) or calls[count : count + 1]
        last = cut(since[-1], 40) + " returned" if count else "no call returned"
        if outcome.tree == trees[count]:
            changed = difference(trees[before], trees[count])
            names.append(last + (f": {cut(changed, 70)}" if changed else ""))
            continue
        changed = cut(difference(trees[count], outcome.tree), 70)
        unfinished = unfinished_of(found, models[count], count, outcome.tree)
        if unfinished is None:
            names.append(f"{last}, but {changed}")
        else:
            some, word = unfinished
            names.append(f"{cut('; '.join(calls[place + 1] for place in some), 60)} {word}: {changed}")
    return names


def told(found: Found) -> list[list[str]]:
    """Returns the lines that are printed of each outcome."""
    blocks = []
    for number, outcome in enumerate(found.outcomes):
        last = f", the last {shown(outcome.calls[-1])}" if outcome.calls else ""
        lines = [f"outcome {number + 1}: {len(outcome.calls)} of {len(found.whole.calls)} calls returned{last}"]
        lines += [f"    {shown(line)}" for line in outcome.tree]
        where = {choice: found.steps(choice, number) for choice in CHOICES}
        if len({*where.values()}) == 1:
            lines.append(f"  after {where[CHOICES[0]]} steps")
        else:
            lines += [f"  after {where[choice]} steps, {named(choice)}" for choice in CHOICES if where[choice]]
        blocks.append(lines)
    return blocks


def shown(line: str, width: int = 200) -> str:
    """Returns a line, cut where it is long: the bytes of a file may be many thousand digits."""
    return line if len(line) <= width else f"{line[:width]}... ({len(line) - width} characters more)"

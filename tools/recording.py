"""The folder of a recording: what `replay` writes into it, and how it is tried.

files     what stands for `/`; the command ran here           trace     what strace wrote
begin     calls that make the files that were there before    script    the calls, for ./splitfs and ./explore
replies   what Linux answered, as ./splitfs prints it         tree      the tree behind the script
left-out  what has no call in a script, with counts           mkfs      the numbers of the image, where it is not the fresh one
setup.N   scripts that make the image                         image     that image, made when it is first wanted
"""

from __future__ import annotations

import glob
import os
import re
import shlex
import stat

from tools.convert import Converter
from tools.model import File, Folder, Model
from tools.part import model_of_calls, part_of, script_text
from tools.program import Outcome, outcome_of, run_wrapper
from tools.recorded import LONGEST_FILE, Call, Record, Refusal, check_path
from tools.trace import read_trace

ROOT = "# root "
# Where Linux and this project answer another error for the same call (docs/CALLS.md): for `unlink` of a directory, `truncate`
# without write access, and `rmdir` of the folder that stands for `/`.
OTHER_ERRORS = {("unlink", "EISDIR", "EPERM"), ("truncate", "EINVAL", "EBADF"), ("rmdir", "EINVAL", "EBUSY")}


def model_of_folder(folder: str) -> Model:
    """Reads a folder of Linux. It may have directories and files alone, within the limits of an image."""
    model = Model()

    def walk(below: str, into: Folder) -> None:
        for entry in sorted(os.scandir(folder + below), key=lambda it: it.name):
            path = f"{below}/{entry.name}"
            check_path(path)
            kind = entry.stat(follow_symlinks=False)
            if stat.S_ISDIR(kind.st_mode):
                into.names[entry.name] = made = Folder()
                walk(path, made)
            elif not stat.S_ISREG(kind.st_mode) or kind.st_size > LONGEST_FILE or kind.st_nlink > 1:
                raise Refusal(f"{path} is no plain file with one name and at most {LONGEST_FILE} bytes")
            else:
                with open(entry.path, "rb") as file:
                    into.names[entry.name] = File(bytearray(file.read()))

    walk("", model.root)
    return model


def first_difference(one: Model, other: Model) -> str:
    """Says where two trees first differ, byte by byte; nothing where they are the same."""
    left, right = dict(one.nodes()), dict(other.nodes())
    for path in sorted({*left, *right}):
        mine, theirs = left.get(path), right.get(path)
        if isinstance(mine, Folder) and isinstance(theirs, Folder):
            continue
        if not isinstance(mine, File) or not isinstance(theirs, File):
            return f"{path} is on one side alone, or of another kind"
        if mine.data != theirs.data:
            pairs = zip(mine.data, theirs.data)
            place = next((at for at, (a, b) in enumerate(pairs) if a != b), min(len(mine.data), len(theirs.data)))
            return f"{path} differs from byte {place} on ({len(mine.data)} and {len(theirs.data)} bytes)"
    return ""


def read(path: str) -> str:
    with open(path, encoding="utf-8", errors="surrogateescape") as file:
        return file.read()


def write(path: str, text: str) -> None:
    with open(path, "w", encoding="utf-8", errors="surrogateescape") as file:
        file.write(text)


def converted(trace: str, begin: str) -> tuple[str, Record]:
    """Converts a trace, whose first line names the folder that stands for `/`. Returns this folder, and the record."""
    lines = read(trace).splitlines()
    if not lines or not lines[0].startswith(ROOT):
        raise Refusal(f"{trace} does not begin with a line `{ROOT}FOLDER`")
    root, record = lines[0][len(ROOT) :], Record(model_of_calls(begin))
    Converter(root, record).run(read_trace(lines))
    return root, record


def write_recording(out: str, record: Record, begin: str, command: str, bounds: tuple[int, int | None]) -> list[Call]:
    """Writes what is made from a trace. Nothing is written where a part of it is refused."""
    part = part_of(record, begin, *bounds)
    texts = {"script": script_text(part, f"Recorded by ./replay: {command}")}
    texts["replies"] = "".join(f"0.{at} {call.text} = {call.reply}\n" for at, call in enumerate(part.calls))
    texts["tree"] = "".join(f"{line}\n" for line in part.behind.tree())
    counts = sorted(record.left_out.items(), key=lambda it: (-it[1], it[0]))
    texts["left-out"] = "".join(f"{count:6} {name}: {why}\n" for (name, why), count in counts)
    texts |= {f"setup.{number}": made for number, made in enumerate(part.setup(), 1)}
    numbers = part.numbers()
    if numbers:
        texts["mkfs"] = " ".join(map(str, numbers)) + "\n"
    for old in [*glob.glob(f"{out}/setup.*"), f"{out}/mkfs", f"{out}/image"]:
        if os.path.exists(old):
            os.remove(old)
    for name, text in texts.items():
        write(f"{out}/{name}", text)
    return part.calls


def image_of(out: str) -> str:
    """Returns the image of a recording, which is made where it is not there; `-` where the fresh one serves."""
    image = f"{out}/image"
    if not os.path.exists(f"{out}/mkfs"):
        return "-"
    if not os.path.exists(image):
        made = f"{out}/image.new"
        run_wrapper("mkfs", made, *read(f"{out}/mkfs").split())
        for number in range(1, len(glob.glob(f"{out}/setup.*")) + 1):
            run_wrapper("step", made, f"{out}/setup.{number}", "strict", "keep", made)
        os.replace(made, image)
    return image


def same_reply(call: str, linux: str, ours: str) -> bool:
    """Whether two replies are the same, but for what the trace does not tell and the errors that are known to differ."""
    if linux == "fd ?":
        return ours.startswith("fd ")
    if linux == "?":
        return ours == "dir" or ours.startswith("file ")
    if linux.startswith("E"):
        return ours.split(" ")[0] == linux or (call.split(" ")[0], linux, ours) in OTHER_ERRORS
    return ours == linux


def tried(out: str, mode: str) -> tuple[int, str]:
    """Runs the script without a loss. Returns how many calls it has, and the first difference; nothing where there is none."""
    if not os.path.exists(f"{out}/script"):
        raise Refusal(f"there is no script in {out}: ./replay record makes it")
    image = image_of(out)
    left = outcome_of(run_wrapper("step", image, f"{out}/script", mode))
    replies = read(f"{out}/replies").splitlines()
    for at, wanted in enumerate(replies):
        call, _, linux = wanted.partition(" ")[2].rpartition(" = ")
        ours = left.calls[at].rpartition(" = ")[2] if at < len(left.calls) else "(no reply)"
        if not same_reply(call, linux, ours):
            return len(replies), f"call {at}, {call[:100]}: Linux answers {linux[:100]}, SplitFS {ours[:100]}"
    return len(replies), tree_difference(out, left)


def tree_difference(out: str, left: Outcome) -> str:
    """Says where the tree that is left first differs from what is behind the script, byte by byte."""
    wanted = read(f"{out}/tree").splitlines()
    for mine, theirs in zip([*wanted, "(nothing more)"], [*left.tree, "(nothing more)"]):
        if mine != theirs:
            return f"the tree: Linux has {mine[:100]}, SplitFS {theirs[:100]}"
    return ""


def command_text(command: list[str]) -> str:
    return re.sub(r"[^ -~]", "?", shlex.join(command))[:200]

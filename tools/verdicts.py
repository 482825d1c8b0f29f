"""Lays the tree of each outcome into a fresh folder, and runs a command there, whose status is the verdict."""

from __future__ import annotations

import codecs
import concurrent.futures
import glob
import os
import shutil
import signal
import subprocess
import tempfile
from dataclasses import dataclass

from tools.naming import bytes_of, nodes_of
from tools.picture import Verdict
from tools.program import Found, Outcome, Progress, RunFailed

SAID = "# out: "
# The variable that holds how many calls returned, where the command of a check names it.
RETURNED = "SPLITFS_RETURNED"


@dataclass(frozen=True)
class Check:
    """How outcomes are judged: a command of the shell, its time limit in seconds, and the folder in which bad ones are kept."""

    command: str
    limit: float
    keep: str | None

    def sight(self, outcome: Outcome, said: str) -> Sight:
        return Sight(outcome.tree, said, str(len(outcome.calls)) if RETURNED in self.command else "")


@dataclass(frozen=True)
class Sight:
    """What a check can see of an outcome: the tree, what the program had said by then, and how many calls returned where the check
    asks for it."""

    tree: tuple[str, ...]
    said: str
    returned: str


def lay(tree: tuple[str, ...], folder: str) -> None:
    """Makes the folders and files of a tree in a folder, which stands for `/`."""
    for path, file in nodes_of(tree).items():
        place = folder + path
        if file is None:
            os.makedirs(place, exist_ok=True)
        else:
            with open(place, "wb") as made:
                made.write(bytes_of(file[1]))


def said_by_then(script: str) -> list[str]:
    """Returns what the program that a script was recorded from had put on its standard output before each of the calls, and at
    the end. Lines `# out: TEXT` hold it, where they stand; TEXT has `\\n` for the end of a line."""
    said, texts = "", []
    with open(script, encoding="ascii", errors="replace") as file:
        for line in file:
            line = line.rstrip("\r\n").lstrip()
            if line.startswith(SAID):
                said += codecs.decode(line[len(SAID) :], "unicode_escape")
            elif line and not line.startswith("#") and line not in ("setup", "thread"):
                texts.append(said)
    return [*texts, said]


def run_check(check: Check, sight: Sight) -> Verdict:
    """Runs the command in a fresh folder that holds the tree. Its standard input is what the program had said by then."""
    with tempfile.TemporaryDirectory(prefix="splitfs-", ignore_cleanup_errors=True) as folder:
        lay(sight.tree, folder)
        return run_in(folder, check, sight)


def run_in(folder: str, check: Check, sight: Sight) -> Verdict:
    env = {**os.environ, "HERE": os.getcwd(), **({RETURNED: sight.returned} if sight.returned else {})}
    with tempfile.TemporaryFile() as output, tempfile.TemporaryFile() as given:
        given.write(sight.said.encode())
        given.seek(0)
        how = {"stdin": given, "stdout": output, "stderr": subprocess.STDOUT, "start_new_session": True}
        with subprocess.Popen(["sh", "-c", check.command], cwd=folder, env=env, **how) as running:
            try:
                status: int | None = running.wait(check.limit)
            except subprocess.TimeoutExpired:
                status = None
                os.killpg(running.pid, signal.SIGKILL)
        output.seek(0)
        put = output.read().decode(errors="replace")
    why = f"not done after {check.limit:g} seconds" if status is None else f"status {status}"
    return Verdict(status == 0, why, put)


def judged(found: Found, script: str, check: Check, jobs: int) -> list[Verdict]:
    """Returns the verdict of each outcome. Those that look alike to the check are tried once, as many at once as there are jobs."""
    said = said_by_then(script)
    if len(said) != len(found.whole.calls) + 1:
        raise RunFailed("explore: the script changed while it was run", 1)
    sights = [check.sight(outcome, said[len(outcome.calls)]) for outcome in found.outcomes]
    different = list(dict.fromkeys(sights))
    progress, verdicts = Progress("explore", "trees judged"), {}
    with concurrent.futures.ThreadPoolExecutor(jobs) as pool:
        for sight, verdict in zip(different, pool.map(lambda it: run_check(check, it), different)):
            verdicts[sight] = verdict
            progress.tell(len(verdicts), len(different))
    if check.keep:
        keep_bad(check.keep, found, sights, verdicts)
    return [verdicts[sight] for sight in sights]


def keep_bad(keep: str, found: Found, sights: list[Sight], verdicts: dict[Sight, Verdict]) -> None:
    """Keeps each bad outcome in a folder of its own, and removes those that were kept before."""
    for old in glob.glob(f"{keep}/outcome-*/history"):
        shutil.rmtree(os.path.dirname(old))
    for number, (outcome, sight) in enumerate(zip(found.outcomes, sights), 1):
        if not verdicts[sight].is_good:
            keep_outcome(f"{keep}/outcome-{number}", outcome, sight.said, verdicts[sight])


def keep_outcome(folder: str, outcome: Outcome, said: str, verdict: Verdict) -> None:
    """Keeps the tree as the loss left it, the history, what the program had said, and what the command said."""
    shutil.rmtree(folder, ignore_errors=True)
    os.makedirs(f"{folder}/files")
    lay(outcome.tree, f"{folder}/files")
    for name, text in (("history", "".join(f"{it}\n" for it in outcome.calls)), ("said", said), ("output", verdict.output)):
        with open(f"{folder}/{name}", "w", encoding="utf-8") as file:
            file.write(text)


def told_verdict(found: Found, number: int, verdict: Verdict, keep: str | None) -> list[str]:
    """Returns the lines that are printed of a verdict."""
    if verdict.is_good:
        return ["  verdict: good"]
    lines = [f"  verdict: BAD ({verdict.why})"]
    lines += [f"    {line}" for line in verdict.output.splitlines()[-5:]]
    lines += ["  history:", *(f"    {line[:200]}" for line in found.outcomes[number].calls)]
    if keep:
        lines.append(f"  kept in {keep}/outcome-{number + 1}")
    return lines

"""Runs the program `splitfs`, with a power loss after a number of steps, and sorts what it prints into outcomes."""

from __future__ import annotations

import concurrent.futures
import functools
import hashlib
import os
import subprocess
import sys
import tempfile
import time
from collections.abc import Callable, Iterable
from dataclasses import dataclass

TOP = os.path.dirname(os.path.dirname(os.path.abspath(__file__)))
WRAPPER = f"{TOP}/splitfs"
BUILT = f"{TOP}/crates/splitfs/out/splitfs"
# The modes that the program runs by now.
MODES = ("strict", "sync")
CHOICES = ("oldest", "newest", "even", "odd", "1")
# How many runs are begun before the first of them is looked at.
BATCH = 1024


class RunFailed(Exception):
    """A run that did not end well: what is told of it, and the status with which the script ends. The text is empty where it
    was told already."""

    def __init__(self, text: str, status: int):
        super().__init__(text)
        self.text, self.status = text, status


@dataclass(frozen=True)
class Outcome:
    """What a run leaves: the calls that returned and the nodes of the tree, one line each, as the program prints them."""

    calls: tuple[str, ...]
    tree: tuple[str, ...]


def outcome_of(text: str) -> Outcome:
    """Parts what is printed: the calls come first, and the tree begins with the line of the root. Outcomes share their lines, of which
    each may be long and stand in a thousand of them."""
    lines = [sys.intern(line) for line in text.splitlines()]
    root = next(at for at, line in enumerate(lines) if line.startswith("/ "))
    return Outcome(tuple(lines[:root]), tuple(lines[root:]))


def run_wrapper(*words: str) -> str:
    """Runs the wrapper, which builds the program where it has to, and tells on standard error what it does. Returns its output."""
    ran = subprocess.run([WRAPPER, *words], stdout=subprocess.PIPE, text=True, check=False)
    if ran.returncode:
        raise RunFailed("", ran.returncode)
    return ran.stdout


def run_built(*words: str) -> str:
    """Runs the program that is built, and returns its output."""
    ran = subprocess.run([BUILT, *words], capture_output=True, text=True, check=False)
    if ran.returncode:
        raise RunFailed(ran.stderr.strip() or f"splitfs ended with status {ran.returncode}", ran.returncode)
    return ran.stdout


class Progress:
    """A line on standard error that tells how many runs are done and how long the others will take: redrawn on a terminal, and
    a line now and then elsewhere."""

    def __init__(self, who: str, what: str):
        self.who, self.what = who, what
        self.on_terminal = sys.stderr.isatty()
        self.began = self.told = time.monotonic()

    def tell(self, done: int, of: int) -> None:
        """Tells, where a moment has gone since it told last."""
        now = time.monotonic()
        is_last = done == of
        if now - self.told < (0.2 if self.on_terminal else 30) and not (is_last and self.on_terminal):
            return
        self.told = now
        left = round((now - self.began) * (of - done) / max(done, 1))
        line = f"{self.who}: {done} of {of} {self.what}, {left // 60}:{left % 60:02} minutes left"
        if not self.on_terminal:
            print(line, file=sys.stderr, flush=True)
        else:
            print("\r\033[K" + ("" if is_last else line), end="", file=sys.stderr, flush=True)


class Script:
    """A script that is run on an image in a mode, again and again; the order of its threads is that of the words, `order LIST` or
    `seed N`, or in turn where there are none."""

    def __init__(self, image: str, script: str, mode: str, jobs: int, order: tuple[str, ...] = ()):
        self.words = ("step", image, script, mode, *order)
        self.pool = concurrent.futures.ThreadPoolExecutor(jobs)
        self.whole = outcome_of(run_wrapper(*self.words))
        self.begin = outcome_of(run_built("tree", image)).tree

    def stopped(self, stop: int, choice: str) -> str:
        return run_built(*self.words, "stop", str(stop), "choose", choice)

    def returned(self, stop: int) -> int:
        """Returns how many calls returned by then. More steps never return fewer."""
        return len(outcome_of(self.stopped(stop, "oldest")).calls)

    def end(self) -> int:
        """Returns the first number of steps that leaves the image of a whole run. The last change of an unmount is the next lap
        of the log, so that no step before leaves this image, and every one behind it does."""
        with tempfile.TemporaryDirectory() as folder:
            kept = os.path.join(folder, "image")

            def image(*stop: str) -> bytes:
                run_built(*self.words, *stop, "choose", "oldest", "keep", kept)
                with open(kept, "rb") as file:
                    return file.read()

            if sys.stderr.isatty():
                print("explore: the last step of the run is looked for", end="", file=sys.stderr, flush=True)
            whole = image()
            low = first_that_holds(lambda stop: self.returned(stop) == len(self.whole.calls), 0)
            return first_that_holds(lambda stop: image("stop", str(stop)) == whole, low)

    def steps_of_returns(self, end: int) -> list[int]:
        """Returns, for each call, the first number of steps with which it returned. All parts of the line of steps that hold a
        return are halved at once, by as many runs as there are jobs."""
        count = len(self.whole.calls)
        parts, found = [(0, self.returned(0), end, count)], {}
        most = sum(min(2**depth, count) for depth in range(end.bit_length()))
        progress, done = Progress("explore", "runs that look for the returns of calls"), 0
        while parts:
            middles = [(low + high) // 2 for low, _, high, _ in parts]
            counts = []
            for returned in self.pool.map(self.returned, middles):
                counts.append(returned)
                progress.tell(min(done + len(counts), most - 1), most)
            done += len(counts)
            halves = [half for part in zip(parts, middles, counts) for half in halves_of(*part)]
            for low, before, high, behind in halves:
                if high - low <= 1:
                    found.update((number, high) for number in range(before + 1, behind + 1))
            parts = [part for part in halves if part[2] - part[0] > 1]
        progress.tell(most, most)
        return [found.get(number, 0) for number in range(1, count + 1)]


def halves_of(part: tuple[int, int, int, int], middle: int, returned: int) -> list[tuple[int, int, int, int]]:
    """Parts a range of steps, told with how many calls returned at its ends, in the middle. Returns the halves in which one returned."""
    low, before, high, behind = part
    return [it for it in ((low, before, middle, returned), (middle, returned, high, behind)) if it[1] != it[3]]


def first_that_holds(holds: Callable[[int], bool], low: int) -> int:
    """Returns the least number from `low` on for which it holds; it holds for every number above, too."""
    step = 64
    while not holds(low + step):
        low, step = low + step + 1, 2 * step
    high = low + step
    while low < high:
        middle = (low + high) // 2
        low, high = (low, middle) if holds(middle) else (middle + 1, high)
    return low


class Found:
    """The outcomes of all runs of a script, numbered in the order in which they first come, from 0."""

    def __init__(self, stops: list[int], script: Script):
        self.stops, self.whole, self.begin = stops, script.whole, script.begin
        self.outcomes: list[Outcome] = []
        self.numbers: dict[tuple[str, int], int] = {}

    @staticmethod
    def of(script: Script, stops: Iterable[int]) -> Found:
        """Runs the script with each of the stops and each choice. Of what was printed before a digest is kept alone."""
        found, known = Found(sorted(set(stops)), script), {}
        asked = [(choice, stop) for stop in found.stops for choice in CHOICES]
        progress = Progress("explore", "runs")
        for start in range(0, len(asked), BATCH):
            batch = asked[start : start + BATCH]
            for done, (key, text) in enumerate(zip(batch, script.pool.map(lambda it: script.stopped(it[1], it[0]), batch)), 1):
                digest = hashlib.sha256(text.encode()).digest()
                if digest not in known:
                    known[digest] = len(found.outcomes)
                    found.outcomes.append(outcome_of(text))
                found.numbers[key] = known[digest]
                progress.tell(start + done, len(asked))
        return found

    def at(self, choice: str, stop: int) -> int:
        return self.numbers[choice, stop]

    def spans(self, choice: str) -> list[tuple[int, int, int]]:
        """Returns the outcomes along the stops of a choice: the place of the first stop, that behind the last, and the number."""
        spans: list[tuple[int, int, int]] = []
        for place, stop in enumerate(self.stops):
            number = self.at(choice, stop)
            if spans and spans[-1][2] == number:
                spans[-1] = (spans[-1][0], place + 1, number)
            else:
                spans.append((place, place + 1, number))
        return spans

    @functools.cached_property
    def ranges(self) -> dict[tuple[str, int], list[str]]:
        """The stops that lead to an outcome by a choice, as ranges of the stops that were tried."""
        ranges: dict[tuple[str, int], list[str]] = {}
        for choice in CHOICES:
            for place, behind, number in self.spans(choice):
                low, high = self.stops[place], self.stops[behind - 1]
                ranges.setdefault((choice, number), []).append(str(low) if low == high else f"{low} to {high}")
        return ranges

    def steps(self, choice: str, number: int) -> str:
        return ", ".join(self.ranges.get((choice, number), []))

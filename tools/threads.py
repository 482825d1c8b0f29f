"""Runs the script of `crates/loss_tests/src/seeds.rt` by each of its seeds, with a power loss after every thirteenth step, each with
one of the choices in turn, and judges what is left by the plain model of the calls. The gate tries a part of these losses, and judges
by the proved judge. The program has to be built.

    python3 -m tools.threads
    python3 -m tools.threads --every 104 --seeds 2
"""

from __future__ import annotations

import argparse
import copy
import functools
import itertools
import os
import sys
import tempfile

sys.dont_write_bytecode = True

from tools.model import Differs, Model
from tools.naming import call_of, caller_of, model_of_tree, succeeded
from tools.program import CHOICES, TOP, Outcome, Progress, Script, outcome_of, run_built

SOURCE = f"{TOP}/crates/loss_tests/src/seeds.rt"
IMAGE = ("64", "4", "16", "16")
BEHIND, LOGGED = 64, ("write", "pwrite")


def script_text() -> str:
    """Returns the script, as it stands in the test."""
    with open(SOURCE, encoding="utf-8") as file:
        return file.read().split('const SCRIPT: &str = "\\\n')[1].split('";')[0]


class Judge:
    """Says which trees may be left behind so many calls of a history: some of the next calls of the callers are done, those that are
    logged, in flight at once, and one of the others, which lost its power as it began."""

    def __init__(self, begin: tuple[str, ...], whole: tuple[str, ...]):
        self.whole, self.models = whole, [model_of_tree(begin)]
        for line in whole:
            self.models.append(self.done(self.models[-1], [line]))

    @staticmethod
    def done(model: Model, lines: list[str]) -> Model:
        made = copy.deepcopy(model)
        for line in lines:
            if succeeded(line):
                made.apply(call_of(line))
        return made

    @staticmethod
    def begun(model: Model, lines: list[str]) -> Model:
        """As `done`, of calls that are unfinished: one that would be refused by now, before what came before it in the whole run,
        changes nothing."""
        made = copy.deepcopy(model)
        for line in lines:
            if succeeded(line):
                tried = copy.deepcopy(made)
                try:
                    tried.apply(call_of(line))
                except Differs:
                    continue
                made = tried
        return made

    def next(self, count: int) -> list[str]:
        lines: dict[str, str] = {}
        for line in self.whole[count:]:
            lines.setdefault(caller_of(line), line)
        return [lines["s"]] if "s" in lines else list(lines.values())

    @functools.cache
    def permitted(self, count: int) -> frozenset[tuple[str, ...]]:
        trees = set()
        some = self.next(count)
        for many in range(len(some) + 1):
            for lines in itertools.combinations(some, many):
                if sum(call_of(line).split(" ")[0] not in LOGGED for line in lines) < 2:
                    trees.add(tuple(self.begun(self.models[count], list(lines)).tree()))
        return frozenset(trees)

    def permits(self, outcome: Outcome) -> bool:
        count = len(outcome.calls)
        return outcome.calls == self.whole[:count] and outcome.tree in self.permitted(count)


def try_seed(image: str, name: str, seed: int, said: argparse.Namespace) -> tuple[int, int]:
    """Runs a seed. Returns how many losses there were, and how many left what is not permitted."""
    script = Script(image, name, "strict", said.jobs, ("seed", str(seed)))
    judge = Judge(script.begin, script.whole.calls)
    stops = range(seed % said.every, script.end() + BEHIND, said.every)
    asked = list(zip(stops, itertools.cycle(CHOICES)))
    progress, bad = Progress("threads", f"losses of seed {seed}"), 0
    for done, ((stop, choice), text) in enumerate(zip(asked, script.pool.map(lambda it: script.stopped(*it), asked)), 1):
        if not judge.permits(outcome_of(text)):
            bad += 1
            print(f"seed {seed} stop {stop} choose {choice}: not permitted")
        progress.tell(done, len(asked))
    return len(asked), bad


def main() -> int:
    said = argparse.ArgumentParser(description=__doc__, formatter_class=argparse.RawDescriptionHelpFormatter)
    said.add_argument("--every", type=int, default=13, metavar="N", help="every how many steps the power goes; 13 where none is named")
    said.add_argument("--seeds", type=int, default=40, metavar="N", help="the last seed; 40 where none is named")
    said.add_argument("--first", type=int, default=1, metavar="N", help="the first seed; 1 where none is named")
    said.add_argument("--jobs", type=int, default=os.cpu_count() or 1, metavar="N", help="how many runs at once")
    words = said.parse_args()
    with tempfile.TemporaryDirectory() as folder:
        image, name = f"{folder}/image", f"{folder}/script"
        with open(name, "w", encoding="utf-8") as file:
            file.write(script_text())
        run_built("mkfs", image, *IMAGE)
        counts = [try_seed(image, name, seed, words) for seed in range(words.first, words.seeds + 1)]
    bad = sum(it for _, it in counts)
    print(f"{bad} of {sum(it for it, _ in counts)} losses left what is not permitted")
    return 1 if bad else 0


if __name__ == "__main__":
    sys.exit(main())

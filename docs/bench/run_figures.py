#!/usr/bin/env python3
"""Prints what MEASURED says of runs by threads, of one built program.

    run_figures.py PROGRAM            appends a second within the rounds of `run` by 1, 2, 4 and 8 threads, and of `step` with the
                                      same threads in turn, for appends of 1 and of 8 blocks
    run_figures.py PROGRAM --split    where the instructions of the workers go, by 1 and by 4 threads, by valgrind's callgrind: of each
                                      function its share with all that it calls, from one in a hundred on. What `Job::fill` and
                                      `OpLog::append` have is outside the turn, all else inside; and what rounds cost between
    run_figures.py PROGRAM --waits    how often threads sleep, by perf: the switches of a whole run beside its appends

The machine should have nothing else to do, and four processors. Of `run` the rounds alone are timed, each from its first thread's
start to its last one's end, as perf (Debian's linux-perf) notes them, which costs a thread nothing while it runs; what a run
costs besides (reading, checks, mounts, checkpoints, the tree) counts for nothing. The time of `step` is taken for scripts of two
sizes (make_run_scripts.sh): the difference of their appends by the difference of the middle times. Each is the middle one of
twenty-one. Names of functions that the compiler put into others are missing: what they cost is that of the function above them.
"""

import argparse
import os
import re
import statistics
import subprocess
import sys
import tempfile
import time

HERE = os.path.dirname(os.path.abspath(__file__))
THREADS = (1, 2, 4, 8)
BLOCKS = (1, 8)
TIMES = 21
# The function in which a worker does its part of a round, the crates whose functions are told of beside it, and the ends of rounds.
WORKER = "split_threads::starting::work_own"
CRATES = "split_threads|ruled_turn|oplog_tail|split_world|world_begins|world_rounds|world_parts|write_begin|write_plan|write_jobs|write_end|in_flight|log_checkpoint|staging_files|pm_lines|k_split"
# A line of what callgrind_annotate prints: instructions, their share, and a function.
LINE = rf"^\s*([\d,]+)\s+\(\s*[\d.]+%\)\s+\S*?:((?:{CRATES})::\S+)"


def appends_in(script):
    with open(script, encoding="ascii") as file:
        return sum(line.startswith("write ") for line in file)


def seconds(program, word, script):
    """The middle one of the times of a program."""
    taken = []
    for _ in range(TIMES):
        began = time.perf_counter()
        subprocess.run([program, word, "image", script, "strict"], stdout=subprocess.DEVNULL, check=True)
        taken.append(time.perf_counter() - began)
    return statistics.median(taken)


def rounds(program, script):
    """The time of the rounds of a run, in seconds, and how many they are."""
    with tempfile.NamedTemporaryFile() as told:
        record = ["perf", "record", "-q", "-e", "dummy", "-o", told.name, program, "run", "image", script, "strict"]
        subprocess.run(record, stdout=subprocess.DEVNULL, stderr=subprocess.DEVNULL, check=True)
        show = ["perf", "script", "-i", told.name, "--show-task-events"]
        text = subprocess.run(show, capture_output=True, text=True, check=True).stdout
    alive, began, taken, count = 0, 0.0, 0.0, 0
    for at, event in re.findall(r"([\d.]+): PERF_RECORD_(FORK|EXIT)", text):
        if event == "FORK":
            began = float(at) if alive == 0 else began
            alive += 1
        elif alive > 0:
            alive -= 1
            if alive == 0:
                taken += float(at) - began
                count += 1
    return taken, count


def run_a_second(program, blocks, threads):
    """Appends a second within the rounds of a run."""
    script = f"{blocks}-{threads}-large"
    return appends_in(script) / statistics.median(rounds(program, script)[0] for _ in range(TIMES))


def step_a_second(program, blocks, threads):
    """Appends a second by events, by scripts of two sizes."""
    small, large = (f"{blocks}-{threads}-{size}" for size in ("small", "large"))
    more = appends_in(large) - appends_in(small)
    return more / (seconds(program, "step", large) - seconds(program, "step", small))


def tell_speed(program):
    print("| appends of | threads | `run`, a second | beside one thread | `step`, a second |\n|---|---|---|---|---|")
    for blocks in BLOCKS:
        alone = None
        for threads in THREADS:
            by_threads = run_a_second(program, blocks, threads)
            alone = alone or by_threads
            by_events = step_a_second(program, blocks, threads)
            name = "1 block" if blocks == 1 else f"{blocks} blocks"
            print(f"| {name} | {threads} | {by_threads:,.0f} | {by_threads / alone:.2f} | {by_events:,.0f} |", flush=True)


def tell_split(program):
    for blocks in BLOCKS:
        for threads in (1, 4):
            name = f"{blocks}-{threads}-large"
            run = [program, "run", "image", name, "strict"]
            tool = ["valgrind", "--tool=callgrind", f"--callgrind-out-file={name}.callgrind"]
            subprocess.run(tool + run, stdout=subprocess.DEVNULL, stderr=subprocess.DEVNULL, check=True)
            told = ["callgrind_annotate", "--inclusive=yes", "--threshold=100", f"{name}.callgrind"]
            text = subprocess.run(told, capture_output=True, text=True, check=True).stdout
            counts = [(int(count.replace(",", "")), function) for count, function in re.findall(LINE, text, re.M)]
            whole = sum(count for count, function in counts if function.startswith(WORKER))
            print(f"appends of {blocks} blocks by {threads} threads: {whole:,} instructions of the workers, in a hundred of which are")
            for count, function in counts:
                if whole <= 100 * count <= 100 * whole:
                    print(f"    {100 * count / whole:6.1f}  {function}", flush=True)


def tell_waits(program):
    print("| appends of | threads | appends | switches |\n|---|---|---|---|")
    for blocks in BLOCKS:
        for threads in THREADS:
            name = f"{blocks}-{threads}-large"
            run = ["perf", "stat", "-x", ",", "-e", "context-switches", program, "run", "image", name, "strict"]
            told = subprocess.run(run, stdout=subprocess.DEVNULL, stderr=subprocess.PIPE, text=True, check=True).stderr
            print(f"| {blocks} | {threads} | {appends_in(name):,} | {int(told.split(',')[0]):,} |", flush=True)


def main():
    said = argparse.ArgumentParser(description=__doc__, formatter_class=argparse.RawDescriptionHelpFormatter)
    said.add_argument("program")
    said.add_argument("--split", action="store_true")
    said.add_argument("--waits", action="store_true")
    words = said.parse_args()
    program = os.path.abspath(words.program)
    with tempfile.TemporaryDirectory() as folder:
        os.chdir(folder)
        subprocess.run(["bash", f"{HERE}/make_run_scripts.sh"], check=True)
        subprocess.run([program, "mkfs", "image", "16384", "1024", "64", "64"], stdout=subprocess.DEVNULL, check=True)
        if words.split:
            tell_split(program)
        if words.waits:
            tell_waits(program)
        if not words.split and not words.waits:
            tell_speed(program)
        os.chdir(HERE)


if __name__ == "__main__":
    sys.exit(main())

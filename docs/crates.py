#!/usr/bin/env python3
"""Writes docs/CRATES.md: every crate by its layer, with the first sentence of its head and the crates it stands on.

    docs/crates.py            writes docs/CRATES.md
    docs/crates.py --check    ends with 1 where docs/CRATES.md is not what would be written

The crates, what each stands on and the groups of the tests are those of crates.txt; the sentences are those of the `//!` lines
at the head of src/lib.rt or src/main.rt. The layers are listed here, from the bottom up; a crate that is listed nowhere comes
last, or among the tests where the comment above it in crates.txt speaks of tests.
"""
import re
import sys
from functools import cache
from pathlib import Path

TOP = Path(__file__).resolve().parent.parent
PAGE = TOP / "docs" / "CRATES.md"

LAYERS: list[tuple[str, str]] = [
    ("Counts, lists and the memory", "block_counts list_laws pm_model pm_lines"),
    ("Maps of blocks", "extent_model extent_map block_pool k_relink"),
    (
        "The image",
        "layout_model image_model image_layout k_inodes k_names oplog_entry map_chain block_io volume_laws image_laws",
    ),
    ("The file calls and the modes", "posix_types posix_tables posix_spec posix_laws crash_spec commute_laws crash_judge"),
    (
        "K-Split: names, nodes and maps behind the journal",
        "k_journal k_split_model name_laws volume_change_laws k_reading check_image k_check k_tables k_plans k_map_plans k_group_commit k_split",
    ),
    (
        "The World as mathematics",
        "world_model world_step_laws world_write_laws world_image_laws log_laws posix_mode_laws batch_laws k_split_laws",
    ),
    (
        "Data: what is staged, published and mounted",
        "file_overlay map_collection data_route file_reads file_table staging_files fsync_relink log_checkpoint log_replay",
    ),
    (
        "Writes, and the calls beside them",
        "open_files write_jobs write_plan in_place write_begin write_end file_calls file_publish file_truncate round_log "
        "in_flight live_model live_step_laws eof_laws",
    ),
    (
        "The World as it runs",
        "world_view_laws call_laws round_laws run_laws world_parts world_begins world_rounds split_world "
        "schedule split_machine",
    ),
    ("Runs by threads", "ruled_turn oplog_tail thread_laws split_threads"),
    ("The program", "script_text report_text split_cases outside command_line split_top splitfs"),
]
TESTS = "Tests"
OTHERS = "Others"


def read_crates() -> tuple[dict[str, list[str]], dict[str, str]]:
    """Returns of each crate what it stands on, the kit's crates left out, and the comment under which crates.txt has it."""
    below: dict[str, list[str]] = {}
    comments: dict[str, str] = {}
    comment = ""
    for line in (TOP / "crates.txt").read_text().splitlines():
        if line.startswith("#"):
            comment = line[1:].strip()
        elif ":" in line:
            head, names = line.split(":", 1)
            crate = head.split()[0]
            below[crate], comments[crate] = names.split(), comment
    return {crate: [name for name in names if name in below] for crate, names in below.items()}, comments


def first_sentence(crate: str) -> str:
    """Returns the first sentence of a crate's head."""
    source = next(path for name in ("lib.rt", "main.rt") if (path := TOP / "crates" / crate / "src" / name).exists())
    head: list[str] = []
    for line in source.read_text().splitlines():
        if not line.startswith("//!") or line.strip() == "//!":
            break
        head.append(line[3:].strip())
    return re.split(r"(?<=\.)\s+(?=[A-Z`])", " ".join(head), maxsplit=1)[0].replace("|", "\\|")


def kind(crate: str) -> str:
    """Returns what a crate's name says that it is."""
    kinds = {"_model": "definitions", "_laws": "laws", "_rows": "tests", "_tests": "tests"}
    return next((told for suffix, told in kinds.items() if crate.endswith(suffix)), "code")


def layers_of(crates: list[str], comments: dict[str, str]) -> list[tuple[str, list[str]]]:
    """Returns the layers from the bottom up, each with its crates that there are."""
    placed = {crate for _, names in LAYERS for crate in names.split()}
    rest = [crate for crate in crates if crate not in placed]
    tests = [crate for crate in rest if kind(crate) == "tests" or "test" in comments[crate].lower()]
    others = [crate for crate in rest if crate not in tests]
    layers = [(title, [crate for crate in names.split() if crate in crates]) for title, names in LAYERS]
    return [layer for layer in [*layers, (OTHERS, others), (TESTS, tests)] if layer[1]]


def page() -> str:
    """Returns the text of the page."""
    below, comments = read_crates()

    @cache
    def height(crate: str) -> int:
        return 1 + max((height(name) for name in below[crate]), default=0)

    layers = layers_of(list(below), comments)
    tests = dict(layers).get(TESTS, [])
    lines = [
        "# The crates",
        "",
        f"Written by `docs/crates.py` from `crates.txt` and the first sentence of each crate's head. {len(below)} crates, "
        f"{len(tests)} of them tests; the longest chain from the bottom up is {max(map(height, below))}.",
        "",
        "A name without suffix is code; `_model` is definitions, `_laws` laws and lemmas, `_rows` and `_tests` tests. *High* is how "
        "long the longest chain from the bottom up to a crate is, itself counted. The crates that it stands on are those that its "
        "sources name; most are below these too. [DESIGN.md](DESIGN.md) says how the layers work together.",
    ]
    for title, crates in layers:
        lines += ["", f"## {title}", "", "| crate | high | what it is | stands on |", "|---|---|---|---|"]
        for crate in sorted(crates, key=lambda name: (height(name), name)):
            names = ", ".join(f"`{name}`" for name in sorted(below[crate]))
            lines.append(f"| `{crate}` | {height(crate)} | {first_sentence(crate)} | {names} |")
    return "\n".join(lines) + "\n"


def main() -> int:
    """Writes the page, or says whether it is current."""
    text = page()
    if sys.argv[1:] == ["--check"]:
        if PAGE.exists() and PAGE.read_text() == text:
            return 0
        print("docs/CRATES.md is not current: run docs/crates.py", file=sys.stderr)
        return 1
    if sys.argv[1:]:
        print(__doc__, file=sys.stderr)
        return 2
    PAGE.write_text(text)
    return 0


if __name__ == "__main__":
    sys.exit(main())

"""Opens the book that a power loss left. Each name that was told is there."""

import dbm.dumb
import sys

told = sys.stdin.read().split()
with dbm.dumb.open("book", "c") as book:
    found = {name: book.get(name) for name in told}
wanted = {name: str(number).encode() for number, name in enumerate(told, 1)}
sys.exit(None if found == wanted else f"told: {wanted}, found: {found}")

"""Saves a text over an old one: writes it into a second file, and, while that is still open, renames it over the first.

    python3 save.py            without an fsync
    python3 save.py fsync      with an fsync before the rename
"""

import os
import sys


def save(text: str, is_synced: bool) -> None:
    with open("text.new", "w", encoding="ascii") as file:
        file.write(text)
        file.flush()
        if is_synced:
            os.fsync(file.fileno())
        os.rename("text.new", "text")


save("the old text\n", is_synced=True)
print("old", flush=True)
save("the new text, which is longer\n", is_synced="fsync" in sys.argv)
print("new", flush=True)

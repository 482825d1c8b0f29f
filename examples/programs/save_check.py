"""The text is whole after a power loss: the old one or the new one, and the new one once it was told."""

import os
import sys

OLD, NEW = "the old text\n", "the new text, which is longer\n"
said = sys.stdin.read().split()
text = open("text", encoding="ascii").read() if os.path.exists("text") else None
allowed = [NEW] if "new" in said else [OLD, NEW] if "old" in said else [None, OLD]
sys.exit(None if text in allowed else f"the text is {text!r}")

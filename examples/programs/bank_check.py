"""Opens the bank that a power loss left: SQLite finds no damage, no money is lost, and each transfer that was told is there.

What bank.py had said by then is on the standard input.
"""

import os
import sqlite3
import sys


def main() -> str:
    said = sys.stdin.read().split("\n")[:-1]
    if not said and not os.path.exists("bank.db"):
        return ""
    bank = sqlite3.connect("bank.db")
    damage = bank.execute("pragma integrity_check").fetchall()
    if damage != [("ok",)]:
        return f"damage: {damage}"
    tables = [name for (name,) in bank.execute("select name from sqlite_master order by name")]
    if not tables:
        return "the bank was opened, and is empty" if said else ""
    money = bank.execute("select sum(money) from account").fetchone()[0]
    done = [number for (number,) in bank.execute("select number from transfer order by number")]
    told = max(len(said) - 1, 0)
    if money != 200:
        return f"the accounts have {money} together, and not 200"
    if done != list(range(1, len(done) + 1)) or not told <= len(done) <= told + 1:
        return f"{told} transfers were told, and these are there: {done}"
    return ""


try:
    sys.exit(main() or None)
except sqlite3.DatabaseError as error:
    sys.exit(f"damage: {error}")

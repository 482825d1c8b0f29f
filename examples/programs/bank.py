"""Moves money between two accounts in an SQLite database, and says of each transaction that it returned.

    python3 bank.py rollback 2     two transfers, with a rollback journal
    python3 bank.py ahead 2        with a log written ahead, in exclusive locking mode, so that no file is mapped
"""

import sqlite3
import sys


def main(how: str, transfers: int) -> None:
    bank = sqlite3.connect("bank.db", isolation_level=None)
    bank.execute("pragma page_size = 512")
    if how == "ahead":
        bank.execute("pragma locking_mode = exclusive")
        bank.execute("pragma journal_mode = wal")
    bank.execute("pragma synchronous = full")
    bank.executescript(
        "begin; create table account(name text, money integer); create table transfer(number integer);"
        "insert into account values('ada', 100), ('bob', 100); commit;"
    )
    print("opened", flush=True)
    for number in range(1, transfers + 1):
        bank.executescript(
            f"begin; update account set money = money - 10 where name = 'ada'; update account set money = money + 10"
            f" where name = 'bob'; insert into transfer values({number}); commit;"
        )
        print(f"transferred {number}", flush=True)
    bank.close()


main(sys.argv[1], int(sys.argv[2]))

"""Keeps a book of names with Python's dbm.dumb, and says what is synced."""

import dbm.dumb

with dbm.dumb.open("book", "c") as book:
    for number, name in enumerate(("ada", "bob"), 1):
        book[name] = str(number)
        book.sync()
        print(name, flush=True)

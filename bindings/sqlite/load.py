#!/usr/bin/env python3
"""Makes a database with the table `expected` from the rows on standard input, which expected.py writes.

usage: load.py FILE text|blob|utf-16

The arguments of functions are stored as texts, whatever their bytes are, or as blobs; a database in UTF-16 has only the
rows whose texts are UTF-8.
"""
import sqlite3
import sys
from pathlib import Path

ROOT = Path(__file__).resolve().parents[2]
sys.dont_write_bytecode = True  # leaves nothing in the tree
sys.path.insert(0, str(ROOT / "tests" / "stored"))

from expected import COLUMNS, GIVEN, SCORES, columns_of, is_utf8


def rows(is_utf16):
    for line in sys.stdin:
        row = columns_of(line)
        if not is_utf16:
            yield [value if name in GIVEN else value and value.decode() for name, value in row.items()]
        elif is_utf8(row):
            yield [value and value.decode() for value in row.values()]


def main(path, kind):
    database = sqlite3.connect(path)
    if kind == "utf-16":
        database.execute("PRAGMA encoding = 'UTF-16'")
    columns = ", ".join(f"{name} {'REAL' if name in SCORES else ''}" for name in COLUMNS)
    database.execute(f"CREATE TABLE expected ({columns})")
    given = "CAST(? AS TEXT)" if kind == "text" else "?"
    places = ", ".join(given if name in GIVEN else "?" for name in COLUMNS)
    database.executemany(f"INSERT INTO expected VALUES ({places})", rows(kind == "utf-16"))
    database.commit()


if __name__ == "__main__":
    main(*sys.argv[1:])

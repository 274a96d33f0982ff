#!/usr/bin/env python3
"""Prints what docs/SQL.md has for a database.

usage: document.py sqlite|postgresql queries|answers|ranking
       document.py python program|answer

The queries are the blocks of SQL, in order, for both databases or for this one; the answers are the blocks `text` after
them. The ranking is the query that puts rejected rows last. The program is the block of Python, and its answer the
comment at its end.
"""
import sys
from pathlib import Path

DOCUMENT = Path(__file__).resolve().parents[2] / "docs" / "SQL.md"


def blocks():
    """The words at the head of each block, and its lines."""
    words, lines = None, []
    for line in DOCUMENT.read_text(encoding="utf-8").splitlines():
        if not line.startswith("```"):
            lines.append(line)
        elif words is None:
            words, lines = line[3:].split(), []
        else:
            yield words, lines
            words = None


def parts(database):
    """The queries and the answers for a database."""
    queries, answers, ranking, is_ours = [], [], [], False
    for words, lines in blocks():
        if words[:1] == ["sql"]:
            is_ours = words[1:] in ([], [database])
            queries += lines if is_ours else []
            ranking += lines if lines[0].startswith("SELECT") and "NULLS LAST" in " ".join(lines) else []
        elif words == ["text"]:
            answers += lines if is_ours else []
    return {"queries": queries, "answers": answers, "ranking": ranking}


def program():
    lines = next(lines for words, lines in blocks() if words == ["python"])
    return {"program": lines, "answer": [lines[-1].removeprefix("# ")]}


def main(database, part):
    told = program() if database == "python" else parts(database)
    if not told[part]:
        sys.exit(f"{DOCUMENT.name} has no {part} for {database}: nothing would be tried")
    print("\n".join(told[part]))


if __name__ == "__main__":
    main(*sys.argv[1:])

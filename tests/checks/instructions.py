#!/usr/bin/env python3
"""Checks that `cvss_tool` takes at most 3 % more instructions a line than docs/PERFORMANCE.md says, and no more than
limits that do not rise with that page.

No answer shows that a fast path is missing, or declines each text; the instructions do. The lines
are those of bench/instructions.sh, which needs valgrind, for each version and order.

usage: tests/checks/instructions.py
"""
import re
import subprocess
import sys
from pathlib import Path

ROOT = Path(__file__).resolve().parents[2]
LINES = 500
# for each row of that page, in its order
LIMITS = (350, 522, 1283, 423, 721, 1781, 668, 1097, 2714)
ROW = re.compile(r"^\| (v[^|]*) \| \d+ \| ([\d,]+) \|", re.MULTILINE)


def rows(text):
    """The name of each row, and its instructions a line."""
    return [(name, int(count.replace(",", ""))) for name, count in ROW.findall(text)]


def main():
    page = (ROOT / "docs/PERFORMANCE.md").read_text(encoding="utf-8")
    section = page.split("## Instructions a line\n")[1].split("\n## ")[0]
    done = subprocess.run([ROOT / "bench/instructions.sh", str(LINES)],
                          stdout=subprocess.PIPE, text=True, check=True)
    for (name, said), limit, (row, count) in zip(rows(section), LIMITS, rows(done.stdout), strict=True):
        if count * 100 > said * 103 or count > limit:
            sys.exit(f"{row}: {count} instructions a line; docs/PERFORMANCE.md: {name}, {said}; limit: {limit}")
    print("cvss_tool: a line takes no more instructions than docs/PERFORMANCE.md says")


if __name__ == "__main__":
    main()

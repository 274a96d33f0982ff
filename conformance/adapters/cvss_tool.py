#!/usr/bin/env python3
"""Answers the texts of the kit by the program cvss_tool, whose path is the argument.

columns: canonical,score,severity,kind
"""
import subprocess
import sys
from pathlib import Path

sys.dont_write_bytecode = True  # leaves nothing in the tree
sys.path.insert(0, str(Path(__file__).resolve().parents[1]))

from kinds import kind_of


def main():
    with subprocess.Popen(sys.argv[1:], stdout=subprocess.PIPE) as program:
        for line in program.stdout:
            answer = line.decode("utf-8").rstrip("\n")
            reason = answer.removeprefix("error: ")
            print(answer if reason == answer else f"error: {kind_of(reason)}")
    # 1 says that a line was rejected.
    return 0 if program.returncode in (0, 1) else 2


if __name__ == "__main__":
    sys.exit(main())

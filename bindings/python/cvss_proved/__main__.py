"""`python -m cvss_proved VECTOR..` prints the score line of each vector, as `cvss score` does."""

from __future__ import annotations

import argparse
import os
import sys
from typing import List, Optional

from . import __version__, score_line


def _parser() -> argparse.ArgumentParser:
    parser = argparse.ArgumentParser(
        prog="python -m cvss_proved",
        description="Prints the canonical text, the score and the severity of each CVSS vector, or why it is rejected.",
        epilog="Exit status: 0 on success; 1 if a vector was rejected; 2 on usage or I/O errors.",
    )
    parser.add_argument("vectors", nargs="+", metavar="VECTOR", help="such as CVSS:3.1/AV:N/AC:L/PR:N/UI:N/S:U/C:H/I:H/A:H")
    parser.add_argument("--allow-incomplete", action="store_true", help="accept v3 vectors that lack base metrics")
    parser.add_argument("--version", action="version", version=__version__)
    return parser


def main(arguments: Optional[List[str]] = None) -> int:
    """Prints a line for each vector. Returns 1 if one is rejected, 2 after an I/O error, and otherwise 0."""
    parser = _parser()
    given = parser.parse_args(arguments)
    lines = [score_line(vector, allow_incomplete=given.allow_incomplete) for vector in given.vectors]
    try:
        print("\n".join(lines), flush=True)
    except OSError as error:
        # the reader may have closed the pipe
        if not isinstance(error, BrokenPipeError):
            print(f"{parser.prog}: {error}", file=sys.stderr)
        # what is still in the buffer would be written again at the end
        os.dup2(os.open(os.devnull, os.O_WRONLY), sys.stdout.fileno())
        return 2
    return int(any(line.startswith("error: ") for line in lines))


if __name__ == "__main__":
    sys.exit(main())

"""The command `cvss-calculator`, or `python3 -m cvss_proved.calculator`: opens the calculator in the browser.

The calculator is one HTML file. It needs no server, and computes each score in the browser.
"""

from __future__ import annotations

import argparse
import sys
import webbrowser
from pathlib import Path
from typing import List, Optional

_FILE = "cvss-calculator.html"


def path() -> Path:
    """The calculator's file: the one in this package, or in a checkout the one in bindings/calculator."""
    here = Path(__file__).resolve().parent
    candidates = [here / _FILE, here.parent.parent / "calculator" / _FILE]
    for candidate in candidates:
        if candidate.is_file():
            return candidate
    searched = " or ".join(str(candidate) for candidate in candidates)
    raise FileNotFoundError(f"cannot find the calculator at {searched}: install the package again")


def _parser() -> argparse.ArgumentParser:
    parser = argparse.ArgumentParser(
        prog="cvss-calculator",
        description="Opens a calculator for CVSS v2.0, v3.0, v3.1 and v4.0 in the browser. It is one HTML file, which "
        "computes every score in the browser and sends nothing.",
    )
    parser.add_argument("--print-path", action="store_true", help="print the file's path, and open nothing")
    return parser


def main(arguments: Optional[List[str]] = None) -> int:
    """Opens the file. Returns 0, or 2 if the file is missing or no browser could be started."""
    given = _parser().parse_args(arguments)
    try:
        page = path()
    except FileNotFoundError as error:
        print(f"cvss-calculator: {error}", file=sys.stderr)
        return 2
    print(page)
    if given.print_path or webbrowser.open(page.as_uri()):
        return 0
    print("cvss-calculator: no browser could be started: open the file above in one", file=sys.stderr)
    return 2


if __name__ == "__main__":
    sys.exit(main())

"""Tests the command that opens the calculator, with a stand-in for the browser.

Usage: check_calculator.py ROOT, the folder of the checkout. The package is the one that Python finds.
"""

import os
import subprocess
import sys
import tempfile
from pathlib import Path
from typing import List

COMMAND = [sys.executable, "-m", "cvss_proved.calculator"]


def ran(arguments: List[str], browser: str) -> "subprocess.CompletedProcess[str]":
    """Runs the command where this program is the one browser."""
    others = {name: value for name, value in os.environ.items() if name not in ("DISPLAY", "WAYLAND_DISPLAY")}
    return subprocess.run(
        [*COMMAND, *arguments], stdout=subprocess.PIPE, stderr=subprocess.PIPE, text=True,
        env={**others, "BROWSER": f"{browser} %s", "PATH": ""}, stdin=subprocess.DEVNULL,
    )


def check_command(root: Path, folder: Path) -> None:
    page = (root / "bindings" / "calculator" / "cvss-calculator.html").read_bytes()
    browser, opened = folder / "browser", folder / "opened"
    browser.write_text(f'#!/bin/sh\necho "$1" > "{opened}"\n')
    browser.chmod(0o755)
    printed = ran(["--print-path"], str(browser))
    path = Path(printed.stdout.rstrip("\n"))
    assert (printed.returncode, printed.stderr) == (0, "") and path.read_bytes() == page, printed
    assert not opened.exists()
    done = ran([], str(browser))
    assert (done.returncode, done.stdout, done.stderr) == (0, printed.stdout, ""), done
    assert opened.read_text() == f"{path.as_uri()}\n"
    assert ran(["--port", "1"], str(browser)).returncode == 2
    without = ran([], "/bin/false")
    assert without.returncode == 2 and "no browser could be started" in without.stderr, without


if __name__ == "__main__":
    with tempfile.TemporaryDirectory() as name:
        check_command(Path(sys.argv[1]).resolve(), Path(name))
    print("Python: cvss-calculator opens the calculator's file")

"""How tests in Python report what they skip, as the file `skipping` does for bash."""
import functools
import os
import subprocess
import sys
from pathlib import Path

_SKIPPING = Path(__file__).with_name("skipping")


def skip(part, reason):
    print(f"skipped: {part}: {reason}", flush=True)
    if os.environ.get("TEST_SKIPPED"):
        with open(os.environ["TEST_SKIPPED"], "a", encoding="utf-8") as skipped:
            skipped.write(f"{part}: {reason}\n")


def has(command, part):
    """What `has` of the file `skipping` returns."""
    sys.stdout.flush()
    return not subprocess.call(["bash", "-c", '. "$0"; has "$@"', _SKIPPING, command, part])


@functools.cache
def python_with(module, part):
    """The first Python that has a module: the one that runs this, or /usr/bin/python3, which finds
    the packages of the system. None, and the part is skipped, where neither has it."""
    for python in (sys.executable, "/usr/bin/python3"):
        command = [python, "-c", f"import {module}"]
        if os.path.exists(python) and not subprocess.call(command, stderr=subprocess.DEVNULL):
            return python
    skip(part, f"python3-{module.split('.')[0]} is not on this machine")
    return None

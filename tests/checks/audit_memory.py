#!/usr/bin/env python3
"""Checks how much memory the built `cvss audit` takes in addition to the JSON reader: at most 20 bytes for
each byte of the line, however many vectors are in it, however long their pointers are, and whatever the
members that disagree say.

The memory of the reader is measured on a line of the same bytes without a vector. The answers are
checked too: one line for each location, with its pointer, in order.

usage: tests/checks/audit_memory.py
"""
import itertools
import re
import subprocess
import sys
import threading
from pathlib import Path

ROOT = Path(__file__).resolve().parents[2]
sys.path.insert(0, str(ROOT / "tests/inputs"))

from deep_documents import document

PROGRAM = [ROOT / "crates/cvss_command/out/cvss_command", "audit", "--json"]
MOST = 20
# What answers are kept before they are written, and the pages that the system gives in advance.
START = 1 << 20
# That an input has one document per line is seen from its first line, of which more may be read than the line; so that
# the program does not wait for more than is given, it is a short one.
FIRST = "{}\n"
LAST = '{"vectorString":"AV:N/AC:L/Au:N/C:N/I:N/A:C"}\n'
COUNT = 2_000

# Each kind of document, and the pointer to the location with this number.
KINDS = [(("names", letters, COUNT), lambda k, letters=letters: f"/{'n' * letters}/{k}")
         for letters in (10, 1_000, 10_000, 100_000)]
KINDS.append((("deep", 20 * COUNT), lambda k: "/a" * 118 + f"/{k}"))
KINDS.append((("members", 1_000_000), None))
KINDS.append((("nested", 126), lambda k: "/a" * 126))
KINDS.append((("said", 100_000), lambda k: ""))
KINDS.append((("numbers", 400_000), lambda k: ""))
KINDS.append((("text", 2_000_000), lambda k: ""))
KINDS.append((("empty", 4 * COUNT), None))
# How many locations are in those whose last number is not their count.
PLACES = {"nested": 1, "said": 1, "numbers": 1, "text": 1, "empty": 0}
# In which of them something is rejected or differs.
REFUSED = ("said", "numbers", "text")


def run(line, check, status=0):
    """The most memory in bytes that the program has held when it has answered the line, and one more
    by which this is seen; the answers to the line go through `check`."""
    with subprocess.Popen(PROGRAM, stdin=subprocess.PIPE, stdout=subprocess.PIPE) as program:
        feeding = threading.Thread(target=feed, args=(program.stdin, (FIRST + line + LAST).encode()))
        feeding.start()
        check(itertools.takewhile(lambda answer: b'"line":3,' not in answer[-200:], program.stdout))
        held = re.search(r"VmHWM:\s*(\d+) kB", Path(f"/proc/{program.pid}/status").read_text())
        feeding.join()
        program.stdin.close()
        if program.wait() != status:
            sys.exit(f"{line[:60]}: status {program.returncode}")
    return int(held[1]) << 10


def feed(pipe, data):
    pipe.write(data)
    pipe.flush()


def check_places(kind, count, pointer, answers):
    """One answer for each location, in order."""
    number = 0
    for answer in answers:
        if pointer is not None and not answer.startswith(b'{"at":"%s",' % pointer(number).encode()):
            sys.exit(f"{kind}: place {number} is answered by {answer[:200]}")
        number += 1
    if number != count:
        sys.exit(f"{kind}: {number} answers to {count} places")


def check_none(answers):
    for answer in answers:
        sys.exit(f"a vector is found where none is: {answer[:200]}")


def main():
    most = dearest = 0
    for kind, pointer in KINDS:
        line = document(*kind)
        count = PLACES.get(kind[0], kind[-1])
        took = run(line, lambda answers: check_places(kind, count, pointer, answers),
                   status=1 if kind[0] in REFUSED else 0)
        reader = run(document(*kind, nameless=True), check_none)
        beside = max(0, took - reader)
        rate = beside / len(line)
        if len(line) > START // MOST:
            most, dearest = max(most, rate), max(dearest, reader / len(line))
        print(f"{' '.join(map(str, kind))}: a line of {len(line):,} bytes takes {took >> 10:,} KiB, "
              f"{reader >> 10:,} KiB where no vector is found", flush=True)
        if beside > MOST * len(line) + START:
            sys.exit(f"{kind}: {rate:.1f} bytes a byte beside the reader")
    print(f"cvss audit takes at most {most:.1f} bytes a byte of a line beside the JSON reader, "
          f"which takes up to {dearest:.0f}")


if __name__ == "__main__":
    main()

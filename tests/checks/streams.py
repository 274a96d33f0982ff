#!/usr/bin/env python3
"""Runs the built programs on streams that give little per read, take little per write, or fail.

A small preloaded `read` and `write` cut what standard input gives and standard output takes, and fail
once with each error of the system in turn, after which they succeed: this finds a program that tries a
failed call again. Long lines, deep documents and every vector with a changed scope are tried too, each
compared with what `reference.py` or a formula answers.

It needs cc and python3 in addition to the toolchain.

usage: tests/checks/streams.py
"""
import errno
import json
import os
import select
import subprocess
import sys
import tempfile
from pathlib import Path

ROOT = Path(__file__).resolve().parents[2]
sys.path[:0] = [str(ROOT / "reference"), str(ROOT / "tests/inputs")]

import changed_scopes
import finding
import reference

SHIM = r"""
#define _GNU_SOURCE
#include <dlfcn.h>
#include <errno.h>
#include <stdlib.h>
#include <unistd.h>

static long setting(const char *name, long other)
{
    const char *text = getenv(name);
    return text ? atol(text) : other;
}

ssize_t read(int fd, void *room, size_t count)
{
    static ssize_t (*next)(int, void *, size_t);
    static long given, failed;
    if (!next) next = (ssize_t (*)(int, void *, size_t))dlsym(RTLD_NEXT, "read");
    if (fd != 0)
        return next(fd, room, count);
    long step = setting("READ_STEP", 1 << 30), fault = setting("READ_FAULT", 0);
    long left = setting("READ_LIMIT", 1 << 30) - given;
    if (fault && !failed && left <= 0) {
        failed = 1;
        errno = (int)fault;
        return -1;
    }
    if (count > (size_t)step) count = step;
    if (fault && !failed && count > (size_t)left) count = left;
    ssize_t got = next(fd, room, count);
    if (got > 0) given += got;
    return got;
}

ssize_t write(int fd, const void *bytes, size_t count)
{
    static ssize_t (*next)(int, const void *, size_t);
    static long taken, turn, failed;
    if (!next) next = (ssize_t (*)(int, const void *, size_t))dlsym(RTLD_NEXT, "write");
    if (fd != 1)
        return next(fd, bytes, count);
    long left = setting("WRITE_ROOM", 1 << 30) - taken, fault = setting("WRITE_FAULT", 0);
    if (failed)
        left = 1 << 30;
    if (left <= 0) {
        failed = 1;
        errno = (int)fault;
        return fault ? -1 : 0;
    }
    /* one to three bytes a call, in turn */
    turn = turn % 3 + 1;
    if (setting("WRITE_SLOWLY", 0) && count > (size_t)turn) count = turn;
    if (count > (size_t)left) count = left;
    ssize_t put = next(fd, bytes, count);
    if (put > 0) taken += put;
    return put;
}
"""

FAULTS = sorted(errno.errorcode)

EMPTY = "error: invalid CVSS metric group component: ``\n"
FIRST = "AV:N/AC:L/Au:N/C:N/I:N/A:C 7.8 high\n"
# Lines of `cvss_tool` with their answers; the last of some inputs has no end.
LINES = [
    (b"", ""),
    (b"AV:N/AC:L/Au:N/C:N/I:N/A:N\r\n\nCVSS:3.1/AV:N",
     f"AV:N/AC:L/Au:N/C:N/I:N/A:N 0.0 low\n{EMPTY}CVSS:3.1/AV:N 0.0 none\n"),
    (b"CVSS:3.1/AV:N/AC:L/PR:N/UI:N/S:U/C:H/I:H/A:H\nAV:N/AC:L/Au:N/C:N/I:N/A:C\ngarbage",
     f"CVSS:3.1/AV:N/AC:L/PR:N/UI:N/S:U/C:H/I:H/A:H 9.8 critical\n{FIRST}"
     "error: invalid CVSS metric group component: `garbage`\n"),
    (b"CVSS:4.0/AV:N/AC:L/AT:N/PR:N/UI:N/VC:L/VI:H/VA:N/SC:N/SI:N/SA:N/E:P\n",
     "CVSS:4.0/AV:N/AC:L/AT:N/PR:N/UI:N/VC:L/VI:H/VA:N/SC:N/SI:N/SA:N/E:P 7.8 high\n"),
    (b"\xff", "error: not UTF-8\n"),
    (b"\r", EMPTY),
    (b"garbage\r\r\n", "error: invalid CVSS metric group component: `garbage\r`\n"),
    (b"A:C/I:N/C:N/Au:N/AC:L/AV:N\r", FIRST),
]

# Texts of `cvss find`; the last of some lines has no end.
TEXTS = [
    b"",
    b"\r\n\nsee CVSS:3.1 and AV:N/AC:L",
    b"score 9.8 (CVSS:3.1/AV:N/AC:L/PR:N/UI:N/S:U/C:H/I:H/A:H).\r\n\xffAV:N/AC:L/Au:N/C:N/I:N/A:C\xfe",
    b"AV:N/AC:L/Au:N/C:N/I:N/A:C\nCVSS:3.1/AV:N/CVSS:3.1/AV:q, and/or\n",
    b"CVSS:/" * 100 + b"\n" + b"/" * 1_000 + b"\r",
]

LOW = "CVSS:4.0/AV:N/AC:L/AT:N/PR:H/UI:N/VC:L/VI:L/VA:N/SC:N/SI:N/SA:N"
NONE = "CVSS:4.0/AV:N/AC:L/AT:N/PR:N/UI:N/VC:N/VI:N/VA:N/SC:N/SI:N/SA:N"
LOWER = "CVSS:4.0/av:n/AC:L/AT:N/PR:N/UI:N/VC:N/VI:N/VA:N/SC:N/SI:N/SA:N"
# Arguments and lines of `cvss triage`, and the rows.
RANKED = [
    (["triage", "--set", "msi:s"], "", ""),
    (["triage", "--set", "msi:s"], f"{LOW}\r\n{NONE}",
     f"8.9 high {NONE}/MSI:S\t{NONE}\n7.8 high {LOW}/MSI:S\t{LOW}\n"),
    (["triage"], f"{LOWER}\r\n", f"0.0 none {NONE}\t{LOWER}\n"),
]

V2 = "AV:N/AC:L/Au:N/C:N/I:N/A:C"
DOCUMENT = f'{{"vectorString":"{V2}","baseScore":7}}'


def audited(says="7", line=1):
    """What `cvss audit` answers to a document that says this of the score 7.8 of a vector of v2."""
    return (f'{{"at":"","differs":[{{"is":7.8,"member":"baseScore","says":{says}}}],"given":"{V2}",'
            f'"line":{line},"scores":{{"base":7.8,"environmental":7.8,"score":7.8,"temporal":7.8}},'
            f'"severity":"high","vector":"{V2}"}}\n')


def agreed():
    """What it answers to a document that says the vector's score."""
    answer = json.loads(audited())
    del answer["differs"]
    return json.dumps(answer, separators=(",", ":")) + "\n"


def no_json(line, column, of_file=0):
    """What it answers to a text that is no JSON, which is a line of the input or, with 0, all of it."""
    place = f',"line":{of_file}' if of_file else ""
    return f'{{"error":"not JSON: line {line}, column {column}"{place}}}\n'


def nested(depth, text=""):
    return "[" * depth + text + "]" * depth


# Documents of `cvss audit` with their answers, and whether something is found.
DOCUMENTS = [
    (b"", "", 0),
    (b'{}\n[]\n1\n"CVSS:3.1/AV:N"', "", 0),
    (b" \t\r\n\n ", "", 0),
    (DOCUMENT.encode(), audited(), 1),
    (b"\n{}\n{\n{}\r\n{}{}", no_json(1, 1, 3) + no_json(1, 3, 5), 1),
    (b"\n{\n{}\r\n{}{}", no_json(3, 2), 1),
    (b"{}\n\xff\n", '{"error":"not UTF-8","line":2}\n', 1),
    (b"\xef\xbb\xbf{}", "", 0),
    (b"\xef\xbb\xbf\xef\xbb\xbf{}", no_json(1, 1), 1),
    (b" \t[\n1\n]\n", "", 0),
    (b'[{"vectorString":""},{"vectorString":"CVSS:3.0/S:U"}]',
     '{"at":"/0","error":"invalid CVSS metric group component: ``","given":"","line":1}\n'
     '{"at":"/1","given":"CVSS:3.0/S:U","line":1,"missing":["AV","AC","PR","UI","C","I","A"],'
     '"scores":{"base":0.0,"environmental":0.0,"score":0.0,"temporal":0.0},"severity":"none",'
     '"vector":"CVSS:3.0/S:U"}\n', 1),
    (b'{"vector_string":"CVSS:3.1/A:N/AV:N/AC:L/PR:N/UI:R/S:C/C:L/I:L","score":61e-1}',
     '{"at":"","given":"CVSS:3.1/A:N/AV:N/AC:L/PR:N/UI:R/S:C/C:L/I:L","line":1,'
     '"scores":{"base":6.1,"environmental":6.1,"score":6.1,"temporal":6.1},"severity":"medium",'
     '"vector":"CVSS:3.1/AV:N/AC:L/PR:N/UI:R/S:C/C:L/I:L/A:N"}\n', 0),
    # A number beyond the doubles, half of a pair of escapes, and scores that are read as doubles.
    (b'{"vectorString":"AV:N","says":1e400}', no_json(1, 36), 1),
    (b'{"vectorString":"AV:N","says":"\\ud83d"}', no_json(1, 31), 1),
    (DOCUMENT.replace(":7}", ":7.8000000000000000001}").encode(), agreed(), 0),
    (DOCUMENT.replace(":7}", ":7.0000000000000000001}").encode(), audited("7.0"), 1),
    # A repeated member counts by its last.
    (DOCUMENT.replace("}", ',"baseScore":7.8}').encode(), agreed(), 0),
    (DOCUMENT.replace("{", '{"baseScore":7.8,').encode(), audited(), 1),
    # A document that nests 127 deep is read, and one that nests deeper is not.
    (f'{{"vectorString":"CVSS:2","says":{nested(126)}}}'.encode(),
     '{"at":"","error":"invalid CVSS metric group component: `CVSS:2`","given":"CVSS:2","line":1}\n', 1),
    (nested(1, f'{{"vectorString":"CVSS:2","says":{nested(126)}}}').encode(), no_json(1, 160), 1),
    (f'{{"vectorString":"{V2}","baseScore":{nested(126)}}}'.encode(), audited(nested(126)), 1),
]


class Runs:
    """Runs of the built programs under the preloaded calls, which are counted."""

    def __init__(self, shim):
        self.shim = shim
        self.count = 0

    def expect(self, program, given, wanted, arguments=(), **streams):
        """Compares the status, standard output and standard error."""
        outcome = self.run(program, given, arguments, streams)
        if outcome != wanted:
            sys.exit(f"{program} {arguments} {streams} over {given[:200]!r}:\n"
                     f"{str(outcome)[:2000]}\nand not\n{str(wanted)[:2000]}")
        self.count += 1

    def run(self, program, given, arguments, streams):
        """The status, standard output and standard error of a program."""
        env = dict(os.environ, LD_PRELOAD=self.shim, **{key: str(streams[key]) for key in streams})
        path = ROOT / f"crates/{program}/out/{program}"
        with tempfile.TemporaryFile() as file:
            file.write(given)
            file.seek(0)
            done = subprocess.run([path, *arguments], stdin=file, capture_output=True, env=env,
                                  check=False)
        return done.returncode, done.stdout, done.stderr.decode()

    def expect_error(self, given, wanted, arguments, **streams):
        """Compares the status and standard output of `cvss`, which names an error on standard error."""
        outcome = self.run("cvss_command", given, arguments, streams)
        if outcome[:2] != wanted or bool(wanted[0]) != outcome[2].startswith("cvss: "):
            sys.exit(f"cvss {arguments} {streams} over {given[:200]!r}:\n{str(outcome)[:2000]}\nand not\n{str(wanted)[:2000]}")
        self.count += 1

    def expect_fault(self, program, given, written, words, arguments=(), **streams):
        self.expect(program, given, (2, written, f"{program}: {words}\n"), arguments, **streams)


def try_tool(runs):
    """Lines that reads cut; failed reads; full writers."""
    for given, answers in LINES:
        status = 1 if "error: " in answers else 0
        for step in (1, 2, 3, 100_000):
            runs.expect("cvss_tool", given, (status, answers.encode(), ""), READ_STEP=step,
                        WRITE_SLOWLY=1)
    for given, answers in ((b"", ""), (FIRST.split()[0].encode() + b"\nAV:N", FIRST),
                           (b"\n", EMPTY)):
        for fault in FAULTS:
            for step in (1, 100):
                runs.expect_fault("cvss_tool", given, answers.encode(), "read failed",
                                  READ_STEP=step, READ_LIMIT=len(given), READ_FAULT=fault)
    for fault in [0] + FAULTS:
        for room in (0, 3, 10):
            runs.expect_fault("cvss_tool", FIRST.split()[0].encode() + b"\nx",
                              FIRST.encode()[:room], "write failed", WRITE_ROOM=room,
                              WRITE_FAULT=fault)


def try_find(runs):
    """Texts that reads cut, and writes of a byte. How `cvss` reports an error is tried in command.py."""
    for given in TEXTS:
        answers = "".join(finding.answers(given))
        status = 1 if "error: " in answers else 0
        for step in (1, 2, 3, 100_000):
            runs.expect("cvss_command", given, (status, answers.encode(), ""), ["find"], READ_STEP=step,
                        WRITE_SLOWLY=1)


def try_triage(runs):
    """Rows for a writer of little room; failed reads."""
    for arguments, lines, rows in RANKED:
        runs.expect("cvss_command", lines.encode(), (0, rows.encode(), ""), arguments,
                    READ_STEP=3, WRITE_SLOWLY=1)
        for fault in [0] + FAULTS if rows else []:
            room = len(rows) // 2
            runs.expect_error(lines.encode(), (0 if fault == errno.EPIPE else 2, rows.encode()[:room]),
                              arguments, WRITE_ROOM=room, WRITE_FAULT=fault, WRITE_SLOWLY=1)
    for given in (RANKED[1][1].encode(), b""):
        for fault in FAULTS:
            for more in ([], ["--keep-going"]):
                runs.expect_error(given, (2, b""), ["triage", "--set", "msi:s", *more],
                                  READ_LIMIT=len(given), READ_FAULT=fault)


def try_audit(runs):
    """Documents that reads cut; failed reads; full writers. A pipe that its reader has closed is no error."""
    for given, answers, status in DOCUMENTS:
        note = "" if answers else "cvss: no vector was found\n"
        for step in (1, 7, 100_000):
            runs.expect("cvss_command", given, (status, answers.encode(), note), ["audit", "--json"], READ_STEP=step,
                        WRITE_SLOWLY=1)
    given = f"{DOCUMENT}\n{DOCUMENT}".encode()
    for fault in FAULTS:
        runs.expect_error(given, (2, audited().encode()), ["audit", "--json"], READ_STEP=50, READ_LIMIT=len(given), READ_FAULT=fault)
        runs.expect_error(given, (2, b""), ["audit", "--json", "--document"], READ_STEP=50, READ_LIMIT=len(given), READ_FAULT=fault)
    for fault in [0] + FAULTS:
        for room in (0, 3, 10):
            runs.expect_error(given, (0 if fault == errno.EPIPE else 2, audited().encode()[:room]), ["audit", "--json"],
                              WRITE_ROOM=room, WRITE_FAULT=fault)


def try_waiting(runs):
    """A writer that waits for the answer to its first line, however long that is, before it writes the next one."""
    for size in (10, 65_400, 65_536, 70_000, 131_072, 300_000):
        line = f'{" " * (size // 2)}{{"a":"{"x" * (size // 2)}","vectorString":"{V2}","baseScore":7}}\n'.encode()
        with subprocess.Popen([ROOT / "crates/cvss_command/out/cvss_command", "audit", "--json"], stdin=subprocess.PIPE,
                              stdout=subprocess.PIPE) as program:
            program.stdin.write(line)
            program.stdin.flush()
            if not select.select([program.stdout], [], [], 20)[0]:
                program.kill()
                sys.exit(f"cvss audit does not answer a first line of {len(line)} bytes before the next one")
            if program.stdout.readline().decode() != audited():
                sys.exit(f"cvss audit answers a first line of {len(line)} bytes otherwise")
            program.stdin.close()
        runs.count += 1


def try_marks(runs):
    """Byte-order marks that reads cut."""
    ranked = f"7.8 high {V2}\t{V2}\n"
    for subcommand, answer in (("score", FIRST), ("find", f"1:1 {FIRST}"), ("triage", ranked)):
        for step in (1, 2, 3, 100_000):
            runs.expect("cvss_command", b"\xef\xbb\xbf" + V2.encode(), (0, answer.encode(), ""), [subcommand], READ_STEP=step)
            for mark in (b"\xff\xfe", b"\xfe\xff"):
                runs.expect("cvss_command", mark + V2.encode("utf-16-le"),
                            (2, b"", "cvss: -: UTF-16; convert it to UTF-8\n"), [subcommand], READ_STEP=step)
    for cut in (b"\xef", b"\xef\xbb", b"\xff", b"\xfe"):
        runs.expect("cvss_command", cut, (1, b"error: not UTF-8\n", ""), ["score"], READ_STEP=1)
    other = b"\xef\xbb\xbe"
    runs.expect("cvss_command", other, (1, b"error: invalid CVSS metric group component: `" + other + b"`\n", ""), ["score"],
                READ_STEP=1)
    runs.expect("cvss_command", b"\xef\xbb\xbf", (0, b"", ""), ["score"], READ_STEP=1)


def try_long(runs):
    """Long lines, and many lines one byte at a time."""
    name = "q" * 199_989
    given = f"CVSS:3.1/{name}:N\n{V2}".encode()
    answers = f"error: unknown CVSS metric name: `{name.upper()}`\n{FIRST}".encode()
    for step in (999, 1_000_000):
        runs.expect("cvss_tool", given, (1, answers, ""), READ_STEP=step, WRITE_SLOWLY=1)
    letters = "a" * 1_000_000
    runs.expect("test_vectors", f"v3 CVSS:3.1/{letters}:N\n".encode(),
                (0, f"error: unknown CVSS metric name: `{letters.upper()}`\n".encode(), ""))
    try_long_names(runs, "n" * 70_000)
    texts = changed_scopes.texts()
    given = "".join(f"{text}\n" for text in texts).encode()
    answers = "".join(f"{reference.answer(text.encode())}\n" for text in texts).encode()
    if (len(given), len(answers)) != (116_640, 142_558):
        sys.exit("there are other vectors with a changed scope")
    runs.expect("cvss_tool", given, (0, answers, ""), READ_STEP=1, WRITE_SLOWLY=1)


def try_long_names(runs, name):
    """A long name of each type, and a long value of metrics of each version."""
    reasons = {
        "kind 2": "unknown CVSS metric name",
        "kind 3": "unknown CVSS metric name",
        "kind 4": "unknown CVSS metric name",
        "value 2 AV": "invalid CVSSv2 AV (Access Vector) metric",
        "value 3 AV": "invalid CVSSv3 AV (Attack Vector) metric",
        "value 3 MI": "invalid CVSSv3 I (Integrity Impact) metric",
        "value 3 MS": "invalid CVSSv3 S (Scope) metric",
        "value 4 U": "invalid CVSSv4 U (Provider Urgency) metric",
    }
    runs.expect("test_vectors", "".join(f"{mark} {name}\n" for mark in reasons).encode(),
                (0, "".join(f"error: {reason}: `{name}`\n" for reason in reasons.values()).encode(),
                 ""))
    reasons = {"severity": "invalid CVSS Qualitative Severity Rating",
               "nomenclature": "invalid CVSSv4 nomenclature"}
    runs.expect("test_vectors", "".join(f"json {kind} {name}\n" for kind in reasons).encode(),
                (0, "".join(f"from_value: {reason}: `{name}`\n"
                            for reason in reasons.values()).encode(), ""))


def main():
    with tempfile.TemporaryDirectory() as room:
        source, shim = os.path.join(room, "streams.c"), os.path.join(room, "streams.so")
        with open(source, "w") as file:
            file.write(SHIM)
        subprocess.run(["cc", "-shared", "-fPIC", "-O1", "-o", shim, source, "-ldl"], check=True)
        runs = Runs(shim)
        for tried in (try_tool, try_find, try_triage, try_audit, try_waiting, try_marks, try_long):
            tried(runs)
    print(f"{runs.count} runs over streams that give or take little, or fail, ended as they should")


if __name__ == "__main__":
    main()

#!/usr/bin/env python3
"""Runs the built programs on large input, long segments and many arguments, where a bound that no contract
states would show.

Each error that quotes a part of the text is tried with parts of one byte to a million, of each version
and of a text of any version, in lines, arguments and JSON strings; what is expected comes from
`reference.py`. A valid text makes no request for memory: `test_vectors` makes as many for it as for a
number of the same length.

It needs cc and python3 in addition to the toolchain.

usage: tests/checks/sizes.py
"""
import os
import subprocess
import sys
import tempfile
from pathlib import Path

ROOT = Path(__file__).resolve().parents[2]
sys.path[:0] = [str(ROOT / "reference"), str(ROOT / "tests/inputs")]

import accounts
import ranking
import reference
import v4
from long_texts import WHOLE
from streams import FIRST, LOW, SHIM, V2, Runs, agreed

SIZES = (1, 100, 70_000, 1_000_000)
# An argument of a program has room for 128 KiB.
ARGUMENT_SIZES = (1, 255, 256, 257, 300, 70_000)
LINE = FIRST.split()[0].encode() + b"\n"
# The bytes of a long line and of a long input, and of an input that is read byte by byte; rows, and
# rows that are written slowly.
LONG = (2 << 20, 20 << 20)
ALL = 200 << 20
ONE_BY_ONE = 1_100_000
ROWS = 1_100_000
SLOW_ROWS = 20_000
# The vectors in a line, in a document and in lines of their own.
MANY = 150_000

# Reports each request for memory by a byte.
COUNTED = r"""
#define _GNU_SOURCE
#include <dlfcn.h>
#include <stdlib.h>
#include <unistd.h>

static void tell(void)
{
    (void)!write(atoi(getenv("TOLD")), "x", 1);
}

void *malloc(size_t size)
{
    static void *(*next)(size_t);
    if (!next) next = (void *(*)(size_t))dlsym(RTLD_NEXT, "malloc");
    tell();
    return next(size);
}

void *realloc(void *old, size_t size)
{
    static void *(*next)(void *, size_t);
    if (!next) next = (void *(*)(void *, size_t))dlsym(RTLD_NEXT, "realloc");
    tell();
    return next(old, size);
}
"""


def reason(read, text):
    """Why a text is rejected."""
    try:
        sys.exit(f"{read(text)[0][:200]!r} is accepted")
    except reference.Refused as error:
        return str(error)


READ = {"v2": reference.read_v2, "v3": reference.read_v3, "v4": reference.read_v4,
        "cvss": reference.read}


def rejected():
    """Texts that are rejected for a part `q`, by the version whose rules read them."""
    for version, front in (("v2", "AV:N/"), ("v3", "CVSS:3.0/AV:N/"), ("v4", "CVSS:4.0/AV:N/")):
        for text in ("q", "q:N", "AC:q"):
            yield version, front + text
            yield "cvss", front + text
    for version in ("v3", "v4", "cvss"):
        yield from ((version, text) for text in ("q:4.0/AV:N", "CVSS:q.0/AV:N", "q"))


def lengthened(text, size):
    """The text with a part of so many bytes in place of `q`, and of `Q` if it is quoted in upper case."""
    return text.replace("q", "q" * size).replace("Q", "Q" * size)


def try_rejections(runs):
    """Each error with a long part: by the rules of each version, and as a JSON string."""
    short = [(version, text, reason(READ[version], text)) for version, text in rejected()]
    for size in SIZES:
        cases = [(version, lengthened(text, size), lengthened(words, size))
                for version, text, words in short]
        given = "".join(f"{'' if version == 'cvss' else version + ' '}{text}\n"
                        for version, text, _ in cases)
        runs.expect("test_vectors", given.encode(),
                    (0, "".join(f"error: {words}\n" for _, _, words in cases).encode(), ""))
        given = "".join(f"json {version} {text}\n" for version, text, _ in cases)
        runs.expect("test_vectors", given.encode(),
                    (0, "".join(f"from_value: {words}\n" for _, _, words in cases).encode(), ""))
        lines = [(text, words) for version, text, words in cases if version == "cvss"]
        runs.expect("cvss_tool", "".join(f"{text}\n" for text, _ in lines).encode(),
                    (1, "".join(f"error: {words}\n" for _, words in lines).encode(), ""))
        for text, _ in lines:
            _, ((_, words),) = ranking.rank([(text.encode(), text.encode())], [], False)
            runs.expect("cvss_command", f"{LOW}\n{text}".encode(), (1, b"", f"cvss: line 2: {words}\n"), ["triage"])
        try_triage(runs, "q" * size)
        try_unknown(runs, "q" * size)
    for word in ("unknown", "Nonee", "non", ""):
        try_unknown(runs, word)


def try_triage(runs, part):
    """The errors of triage and of overrides, which quote a long part of an override or of a text."""
    reasons = {part: f"invalid CVSS metric group component: `{part}`",
               f"{part}:N": f"unknown CVSS metric name: `{part.upper()}`",
               f"MAV:{part}": f"invalid CVSSv4 MAV (Modified Attack Vector) metric: `{part.upper()}`"}
    given = answers = ""
    for override, words in reasons.items():
        given += f"rank +{override} ={LOW}\noverrides {override}\nrank ={LOW} ={LOW}/{override}\n"
        answers += f"error: override 0: {words}\n" * 2 + f"error: text 1: {words}\n"
    runs.expect("test_vectors", given.encode(), (0, answers.encode(), ""))


def try_unknown(runs, word):
    """A word that is no rating, and no nomenclature."""
    answer = (f"from_value: invalid CVSS Qualitative Severity Rating: `{word}`\n"
            f"from_value: invalid CVSSv4 nomenclature: `{word}`\n")
    runs.expect("test_vectors", f"json severity {word}\njson nomenclature {word}\n".encode(),
                (0, answer.encode(), ""))


def try_whole(runs):
    """The longest text of each version, read, written, ranked and as a JSON string."""
    for version, text in WHOLE.items():
        answer = f"{reference.answer(text.encode())}\n"
        runs.expect("test_vectors", f"{text}\n".encode(), (0, answer.encode(), ""))
        for mark in (version, "cvss"):
            runs.expect("test_vectors", f"json {mark} {text}\n".encode(), (0, f"{text}\n".encode(), ""))
        runs.expect("cvss_command", text.encode(), (0, row(text, []), ""), ["triage"])


def row(text, metrics):
    """The row of a text with these metrics set."""
    rows, _ = ranking.rank([(text.encode(), text.encode())], [(None, metric.encode()) for metric in metrics], False)
    return ranking.row_text(*rows)


def try_arguments(runs):
    """As many metrics as there are in v4.0, one of them twice, and long ones."""
    metrics = [f"{name}:{next(iter(spellings))}" for name, (_, spellings) in v4.METRICS.items()]
    for count in range(len(metrics) + 1):
        words = [word for metric in metrics[:count] for word in ("--set", metric)]
        runs.expect("cvss_command", LOW.encode(), (0, row(LOW, metrics[:count]), ""), ["triage", *words])
    runs.expect("cvss_command", LOW.encode(), (0, row(LOW, [*metrics, "CR:L"]), ""), ["triage", *words, "--set", "CR:L"])
    for size in ARGUMENT_SIZES:
        part = "q" * size
        for metric in (part, f"{part}:N", f"MAV:{part}", f"E:{part}"):
            runs.expect("cvss_command", LOW.encode(), (2, b"", f"cvss: no CVSS version has {metric}\n"),
                        ["triage", "--set", metric])
        runs.expect("cvss_tool", b"", (0, b"", ""), [part] * 20)


def try_much(runs):
    """Long lines, many lines, more than a million reads and writes, and bytes 0."""
    for length in LONG:
        part = "q" * length
        reason = f"invalid CVSS metric group component: `{part}`"
        runs.expect("cvss_tool", part.encode() + b"\n" + LINE,
                    (1, f"error: {reason}\n{FIRST}".encode(), ""))
        runs.expect("cvss_command", part.encode(), (1, b"", "cvss: line 1: no vector\n"), ["triage"])
        runs.expect("cvss_command", f'{{"vectorString":"{part}"}}'.encode(),
                    (1, f'{{"at":"","error":"{reason}","given":"{part}","line":1}}\n'.encode(), ""), ["audit", "--json"])
    count = ALL // len(LINE)
    runs.expect("cvss_tool", LINE * count, (0, FIRST.encode() * count, ""))
    count = ONE_BY_ONE // len(LINE)
    runs.expect("cvss_tool", LINE * count, (0, FIRST.encode() * count, ""), READ_STEP=1)
    runs.expect("cvss_command", f"{LOW}\n".encode() * SLOW_ROWS, (0, row(LOW, []) * SLOW_ROWS, ""), ["triage"],
                WRITE_SLOWLY=1, READ_STEP=1)
    runs.expect("cvss_command", f"{LOW}\n".encode() * ROWS, (0, row(LOW, []) * ROWS, ""), ["triage"])
    runs.expect("cvss_command", b"\n" * LONG[1] + b"CVSS:4.0/CR:H\n", (0, row(LOW, ["CR:H"]), ""), ["triage", "--profile", "-", LOW])
    reason = b"error: invalid CVSS metric group component: `\0`\n"
    runs.expect("cvss_tool", b"\0\n" + LINE + b"\0\n", (1, reason + FIRST.encode() + reason, ""))
    runs.expect("cvss_tool", LINE + b"\0\n", (1, FIRST.encode() + reason, ""), READ_STEP=len(LINE))
    runs.expect("cvss_command", b"\0", (1, b'{"error":"not JSON: line 1, column 1"}\n', ""), ["audit", "--json"])


def try_many(runs):
    """Many vectors: in one line, in one document, and each in a line of its own."""
    text = f"({LINE.decode().strip()}) "
    for given, place in ((text * MANY, lambda number: (1, number * len(text) + 2)),
                         (f"{text}\n" * MANY, lambda number: (number + 1, 2))):
        found = "".join("%d:%d %s" % (*place(number), FIRST) for number in range(MANY))
        runs.expect("cvss_command", given.encode(), (0, found.encode(), ""), ["find"])
    holder, answer = f'{{"vectorString":"{V2}"}}', agreed()
    found = "".join(answer.replace('"at":""', f'"at":"/{number}"') for number in range(MANY))
    runs.expect("cvss_command", f"[{','.join([holder] * MANY)}]".encode(), (0, found.encode(), ""), ["audit", "--json"])
    found = "".join(answer.replace('"line":1', f'"line":{number + 1}') for number in range(MANY))
    runs.expect("cvss_command", f"{holder}\n".encode() * MANY, (0, found.encode(), ""), ["audit", "--json"])
    before, after = accounts.written(accounts.answer(1, LINE.strip())).split('"line":1,')
    found = "".join(f'{before}"line":{number + 1},{after}\n' for number in range(MANY // 10))
    runs.expect("cvss_command", LINE * (MANY // 10), (0, found.encode(), ""), ["explain", "--json"])


def requests(shim, line):
    """How many requests for memory `test_vectors` makes for a line, fifty times."""
    with tempfile.TemporaryFile() as requested:
        env = dict(os.environ, LD_PRELOAD=shim, TOLD=str(requested.fileno()))
        subprocess.run([ROOT / "crates/test_vectors/out/test_vectors"],
                       input=f"{line}\n".encode() * 50, stdout=subprocess.DEVNULL, env=env,
                       pass_fds=[requested.fileno()], check=True)
        return os.fstat(requested.fileno()).st_size


def try_memory(shim):
    """Each call for reading takes no memory for what it accepts, canonical or not."""
    tried = 0
    for version, text in WHOLE.items():
        front, *components = text.split("/")
        other = "/".join([*components[::-1], front] if version == "v2" else [front, *components[::-1]])
        for line in (f"{mark}{each}" for mark in ("", f"{version} ") for each in (text, other)):
            number = requests(shim, "tenths " + "0" * (len(line) - len("tenths ")))
            if number == 0:
                sys.exit("no request of test_vectors was counted: nothing was tried")
            if requests(shim, line) != number:
                sys.exit(f"test_vectors takes memory for {line}")
            tried += 1
    return tried


def built(room, name, source):
    """A library to be preloaded."""
    path = os.path.join(room, name)
    with open(f"{path}.c", "w", encoding="utf-8") as file:
        file.write(source)
    subprocess.run(["cc", "-shared", "-fPIC", "-O1", "-o", f"{path}.so", f"{path}.c", "-ldl"],
                   check=True)
    return f"{path}.so"


def main():
    with tempfile.TemporaryDirectory() as room:
        runs = Runs(built(room, "streams", SHIM))
        for tried in (try_arguments, try_rejections, try_whole, try_much, try_many):
            tried(runs)
        texts = try_memory(built(room, "counted", COUNTED))
    print(f"{runs.count} runs over much input, long parts and many arguments ended as they should; "
          f"{texts} texts were accepted without memory")


if __name__ == "__main__":
    main()

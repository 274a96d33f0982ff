#!/usr/bin/env python3
"""Runs the built programs once for each request for memory that they make, and refuses it.

The input, and the answers with ample memory, come from stored lines:

- `test_vectors` answers all of its lines except those for many values at once (`each`), those about
  JSON and those about C: they go through the parser of each version and of any version, the parsers of metrics
  and of their values, triage and overrides.
- By the mark `json` it reads the text of each vector there as a JSON string, writes the vector as
  one, and copies the error of a rejected text; its stored lines with that mark do the same for
  ratings and nomenclatures. It reports each of these steps by its name.
- `cvss_tool` answers the texts of any version, one per line, and `cvss find` the same texts in
  sentences, where the expected answers are those of reference/finding.py.
- `cvss audit` answers the stored documents of tests/samples/lines.jsonl.

Only these answers may be `out of memory`: in `test_vectors` those to a rejected text whose error
quotes the text, and rows of triage; and the steps of `json` lines that build a string or copy such an
error. So a valid text is accepted whichever request is refused, and `cvss_tool` and `cvss find`
answer each text as always. If a line can't be read or a buffer can't grow, the run ends early, and
what it has written are the whole answers to the first lines. Then the programs report it on standard
error, by their names and `out of memory`, and otherwise nothing but a hint of `cvss find`.

It needs cc and python3 in addition to the toolchain.

usage: tests/checks/refused_memory.py
"""
import json
import os
import re
import subprocess
import sys
import tempfile
from pathlib import Path

ROOT = Path(__file__).resolve().parents[2]
sys.path.insert(0, str(ROOT / "reference"))

import finding

# Runs the program with ample memory, and then once for each request, which is refused, each time in
# a new process over the whole input. Reports a line for each run, on the descriptor REPORT: the
# status, and where its output and its standard error end.
SHIM = r"""
#define _GNU_SOURCE
#include <dlfcn.h>
#include <stdio.h>
#include <stdlib.h>
#include <sys/mman.h>
#include <sys/wait.h>
#include <unistd.h>

static long wanted, made;
static char *was_refused;

__attribute__((constructor)) static void run_in_turn(void)
{
    int report = atoi(getenv("REPORT")), status;
    char *shared = mmap(NULL, 1, PROT_READ | PROT_WRITE, MAP_SHARED | MAP_ANONYMOUS, -1, 0);
    for (long turn = 0;; turn++) {
        pid_t child;
        *shared = 0;
        lseek(0, 0, SEEK_SET);
        if ((child = fork()) == 0) {
            alarm(60);
            was_refused = shared;
            wanted = turn;
            return;
        }
        if (child < 0 || waitpid(child, &status, 0) < 0)
            _exit(1);
        if (turn && !*shared)
            _exit(0);
        dprintf(report, "%d %ld %ld\n", status, lseek(1, 0, SEEK_CUR), lseek(2, 0, SEEK_CUR));
    }
}

static int refused(void)
{
    if (!wanted || ++made != wanted)
        return 0;
    *was_refused = 1;
    return 1;
}

void *malloc(size_t size)
{
    static void *(*next)(size_t);
    if (!next) next = (void *(*)(size_t))dlsym(RTLD_NEXT, "malloc");
    return refused() ? NULL : next(size);
}

void *realloc(void *old, size_t size)
{
    static void *(*next)(void *, size_t);
    if (!next) next = (void *(*)(void *, size_t))dlsym(RTLD_NEXT, "realloc");
    return refused() ? NULL : next(old, size);
}
"""

# How many lines a run answers, where a program makes a request for each.
BATCH = 25
# A mark of a stored line, and what it asks for.
NO_JSON_AT = re.compile(rb"not JSON: line \d+, column \d+")
MARKED = re.compile(rb"([a-z]+[2-4]?) (.*)", re.DOTALL)
# The kinds of `fault` whose error quotes a part of the text.
CARRYING = ("component", "prefix", "version", "metric", "value")
# A text longer than the chunks in which programs read their input, and the answer to it.
LONG = b"AV:N/" + b"Q" * 70_000 + b":N", f"error: unknown CVSS metric name: `{'Q' * 70_000}`"


def build(room):
    """Builds the shim, and returns its path."""
    source, shim = os.path.join(room, "refuse.c"), os.path.join(room, "refuse.so")
    with open(source, "w", encoding="utf-8") as file:
        file.write(SHIM)
    subprocess.run(["cc", "-shared", "-fPIC", "-O1", "-o", shim, source, "-ldl"], check=True)
    return shim


def runs(shim, program, given, *arguments):
    """Runs a program with ample memory, and then with each request refused in turn: the status of
    each run, what it wrote, and what it wrote on standard error."""
    name, *words = program.split()
    with (tempfile.TemporaryFile() as source, tempfile.TemporaryFile() as out,
          tempfile.TemporaryFile() as errors, tempfile.TemporaryFile() as report):
        source.write(given)
        source.flush()
        subprocess.run([ROOT / f"crates/{name}/out/{name}", *words, *arguments],
                       stdin=source, stdout=out, stderr=errors, check=True,
                       env=dict(os.environ, LD_PRELOAD=shim, REPORT=str(report.fileno())),
                       pass_fds=[report.fileno()])
        for file in (out, errors, report):
            file.seek(0)
        for line in report:
            status, *ends = map(int, line.split())
            written, message = (file.read(end - file.tell()) for file, end in zip((out, errors), ends))
            yield os.waitstatus_to_exitcode(status), written, message


def stored(program):
    """The stored lines of a program, those about C aside: the mark of each, its input, and the answer."""
    given, answers = ((ROOT / f"crates/{program}/{name}").read_bytes().split(b"\n")[:-1]
                      for name in ("stdin", "stdout"))
    for line, answer in zip(given, answers, strict=True):
        # what C gets takes no memory
        if line.startswith(b"c "):
            continue
        marked = MARKED.fullmatch(line)
        mark, asked = marked.groups() if marked else (b"", line)
        yield mark.decode(), asked, answer.decode()


def carries_text(reason):
    """Whether the error of a rejected text carries a part of that text, so that it takes memory. An
    empty part takes none."""
    return not (reason.startswith(("duplicate", "missing", "not UTF-8", "no environmental"))
                or reason.endswith(("``", "version: ")))


def expected(mark, answer):
    """A stored answer, and what `test_vectors` may answer instead where it runs out of memory."""
    error = re.fullmatch(r"error: ((?:override|text) \d+: )?(.*)", answer, re.DOTALL)
    index, reason = error.groups("") if error else ("", "")
    if mark == "fault":
        return [answer, "another"] if answer.startswith(CARRYING) else [answer]
    # Triage makes rows as it reads texts, which it does after the overrides.
    makes_rows = mark == "rank" and answer and not index.startswith("override")
    if makes_rows or error and carries_text(reason):
        return [answer, f"error: {index if mark == 'overrides' else ''}out of memory"]
    return [answer]


def converted(text, answer):
    """What a `json` line answers to a text, and which of its steps may run out of memory instead."""
    reason = answer.removeprefix("from_value: ")
    if reason == answer:
        steps = ["to_value"]
    else:
        steps = ["from_value", "clone"] if carries_text(reason) else []
    if text:
        steps.append("string")
    return [answer] + [f"{step}: out of memory" for step in steps]


def strings():
    """The lines that convert texts to and from JSON, with what is expected of each."""
    for mark, asked, answer in stored("test_vectors"):
        # A JSON string is UTF-8.
        if mark in ("", "v2", "v3", "v4") and answer != "error: not UTF-8":
            rejected = answer.startswith("error: ")
            said = f"from_value: {answer[7:]}" if rejected else answer.split(" ")[0]
            yield b"json " + (mark or "cvss").encode() + b" " + asked, converted(asked, said)
        elif mark == "json":
            kind, space, text = asked.partition(b" ")
            if space and kind in (b"cvss", b"v2", b"v3", b"v4", b"severity", b"nomenclature"):
                yield b"json " + asked, converted(text, answer)


def found(text):
    """What `cvss find` answers to each match in a text."""
    for number, line in enumerate(text.split(b"\n"), 1):
        for place, answer in finding.reported(line):
            yield [f"{number}:{place + 1} {answer}"]


# What a program writes on standard error when it runs out of memory, and what it may write before that.
LACKING = {"cvss_tool": (b"", b"cvss_tool: out of memory\n"), "cvss_command find": (b"", b"cvss: out of memory\n"),
           "cvss_command audit": (b"", b"cvss: out of memory\n")}


def is_reported(program, ended, message):
    """Whether standard error says how a run ended. The programs of tests end with a message of the toolchain."""
    if program not in LACKING:
        return True
    hint, lacking = LACKING[program]
    return message in (lacking, hint + lacking) if ended else message == hint


def check(program, turn, run, wanted, statuses):
    """Whether the run ended early, and which answers are `out of memory`."""
    status, written, message = run
    answers = written.decode("utf-8").split("\n")
    whole = answers.pop() == ""
    ended = len(answers) < len(wanted)
    fits = all(got in allowed for got, allowed in zip(answers, wanted))
    lacking = [at for at, (got, allowed) in enumerate(zip(answers, wanted)) if got != allowed[0]]
    # One request is refused, so at most one answer changes.
    if not (whole and fits and len(answers) <= len(wanted) and status == statuses[ended]
            and ended + len(lacking) <= (turn > 0) and is_reported(program, ended, message)):
        sys.exit(f"{program}, turn {turn}: status {status}, wrote {written[:2000]!r} "
                 f"and on standard error {message[:500]!r}")
    return ended, lacking


def refuse_in_turn(shim, program, tries, statuses, what="texts"):
    """Refuses each request of a program over each of some inputs, which are given with what is
    expected of their answers; the statuses are those of a whole run and of one that ended early.
    Each answer that may be `out of memory` has to be so in some run."""
    requests = ended = lacking = count = 0
    for given, wanted in tries:
        tried = set()
        for turn, run in enumerate(runs(shim, program, given)):
            early, lacked = check(program, turn, run, wanted, statuses)
            ended += early
            lacking += len(lacked)
            tried.update(lacked)
        requests += turn
        count += len(wanted)
        for at, allowed in enumerate(wanted):
            if len(allowed) > 1 and at not in tried:
                sys.exit(f"{program}: `{allowed[0]}` takes no memory")
    if requests == 0:
        sys.exit(f"{program}: no request was refused: nothing was tried")
    if program in LACKING and ended == 0:
        sys.exit(f"{program}: no run ended early, so none reported an error")
    print(f"{program}: {requests} requests refused in turn over {count} {what}: {ended} runs ended "
          f"early{' and said why' if program in LACKING else ''}, {lacking} answers became `out of memory`, "
          "all else stayed", flush=True)


def in_batches(pairs):
    """Some lines at a time, with what is expected of them."""
    for first in range(0, len(pairs), BATCH):
        lines, wanted = zip(*pairs[first:first + BATCH])
        yield b"\n".join(lines) + b"\n", wanted


def refuse_in_turn_over_documents(shim):
    """The same over `cvss audit`, whose lines have any number of answers."""
    folder = ROOT / "tests/samples"
    given, whole = ((folder / name).read_bytes() for name in ("lines.jsonl", "lines.answers"))
    # Where the answers to a line end: after the last answer that names its number, or none.
    numbers = [json.loads(line)["line"] for line in whole.splitlines()]
    ends = {0, len(whole)}
    place = 0
    for now, following, line in zip(numbers, numbers[1:], whole.splitlines(keepends=True)):
        place += len(line)
        if now != following:
            ends.add(place)
    # Of a text that is no JSON the stored answers do not have the line and the column of the error.
    ample, *others = ((status, NO_JSON_AT.sub(b"not JSON", written), message)
                      for status, written, message in runs(shim, "cvss_command", given, "audit", "--json"))
    program = "cvss_command audit"
    if ample[:2] != (1, whole) or not is_reported(program, False, ample[2]):
        sys.exit("cvss audit: the run with ample memory is not the stored one")
    for turn, (status, written, message) in enumerate(others, 1):
        if (status != 2 or len(written) not in ends or not whole.startswith(written)
                or not is_reported(program, True, message)):
            sys.exit(f"cvss audit, turn {turn}: status {status}, wrote {written[:2000]!r} "
                     f"and on standard error {message[:500]!r}")
    if not others:
        sys.exit("cvss audit: no request was refused: nothing was tried")
    print(f"cvss audit: {len(others)} requests refused in turn over {given.count(bytes([10]))} "
          "documents: each run ended early and said why, with the whole answers to the first lines")


def main():
    asked = [("", *LONG), *stored("test_vectors")]
    texts = [(line, [answer]) for mark, line, answer in asked if not mark]
    text = b"\n".join(b"see (" + line + b")." for line, _ in texts)
    with tempfile.TemporaryDirectory() as room:
        shim = build(room)
        refuse_in_turn(shim, "test_vectors", in_batches(
            [(f"{mark} ".encode() * bool(mark) + line, expected(mark, answer))
             for mark, line, answer in asked if mark not in ("each", "json", "record", "differ", "locations")]),
             (0, 1), "lines")
        refuse_in_turn(shim, "test_vectors", in_batches(list(strings())), (0, 1), "strings")
        lines, wanted = zip(*texts)
        refuse_in_turn(shim, "cvss_tool", [(b"\n".join(lines) + b"\n", wanted)], (1, 2))
        LACKING["cvss_command find"] = finding.hint(text.split(b"\n")).encode(), b"cvss: out of memory\n"
        refuse_in_turn(shim, "cvss_command find", [(text, list(found(text)))], (1, 2), "matches")
        refuse_in_turn_over_documents(shim)


if __name__ == "__main__":
    main()

#!/usr/bin/env python3
"""Tries each subcommand of the built command `cvss` over its operands, from outside: files that there are and are not,
names of any bytes, ten thousand files, a file of 10 GB, the longest texts, input in pieces, and streams that are closed
or full. An error is reported only if it happened: not for a long text while there is memory, and not after many bytes.

The expected answers are those of reference/.

usage: tests/checks/operands.py [SEED]
"""
import json
import os
import re
import random
import shutil
import subprocess
import sys
import tempfile
from dataclasses import dataclass
from fractions import Fraction
from pathlib import Path
from typing import Callable

ROOT = Path(__file__).resolve().parents[2]
sys.path[:0] = [str(ROOT / "reference"), str(ROOT / "tests/inputs")]

import accounts
import complete
import auditing
import explained
import finding
from long_texts import WHOLE

PROGRAM = ROOT / "crates/cvss_command/out/cvss_command"
ACCEPTED = b"AV:N/AC:L/Au:N/C:N/I:N/A:C"
REJECTED = b"CVSS:3.1/AV:N/AC:L/PR:N/UI:N/S:U/C:H"
NO_FILE = b": No such file or directory (os error 2)\n"
MANY = 10_000


@dataclass
class Subcommand:
    """The arguments before the operands, an accepted line and a rejected one, and the bytes of the answer to a line, by
    its number and by the operand where there are several."""
    arguments: list
    accepted: bytes
    rejected: bytes
    answer: Callable[[bytes, int, bytes], bytes]
    # what standard error says where nothing is found
    nothing: bytes = b""
    tried: int = 0

    @property
    def name(self):
        return self.arguments[0]

    def answers(self, lines, operand=b""):
        return b"".join(self.answer(line, number, operand) for number, line in enumerate(lines, 1))

    def expect(self, status, out, error, *operands, given=b"", **streams):
        """Runs the subcommand, and compares its status, its standard output and its standard error."""
        if "stdin" not in streams:
            streams["input"] = given
        streams.setdefault("stdout", subprocess.PIPE)
        done = subprocess.run([PROGRAM, *self.arguments, *operands], stderr=subprocess.PIPE, check=False, **streams)
        # what the reference says of a text that is no JSON has no line and column
        written = re.sub(rb'"not JSON: line \d+, column \d+"', b'"not JSON"', done.stdout or b"")
        outcome = (done.returncode, written, done.stderr)
        if outcome != (status, out, error):
            sys.exit(f"cvss {self.arguments} {operands[:3]}: {outcome}, and not {(status, out, error)}"[:3000])
        self.tried += 1


def prefixed(operand, answer):
    return (operand + b":" if operand else b"") + answer


def shown(operand, answer):
    return prefixed(complete.shown_name(operand).encode(), answer)


def score(line, number, operand):
    return shown(operand, complete.scored(line).encode() + b"\n")


def score_base(line, number, operand):
    return shown(operand, complete.scored(line, base=True).encode() + b"\n")


def set_metrics(line, number, operand):
    return shown(operand, complete.shown_answer(line, metrics=b"E:U").encode() + b"\n")


def find(line, number, operand):
    return b"".join(shown(operand, f"{number}:{place + 1} {answer}\n".encode())
                    for place, answer in finding.reported(line))


def explain(line, number, operand):
    return shown(operand, explained.written(explained.answer(line, allow_incomplete=False)).encode() + b"\n")


def json_text(value):
    """A JSON value without spaces, its members in the order of their names, and numbers as explanations have them."""
    if isinstance(value, dict):
        return "{" + ",".join(f"{json.dumps(name)}:{json_text(value[name])}" for name in sorted(value)) + "}"
    if isinstance(value, list):
        return "[" + ",".join(map(json_text, value)) + "]"
    return explained.decimal(value) if isinstance(value, Fraction) else json.dumps(value, ensure_ascii=False)


def explain_object(line, number, operand):
    scored = complete.answer(line)
    if scored.startswith("error: "):
        members = {"given": line.decode(), "line": number, "error": scored.removeprefix("error: ")}
    else:
        members = accounts.answer(number, line)
    file = f'{{"file":{json.dumps(operand.decode(), ensure_ascii=False)},' if operand else "{"
    return file.encode() + json_text(members)[1:].encode() + b"\n"


def audit(line, number, operand):
    source = {"line": number} | ({"file": operand.decode()} if operand else {})
    return b"".join(json.dumps(members, sort_keys=True, separators=(",", ":"), ensure_ascii=False).encode() + b"\n"
                    for members in auditing.answer(source, line)[0])


SUBCOMMANDS = [
    Subcommand(["score"], ACCEPTED, REJECTED, score),
    Subcommand(["score", "--base"], ACCEPTED, REJECTED, score_base),
    Subcommand(["set", "E:U", "--"], ACCEPTED, REJECTED, set_metrics),
    Subcommand(["find"], b"(" + ACCEPTED + b")", b'"' + REJECTED + b'"', find),
    Subcommand(["explain"], ACCEPTED, REJECTED, explain),
    Subcommand(["explain", "--json"], ACCEPTED, REJECTED, explain_object),
    Subcommand(["audit", "--json"], b'{"vectorString":"' + ACCEPTED + b'"}', b'{"vectorString":"' + REJECTED + b'"}', audit,
               b"cvss: no vector was found\n"),
]


def try_files(command, room):
    """Files, their names, and those that cannot be read."""
    lines = [command.accepted, command.rejected]
    alone, both = command.answers(lines), b"".join
    names = [b"list", b"with\nline", b"-dash", b"with:colon", b" ", "\u00e9".encode()]
    for name in names:
        (room / os.fsdecode(name)).write_bytes(command.accepted + b"\r\n" + command.rejected)
        operand = b"./" + name if name[:1] == b"-" or b":" in name else name
        command.expect(1, alone, b"", operand, cwd=room)
        twice = both(command.answers(lines, each) for each in (operand, b"-"))
        command.expect(1, twice, b"", operand, "-", given=command.accepted + b"\n" + command.rejected + b"\n", cwd=room)
    named = command.answers(lines, b"list")
    command.expect(2, named, b"cvss: gone" + NO_FILE, "gone", "list", cwd=room)
    command.expect(2, named, b"cvss: gone" + NO_FILE, "list", "gone", cwd=room)
    command.expect(2, b"", b"cvss: ." + b": Is a directory (os error 21)\n", ".", cwd=room)
    command.expect(2, b"", b"cvss: " + NO_FILE, "", cwd=room)
    # the toolchain opens files by text alone
    (room / os.fsdecode(b"\xff\xfe")).touch()
    command.expect(2, b"", b"cvss: \\xff\\xfe: invalid filename\n", b"\xff\xfe", cwd=room)
    long = b"x" * 5000
    command.expect(2, b"", b"cvss: " + long + b": File name too long (os error 36)\n", long, cwd=room)
    (room / "empty").touch()
    command.expect(0, b"", command.nothing, "empty", cwd=room)


def try_permission(command, room):
    """A file that may not be read, by a user who is not root."""
    (room / "closed").write_bytes(command.accepted)
    (room / "closed").chmod(0)
    denied = b"cvss: closed: Permission denied (os error 13)\n"
    if os.geteuid() != 0:
        command.expect(2, b"", denied, "closed", cwd=room)
        return
    room.chmod(0o755)
    shutil.copy(PROGRAM, room / "cvss")
    (room / "cvss").chmod(0o755)
    done = subprocess.run([room / "cvss", *command.arguments, "closed"], cwd=room, user=65534, capture_output=True,
                          check=False)
    assert (done.returncode, done.stdout, done.stderr) == (2, b"", denied), done


def try_many(command, room):
    """Ten thousand files, of which each is closed before the next is opened."""
    many = [f"n{number}" for number in range(MANY)]
    for name in many:
        (room / name).write_bytes(command.accepted)
    answer = command.answers([command.accepted], b"NAME")
    answers = b"".join(answer.replace(b"NAME", name.encode()) for name in many)
    command.expect(0, answers, b"", *many, cwd=room)
    done = subprocess.run(["bash", "-c", 'ulimit -n 20; exec "$0" "$@"', PROGRAM, *command.arguments, *many],
                          stdout=subprocess.PIPE, cwd=room, check=True)
    assert done.stdout == answers, "a file is left open"


def try_long(command, room):
    """The longest vectors of each version, long rejected texts, and a line after many bytes: from standard input and from a
    file, which have the same answers."""
    vectors = [text.encode() for text in WHOLE.values()]
    for size in (151, 4_000, 70_000):
        long = b"q" * size
        vectors += [long, b"AV:N/" + long + b":N", b"CVSS:3.1/AV:" + long, b"CVSS:" + long + b"/AV:N", long + b":3.1/AV:N"]
    lines = [command.accepted.replace(ACCEPTED, vector) for vector in vectors]
    for given in (lines, [command.accepted, b"q" * (17 << 20), command.accepted]):
        answers = command.answers(given)
        status = int(any(word in answers for word in (b"error: ", b'"error":')))
        assert status or command.name == "find", command.name
        (room / "long texts").write_bytes(b"\n".join(given))
        command.expect(status, answers, b"", given=b"\n".join(given) + b"\n")
        command.expect(status, answers, b"", "long texts", cwd=room)


def try_large(command, room):
    """A file of 10 GB without a line end, in little memory."""
    with open(room / "zeros", "wb") as zeros:
        zeros.truncate(10 * 10 ** 9)
    done = subprocess.run(["bash", "-c", 'ulimit -v 500000; exec "$0" "$@"', PROGRAM, *command.arguments, "zeros"],
                          cwd=room, capture_output=True, check=False)
    assert (done.returncode, done.stdout, done.stderr) == (2, b"", b"cvss: out of memory\n"), done


def try_streams(command, room):
    """Standard streams that are closed, full, or a directory."""
    full = b"cvss: standard output: No space left on device (os error 28)\n"
    with open("/dev/full", "wb") as device:
        command.expect(2, b"", full, "list", stdout=device, cwd=room)
        command.expect(0, b"", command.nothing, "/dev/null", stdout=device)
    with open("/dev/null", "rb") as nothing:
        command.expect(0, b"", command.nothing, stdin=nothing)
    folder = os.open(room, os.O_RDONLY)
    command.expect(2, b"", b"cvss: -: Is a directory (os error 21)\n", stdin=folder)
    command.expect(2, command.answers([command.accepted, command.rejected], b"list"),
                   b"cvss: -: Is a directory (os error 21)\n", "-", "list", stdin=folder, cwd=room)
    os.close(folder)
    (room / "long").write_bytes((command.accepted + b"\n" + command.rejected + b"\n") * 20_000)
    for operands, status in ((["long", "long"], 0), (["gone", "long"], 2)):
        words = ["bash", "-c", '"$0" "$@" 2>/dev/null | true; exit ${PIPESTATUS[0]}', PROGRAM, *command.arguments, *operands]
        assert subprocess.run(words, cwd=room, check=False).returncode == status, words
    words = ["bash", "-c", '"$0" "$@" | head -1; exit ${PIPESTATUS[0]}', PROGRAM, *command.arguments, "long"]
    done = subprocess.run(words, cwd=room, capture_output=True, check=False)
    first = command.answers([command.accepted]).split(b"\n")[0] + b"\n"
    assert (done.returncode, done.stdout, done.stderr) == (0, first, b""), done


def try_chunks(command, draw):
    """Lines in pieces of any length, as a terminal or a network gives them."""
    lines = [command.accepted, command.rejected] * 20 + [command.accepted]
    given = b"\r\n".join(lines)
    with subprocess.Popen([PROGRAM, *command.arguments, "-"], stdin=subprocess.PIPE, stdout=subprocess.PIPE) as program:
        at = 0
        while at < len(given):
            step = draw.randint(1, 40)
            program.stdin.write(given[at:at + step])
            program.stdin.flush()
            at += step
        output = program.communicate()[0]
    assert output == command.answers(lines), output


def main():
    draw = random.Random(int(sys.argv[1]) if len(sys.argv) > 1 else 2)
    for command in SUBCOMMANDS:
        with tempfile.TemporaryDirectory() as folder:
            room = Path(folder)
            try_files(command, room)
            try_permission(command, room)
            try_streams(command, room)
            try_long(command, room)
            try_large(command, room)
            try_many(command, room)
        try_chunks(command, draw)
    print(", ".join(f"cvss {command.name}: {command.tried} runs" for command in SUBCOMMANDS)
          + f", and each over {MANY} files, 10 GB, long texts and drawn pieces: they end as they should")


if __name__ == "__main__":
    main()

#!/usr/bin/env python3
"""Compares the programs for Windows, under wine, with those that `rt ci` has proved: output, messages and status.

The words of the system's errors are those of Windows, and are not compared.

usage: compare_windows.py FOLDER CVSS CVSS_TOOL    FOLDER has cvss.exe and cvss_tool.exe; the others are the proved ones
"""
import re
import subprocess
import sys
import tempfile
from pathlib import Path

ROOT = Path(__file__).resolve().parents[2]
BASE = b"CVSS:3.1/AV:N/AC:L/PR:N/UI:N/S:U/C:H/I:H/A:H"
V4 = "CVSS:4.0/AV:N/AC:L/AT:N/PR:N/UI:N/VC:H/VI:H/VA:H/SC:H/SI:H/SA:H"
INPUTS = {
    "vectors": (ROOT / "examples/vectors").read_bytes(),
    "ends of lines": BASE + b"\r\n\r\nAV:N/AC:L/Au:N/C:N/I:N/A:C\r\r\n" + BASE,
    "bytes": b"\xff\xfe" + BASE + b"\n\x1a\n\x00" + BASE + b"\n\x1a" + BASE + b"\x1a",
    "sätze": "«ä» ".encode() + BASE + " – 漢字\n".encode(),
    "many": (BASE + b"\n") * 40000,
    "empty": b"",
    "documents": b"".join(b'{"vectorString":"%s%s","baseScore":9.8}\n' % (BASE[:-1], value) for value in (b"H", b"N")),
}
# What the shell of Windows would split or change, and what is no ASCII.
WORDS = [V4, "", "ä/AV:N", 'a"b:c/d', '"a\\"', "a\\\\:b\\ ", "*", "?:*", "%PATH%:x", "漢:字", " ", "x\ty:"]


def cases(subcommands):
    """The words and the input of each run of `cvss`, and whether it reports an error of the system."""
    for words in ([], ["--help"], ["--version"], ["nothing"], ["score", "--min"], ["-x", "ä"]):
        yield words, b"", False
    for name in subcommands:
        before = ["E:A", "--"] if name == "set" else []
        for given in ("vectors", "bytes"):
            yield [name, *before], INPUTS[given], False
        yield [name, *before, *INPUTS], b"", False
        yield [name, *before, "missing", "vectors", "."], b"", True
        yield ["help", name], b"", False
    for given in ("ends of lines", "sätze", "many", "documents", "empty"):
        yield ["find"], INPUTS[given], False
    for options in (["score", "--json"], ["score", "--tsv"], ["explain", "--json"], ["explain", "--what-if"], ["find", "--json"],
                    ["find", "--annotate", "--all"], ["audit", "--document"], ["triage", "--keep-going"]):
        yield [*options, "vectors", "sätze"], b"", False
    yield ["score", *WORDS], b"", True
    yield ["score", "./sätze", "no/such/ä"], b"", True
    yield ["triage", "--profile", "missing"], b"", True


def ran(command, given, folder):
    done = subprocess.run(command, input=given, cwd=folder, stdout=subprocess.PIPE, stderr=subprocess.PIPE, check=False)
    return done.stdout, done.stderr, done.returncode


def without_words(message):
    """The lines of a message, without the words of an error of the system, which follow the name of a file."""
    return [re.sub(rb"^(cvss: [^:]*: ).*", rb"\1", line) for line in message.splitlines()]


def closes_pipe(command, folder):
    """What a program ends with if the reader of its output closes the pipe, and what it says."""
    with subprocess.Popen([*command, "score", "many"], cwd=folder, stdout=subprocess.PIPE, stderr=subprocess.PIPE) as running:
        running.stdout.readline()
        running.stdout.close()
        return running.stderr.read(), running.wait()


def full(command, folder):
    """The same where the output has no room, without the system's words."""
    with open("/dev/full", "wb") as output:
        done = subprocess.run([*command, "score", "many"], cwd=folder, stdout=output, stderr=subprocess.PIPE, check=False)
    return without_words(done.stderr), done.returncode


def main():
    made, proved, proved_tool = (str(Path(name).resolve()) for name in sys.argv[1:])
    tried = ["wine64", f"{made}/cvss.exe"]
    listed = subprocess.run([proved, "help"], stdout=subprocess.PIPE, check=True).stdout
    subcommands = [name.decode() for name in re.findall(rb"^  ([a-z]+)  ", listed, re.M)]
    assert len(subcommands) > 4, "the command lists no subcommands"
    different = []
    count = 0
    with tempfile.TemporaryDirectory() as folder:
        for name, content in INPUTS.items():
            Path(folder, name).write_bytes(content)
        for words, given, is_system in cases(subcommands):
            one, other = (list(ran([*command, *words], given, folder)) for command in ([proved], tried))
            if is_system:
                one[1], other[1] = without_words(one[1]), without_words(other[1])
            count += 1
            if one != other:
                different.append((words[:4], given[:20], one[1:], other[1:], one[0] == other[0]))
        drive = f"Z:{folder}/".replace("/", "\\")
        for words in (["score", "{}vectors"], ["triage", "--profile", "{}empty", "{}documents"], ["find", "{}sätze"]):
            one = ran([proved, *[word.format(f"{folder}/") for word in words]], b"", folder)
            other = ran([*tried, *[word.format(drive) for word in words]], b"", folder)
            count += 1
            if one != other:
                different.append((words, one, other))
        for given in INPUTS.values():
            count += 1
            if ran([proved_tool], given, folder) != ran(["wine64", f"{made}/cvss_tool.exe"], given, folder):
                different.append(("cvss_tool", given[:20]))
        for run in (closes_pipe, full):
            count += 1
            if run([proved], folder) != run(tried, folder):
                different.append((run.__name__, run([proved], folder), run(tried, folder)))
    if different:
        sys.exit("\n".join(map(str, different)))
    print(f"Windows: {count} runs under wine end as those of the proved programs")


if __name__ == "__main__":
    main()

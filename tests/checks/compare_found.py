#!/usr/bin/env python3
"""Compares what the built `cvss find` writes with finding.py, over random texts and lines that are almost vectors, in
files and on standard input: lines, annotated lines and objects, and these through gates and counted.

usage: tests/checks/compare_found.py [COUNT [SEED]]
"""
import json
import os
import random
import subprocess
import sys
import tempfile
from pathlib import Path

ROOT = Path(__file__).resolve().parents[2]
sys.path[:0] = [str(ROOT / "reference"), str(ROOT / "tests/inputs")]

import complete
import finding
import hostile
import lists
import reference
import texts

PROGRAM = ROOT / "crates/cvss_command/out/cvss_command"

# Texts, and what is found in each: its column and its score line.
V2 = b"AV:N/AC:L/Au:N/C:N/I:N/A:P"
V2_ANSWER = V2.decode() + " 5.0 medium"
METRICS = b"AV:N/AC:L/PR:N/UI:N/S:U/C:H/I:H/A:H"
V3 = b"CVSS:3.1/" + METRICS
V3_ANSWER = V3.decode() + " 9.8 critical"
PREFIX = "error: invalid CVSS string prefix: `cvss`"
COMPONENT = "error: invalid CVSS metric group component: "
MISSING = "error: missing mandatory CVSSv3 UI (User Interaction) metric"
CUT = b"CVSS:3.1/AV:N/AC:L/PR:N"
ENCODED = V3.replace(b":", b"%3A").replace(b"/", b"%2F")
ENCODED_V2 = V2.replace(b":", b"%3A").replace(b"/", b"%2F")
UNKNOWN = "error: unknown CVSS metric name: "
METRICS_V4 = b"AV:N/AC:L/AT:N/PR:N/UI:N/VC:H/VI:L/VA:L/SC:N/SI:N/SA:N"
LOOSE, LACKING, LACKING_V4 = (finding.HINTS[name].encode() for name in ("loose", "3.1", "4.0"))
AT_ONCE = 5_000
SCORES = ("base", "temporal", "environmental", "score")
CASES = [
    (b"score 9.8 (" + V3 + b").", [(12, V3_ANSWER)]),
    (b"x?v=" + V3.replace(b":", b"%3A").replace(b"/", b"%2F") + b"&y", [(5, V3_ANSWER)]),
    (b"x?v=" + V3.replace(b"/", b"%2f"), [(5, V3_ANSWER)]),
    (b"x?v=CVSS:3.1%2F" + METRICS.replace(b":", b"%3a").replace(b"/", b"%2F"), [(5, V3_ANSWER)]),
    (b"x?v=" + V3.replace(b":", b"%3A"), [(5, V3_ANSWER)]),
    (V3 + b"%2Fx " + V3 + b"%20" + V2 + b"%29", [(1, V3_ANSWER), (50, V3_ANSWER)]),
    (b"[" + V2 + b"%29", [(2, V2_ANSWER)]),
    (b"?v=" + ENCODED + b"%20" + ENCODED, [(4, V3_ANSWER), (4 + len(ENCODED) + 3, V3_ANSWER)]),
    (ENCODED + b"%26x%3Dy", [(1, V3_ANSWER)]),
    (b"CVSS:3.1%2F" + METRICS.replace(b"/", b"%2f") + b"%", [(1, V3_ANSWER)]),
    (b"CVSS%3A3.1/" + METRICS + b"%20and", [(1, V3_ANSWER)]),
    (b"CVSS%3a3.1%2F" + METRICS, [(1, V3_ANSWER)]),
    (b"CVSS:3.1%20" + METRICS, [(1, "error: unsupported CVSS version: 3.1%20AV:N")]),
    (b"?v=" + ENCODED_V2, [(4, V2_ANSWER)]),
    (V2.replace(b"/", b"%2F") + b"%29", [(1, V2_ANSWER)]),
    (V2.replace(b":", b"%3A"), [(1, V2_ANSWER)]),
    (b"u=https%3A%2F%2Fx%20v:" + V2, [(23, V2_ANSWER)]),
    (ENCODED_V2 + b"L", [(1, "error: invalid CVSSv2 A (Availability Impact) metric: `PL`")]),
    (b'{"vectorString":"' + V3.replace(b"/", b"\\/") + b'"}', [(18, V3_ANSWER)]),
    (b'"' + V2.replace(b"/", b"\\/") + b'\\/"', [(2, V2_ANSWER)]),
    (b'"' + METRICS.replace(b"/", b"\\/") + b'\\n"', [(2, UNKNOWN + "`PR`")]),
    (b"x\\" + V2 + b"\\n" + V3 + b"\\ CVSS:3.1\\nhttps://example.org/", [(3, V2_ANSWER), (31, V3_ANSWER)]),
    (METRICS, [(1, UNKNOWN + "`PR`")]),
    (b"CVE-2024-1;" + METRICS + b";9.8", [(12, UNKNOWN + "`PR`")]),
    (b"CVSS3#" + METRICS, [(7, UNKNOWN + "`PR`")]),
    (b"score:9.8/" + METRICS + b".", [(11, UNKNOWN + "`PR`")]),
    (ENCODED.partition(b"%2F")[2], [(1, UNKNOWN + "`PR`")]),
    (METRICS_V4, [(1, UNKNOWN + "`AT`")]),
    (b"?vector=" + METRICS + b"&version=3.1&source=NIST", [(9, V3_ANSWER)]),
    (b"?vector=" + METRICS + b"&version=3.0", [(9, V3_ANSWER.replace("3.1", "3.0", 1))]),
    (b"?vector=" + METRICS + b"&version=2.0", [(9, UNKNOWN + "`PR`")]),
    (b"?vector=" + V2 + b"&version=3.1", [(9, V2_ANSWER)]),
    (b"AV:N/AC:L AV:N PR:N/UI:N x/AV:N/PR:N a/PR:N/UI:N MAV:N/PR:N", []),
    (b"cvss:3.1/" + METRICS, [(1, PREFIX)]),
    (b"9.8/cvss:3.1/" + METRICS, [(5, PREFIX)]),
    (b"CVSS3.1/" + METRICS, [(1, COMPONENT + "`CVSS3.1`")]),
    (b"(CVSSv3.1/" + METRICS, [(2, COMPONENT + "`CVSSv3.1`")]),
    (b"7.5/" + V2, [(5, V2_ANSWER)]),
    (b"10.0/" + V2 + b".", [(6, V2_ANSWER)]),
    (b"vector:" + V2, [(8, V2_ANSWER)]),
    (b"score:7.5/" + V2, [(11, V2_ANSWER)]),
    (b"AC:L/AV:N/Au:N/C:N/I:N/A:P", [(1, V2_ANSWER)]),
    (b"E:U/" + V2, [(1, V2.decode() + "/E:U 4.3 medium")]),
    (CUT, [(1, MISSING)]),
    (b"text " + CUT + b"/", [(6, COMPONENT + "``")]),
    (b"text " + V3 + b"/", [(6, COMPONENT + "``")]),
    (V3 + b"/ text", [(1, V3_ANSWER)]),
    (V3 + b"//", [(1, V3_ANSWER)]),
    (V3 + b"/.", [(1, V3_ANSWER)]),
    (b"https://www.first.org/cvss/v3.1/user-guide CVSS:3.1 cvss3.1/av x/" + V2, []),
]


def run(given, *arguments):
    return subprocess.run([PROGRAM, "find", *arguments], input=given, capture_output=True, check=False)


def run_over(room, written, *arguments):
    """What the program writes about these files, or about standard input."""
    words = [PROGRAM, "find", *arguments, *written]
    return subprocess.run(words, input=written.get("-", b""), cwd=room, capture_output=True, check=False)


def lines_of(written):
    """Each line of the files with its number, and with the name of its file if there are several."""
    return [(name if len(written) > 1 else None, number, line) for name, content in written.items()
            for number, line in enumerate(reference.lines_of_file(content), 1)]


def assumed_by(arguments):
    """The version that is assumed of vectors without their prefix, if one is."""
    return next((word.partition("=")[2] for word in arguments if word.startswith("--assume=")), None)


def fronted(name, answer):
    return (b"" if name is None else complete.shown_name(os.fsencode(name)).encode() + b":") + answer


def try_stored():
    """The answers to stored lines."""
    lines, answers = ((ROOT / "tests/stored" / name).read_bytes() for name in ("find.lines", "find.answers"))
    done = run(lines, "--allow-incomplete")
    if (done.returncode, done.stdout, done.stderr) != (1, answers, LOOSE):
        sys.exit(f"cvss find: the answers to tests/stored/find.lines are {done}")


def try_cases():
    for text, found in CASES:
        expected = [f"1:{column} {answer}\n" for column, answer in found]
        actual = run(text).stdout.decode().splitlines(keepends=True)
        if actual != expected or list(finding.answers(text)) != expected:
            sys.exit(f"cvss find: {text}: {actual}, finding.py {list(finding.answers(text))}, and not {expected}")


def compare(room, written, *arguments):
    """Ends if the program writes something else or has another status; otherwise returns how many matches there are."""
    answers = [(name, number, place, answer) for name, number, line in lines_of(written)
               for place, answer in finding.reported(line, "--allow-incomplete" in arguments, "--base" in arguments, assumed_by(arguments))]
    expected = [fronted(name, f"{number}:{place + 1} {answer}".encode()) for name, number, place, answer in answers]
    done = run_over(room, written, *arguments)
    actual = done.stdout.split(b"\n")[:-1]
    for here, there in zip(actual, expected):
        if here != there:
            sys.exit(f"cvss find writes {here!r}, and not {there!r}")
    if len(actual) != len(expected):
        sys.exit(f"cvss find writes {len(actual)} lines, and not {len(expected)}")
    rejected = any(answer.startswith("error: ") for *_, answer in answers)
    hint = finding.hint((line for *_, line in lines_of(written)), "--allow-incomplete" in arguments, assumed_by(arguments))
    if done.returncode != int(rejected) or done.stderr.decode() != hint:
        sys.exit(f"cvss find: status {done.returncode}, standard error {done.stderr!r}")
    return len(expected)


def try_annotated(room, written):
    """Each line is repeated, with the score line of its first match or of each."""
    lines = lines_of(written)
    for arguments in ((), ("--all",), ("--allow-incomplete", "--base"), ("--all", "--allow-incomplete")):
        flags = [flag in arguments for flag in ("--all", "--allow-incomplete", "--base")]
        expected = [finding.annotated(line, *flags) for *_, line in lines]
        done = run_over(room, written, "--annotate", *arguments)
        actual = done.stdout.split(b"\n")
        assert actual.pop() == b"" and len(actual) == len(lines), f"{len(actual)} lines, and not {len(lines)}"
        for (name, *_), here, there in zip(lines, actual, expected):
            assert here == fronted(name, there), f"cvss find --annotate {arguments} writes {here!r}, and not {there!r}"
        rejected = any(b"\terror: " in answer[len(line):] for answer, (*_, line) in zip(expected, lines))
        assert done.returncode == int(rejected), done.returncode
        assert is_hint(done.stderr), done.stderr


def try_objects(room, written):
    """Each match is an object, whose members are compared in their order."""
    for arguments in ((), ("--allow-incomplete",), ("--all", "--annotate")):
        expected = [{name: value / 10 if name in SCORES and value is not None else value for name, value in found.items()}
                    for file, number, line in lines_of(written)
                    for found in finding.objects(number, line, "--allow-incomplete" in arguments, file)]
        done = run_over(room, written, "--json", *arguments)
        actual = [json.loads(line, object_pairs_hook=list) for line in done.stdout.splitlines()]
        for found in expected:
            found["text"] = found["text"].decode("ascii")
        assert len(actual) == len(expected), f"{len(actual)} objects, and not {len(expected)}"
        for here, there in zip(actual, expected):
            assert here == list(there.items()), f"cvss find --json writes {here!r}, and not {there!r}"
        assert done.returncode == int(any(found["error"] for found in expected)), done.returncode
        assert is_hint(done.stderr), done.stderr


def gate_options(draw):
    """Arguments that choose among the matches, what they say of a gate, and what they say of the answers."""
    arguments, gate, of_answers = [], {}, {}
    for flag, name in (("--min", "minimum"), ("--fail-on", "fail_on")):
        if draw.random() < 0.6:
            text = draw.choice((f"{draw.randrange(10)}.{draw.randrange(10)}", "10", "Low", "medium", "high", "CRITICAL"))
            arguments.append(f"{flag}={text}")
            gate[name] = lists.threshold(text)
    if draw.random() < 0.5:
        arguments.append("--allow-incomplete")
        of_answers["allow_incomplete"] = True
    if draw.random() < 0.5:
        of_answers["assumed"] = draw.choice(("3.0", "3.1"))
        arguments.append(f"--assume={of_answers['assumed']}")
    return arguments, gate, of_answers


def try_gated(draw, room, written):
    """The matches that a gate lets through, by lines or objects, or nothing, and the status."""
    arguments, gate, of_answers = gate_options(draw)
    if draw.random() < 0.2:
        arguments.append("--quiet")
        gate["quiet"] = True
    if is_json := draw.random() < 0.4:
        answers = [found for file, number, line in lines_of(written)
                   for found in finding.gated_objects(number, line, file, **of_answers, **gate)]
        expected = [(members["line"], members["column"], members.get("file"), members["score"])
                    for members, _ in answers if members]
        done = run_over(room, written, "--json", *arguments)
        actual = [json.loads(line) for line in done.stdout.splitlines()]
        actual = [(each["line"], each["column"], each.get("file"), each["score"] and round(each["score"] * 10)) for each in actual]
    else:
        base = draw.random() < 0.4
        answers = [(printed and fronted(name, f"{number}:{place + 1} {printed}".encode()), fails)
                   for name, number, line in lines_of(written)
                   for place, printed, fails in finding.gated(line, base=base, **of_answers, **gate)]
        expected = [printed for printed, _ in answers if printed]
        arguments += ["--base"] * base
        done = run_over(room, written, *arguments)
        actual = done.stdout.split(b"\n")[:-1]
    assert actual == expected, f"cvss find {arguments} {'--json' * is_json} writes {actual}, and not {expected}"
    assert done.returncode == int(any(fails for _, fails in answers)), (arguments, done.returncode)
    assert is_hint(done.stderr), done.stderr


def try_counted(draw, room, written):
    """How many matches of each severity a gate lets through, and how many are rejected."""
    arguments, gate, of_answers = gate_options(draw)
    base = draw.random() < 0.4
    tally = dict.fromkeys(("critical", "high", "medium", "low", "none", "rejected"), 0)
    failed = False
    for *_, line in lines_of(written):
        for _, printed, fails in finding.gated(line, base=base, **of_answers, **gate):
            failed |= fails
            if printed:
                tally["rejected" if printed.startswith("error: ") else printed.split(" ")[2]] += 1
    done = run_over(room, written, "--count", *arguments, *["--base"] * base)
    expected = "".join(f"{name} {number}\n" for name, number in tally.items()).encode()
    assert done.stdout == expected, f"cvss find --count {arguments} writes {done.stdout}, and not {expected}"
    assert done.returncode == int(failed) and is_hint(done.stderr), done


def line(draw):
    return draw.choice((texts.text, hostile.line))(draw).replace(b"\n", b" ")


def is_hint(error):
    return error in (b"", LOOSE, LACKING, LACKING_V4)


def try_hints():
    """A prefix that is written in another way or is missing has a hint, once a run."""
    for line, hint in ((b"cvss:3.1/" + METRICS, LOOSE), (b"CVSS3.1/" + METRICS, LOOSE), (b"x CVSSv3.1/" + METRICS, LOOSE),
                       (b"cvss%3A3.1%2F" + METRICS.replace(b":", b"%3A"), LOOSE), (V3, b""), (CUT, b""), (V2 + b"/", b""),
                       (b"x?v=" + ENCODED, b""), (b"cvss3.1/av", b""), (METRICS, LACKING), (METRICS[:-3] + b"X:H", b""),
                       (ENCODED.partition(b"%2F")[2] + b"%20", LACKING), (METRICS_V4, LACKING_V4), (ENCODED_V2 + b"L", b"")):
        for arguments in ((), ("--json",), ("--annotate",)):
            done = run(b"\n".join([line, V2, line]), *arguments)
            assert done.stderr == hint, (line, arguments, done)


def try_files():
    """The file of each line and of each object, where there are several, and lines of any bytes."""
    with tempfile.TemporaryDirectory() as room:
        line = b"\xff\t" + V2 + b"\t"
        names = ["a", 'b"', "c\n\x1b[1m", "\u00e9\u202e\x9b", "d\\n"]
        shown = [b"a:", b'b":', b"c\\n\\u001b[1m:", b"\xc3\xa9\\u202e\\u009b:", b"d\\n:"]
        for name in names:
            (Path(room) / name).write_bytes(line + b"\r\nnone")
        answer = V2_ANSWER.encode()
        for arguments, answers in (([], [b"1:3 " + answer]), (["--min=5.0", "--fail-on", "5.1"], [b"1:3 " + answer]),
                                   (["--annotate"], [line + b"\t" + answer, b"none"])):
            done = subprocess.run([PROGRAM, "find", *arguments, *names], cwd=room, capture_output=True, check=True)
            assert done.stdout.split(b"\n") == [*(name + rest for name in shown for rest in answers), b""], done
        done = subprocess.run([PROGRAM, "find", "--json", *names], cwd=room, capture_output=True, check=True)
        found = [json.loads(line) for line in done.stdout.splitlines()]
        places = [[each[name] for name in ("file", "line", "column", "text", "score")] for each in found]
        assert places == [[name, 1, 3, V2.decode(), 5.0] for name in names], done


def main():
    count = int(sys.argv[1]) if len(sys.argv) > 1 else 5_000
    try_stored()
    try_cases()
    draw = random.Random(int(sys.argv[2]) if len(sys.argv) > 2 else 2)
    drawn = answered = 0
    with tempfile.TemporaryDirectory() as folder:
        room = Path(folder)
        while drawn < count:
            written = hostile.files(draw, room, min(AT_ONCE, count - drawn), line)
            answered += compare(room, written) + compare(room, written, "--allow-incomplete")
            compare(room, written, "--base", "--assume=3.1")
            compare(room, written, "--allow-incomplete", "--assume=3.0")
            try_annotated(room, written)
            try_objects(room, written)
            drawn += len(lines_of(written))
        for _ in range(count // 50):
            written = hostile.files(draw, room, 40, line)
            try_gated(draw, room, written)
            try_counted(draw, room, written)
    assert answered > drawn / 4, f"the drawn lines have {answered} vectors: that tries too little"
    try_hints()
    try_files()
    print(f"cvss find: {len(CASES)} texts, and {drawn} drawn lines with {answered} answers, which are those of"
          " finding.py")


if __name__ == "__main__":
    main()

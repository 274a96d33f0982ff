#!/usr/bin/env python3
"""Compares what the built `cvss triage` writes with ranking.py, over drawn lists.

A list has lines of all versions with ids before or after the vector, and some lines without a vector, with several,
with a rejected one or of any bytes; it is split over files, or comes from standard input. Metrics are set by words and
by profiles in any order, some of which no version has. Some rows are passed over for their scores, some fail, and some
are counted; files may have a header each. Of several vectors in a line one may be preferred, by its version or by its
score.

usage: tests/checks/compare_ranked.py [COUNT [SEED]]
"""
import random
import subprocess
import sys
import tempfile
from pathlib import Path

ROOT = Path(__file__).resolve().parents[2]
sys.path[:0] = [str(ROOT / "reference"), str(ROOT / "tests/inputs")]

import hostile
import lines
import ranking
import texts
import v2
import v3
import v4

PROGRAM = ROOT / "crates/cvss_command/out/cvss_command"
FRONTS = [("", v2.METRICS), ("CVSS:3.0/", v3.METRICS), ("CVSS:3.1/", v3.METRICS), ("CVSS:4.0/", v4.METRICS)]
WRONG = "E:Q", "x", "cvss:3.1/CR:H", "CVSS:4.0/CDP:H", "CR:H/CR:L", "CVSS:3.1/E:A", "MAV"
VERSIONS = "v2", "v3.0", "v3.1", "v4"
IDS = "CVE-2024-%d", "GHSA-%d\t", "%d,", '{"id":%d}', "\u00e9%d", "--%d"

V2 = b"AV:N/AC:L/Au:N/C:N/I:N/A:C"
V3 = b"CVSS:3.1/AV:N/AC:L/PR:N/UI:N/S:U/C:H/I:H/A:H"
V4 = b"CVSS:4.0/AV:N/AC:L/AT:N/PR:N/UI:N/VC:L/VI:H/VA:N/SC:N/SI:N/SA:N"
CUT = b"CVSS:3.1/AV:N/AC:L/PR:N/UI:N/S:U/C:H"
V30 = b"CVSS:3.0/AV:N/AC:L/PR:N/UI:N/S:U/C:H/I:H/A:H"
ROW_V2, ROW_V3, ROW_V4 = b"7.8 high " + V2, b"9.8 critical " + V3, b"8.8 high " + V4
COUNTS = b"critical %d\nhigh %d\nmedium %d\nlow %d\nnone %d\nrejected %d\n"
TOP = b"score severity vector\t"
SEVERAL = (1, b"", b"cvss: line 1: more than one vector on this line\n")
UNKNOWN = b"no CVSS version has "
# Arguments, standard input, and the status, standard output and standard error, by hand.
CASES = [
    ([], b"", (0, b"", b"")),
    ([], b"a " + V2 + b"\r\n" + V3 + b" b\n" + V4,
     (0, ROW_V3 + b"\t" + V3 + b" b\n" + ROW_V4 + b"\t" + V4 + b"\n" + ROW_V2 + b"\ta " + V2 + b"\n", b"")),
    ([V2, b"--", V2], b"", (0, ROW_V2 + b"\t" + V2 + b"\n" + ROW_V2 + b"\t" + V2 + b"\n", b"")),
    ([b"--", V2, b"--"], b"", (2, b"", b"cvss: --: No such file or directory (os error 2)\n")),
    ([b"--", V2, V3], b"", (0, ROW_V3 + b"\t" + V3 + b"\n" + ROW_V2 + b"\t" + V2 + b"\n", b"")),
    ([], V2 + b"\n\n" + V3, (1, b"", b"cvss: line 2: no vector\n")),
    ([b"--keep-going"], V2 + b"\n\n" + V2 + b" " + V3,
     (1, ROW_V2 + b"\t" + V2 + b"\n", b"cvss: line 2: no vector\ncvss: line 3: more than one vector on this line\n")),
    ([b"--keep-going"], CUT, (1, b"", b"cvss: line 1: missing mandatory CVSSv3 I (Integrity Impact) metric\n")),
    ([b"--allow-incomplete"], CUT, (0, b"7.5 high " + CUT + b"\t" + CUT + b"\n", b"")),
    ([b"--set", b"E:Q"], V2, (2, b"", b"cvss: " + UNKNOWN + b"E:Q\n")),
    ([b"--set", b"E:Q", b"--keep-going", b"--set", b"x"], V2, (2, b"", b"cvss: " + UNKNOWN + b"E:Q\ncvss: " + UNKNOWN + b"x\n")),
    ([b"--set", b"e:u"], b"b " + V4 + b"\na " + V2,
     (0, ROW_V2 + b"\ta " + V2 + b"\n6.7 medium " + V4 + b"/E:U\tb " + V4 + b"\n", b"")),
    ([b"--min", b"8.8"], V2 + b"\n" + V3 + b"\n" + V4, (0, ROW_V3 + b"\t" + V3 + b"\n" + ROW_V4 + b"\t" + V4 + b"\n", b"")),
    ([b"--min", b"8.9", b"--fail-on", b"8.8"], V2 + b"\n" + V4, (0, b"", b"")),
    ([b"--fail-on", b"8.8"], V2 + b"\n" + V4, (1, ROW_V4 + b"\t" + V4 + b"\n" + ROW_V2 + b"\t" + V2 + b"\n", b"")),
    ([b"--fail-on", b"8.9"], V4, (0, ROW_V4 + b"\t" + V4 + b"\n", b"")),
    ([b"--fail-on", b"medium", b"--set", b"E:U", b"--quiet"], V4, (1, b"", b"")),
    ([b"--min", b"high", b"--set", b"E:U"], V4, (0, b"", b"")),
    ([b"--count"], b"", (0, COUNTS % (0, 0, 0, 0, 0, 0), b"")),
    ([b"--count"], V2 + b"\n" + V3 + b"\n" + V4 + b"\n" + V4, (0, COUNTS % (1, 3, 0, 0, 0, 0), b"")),
    ([b"--count", b"--min", b"7.9", b"--fail-on", b"critical"], V2 + b"\n" + V3 + b"\n" + V4, (1, COUNTS % (1, 1, 0, 0, 0, 0), b"")),
    ([b"--count", b"--keep-going"], V4 + b"\nx\n\n", (1, COUNTS % (0, 1, 0, 0, 0, 2), b"cvss: line 2: no vector\ncvss: line 3: no vector\n")),
    ([b"--count"], V4 + b"\nx", (1, b"", b"cvss: line 2: no vector\n")),
    ([b"--count", b"--quiet", b"--fail-on", b"low"], V4, (1, b"", b"")),
    ([b"--header"], b"", (0, b"", b"")),
    ([b"--header"], b"\n", (0, TOP + b"\n", b"")),
    ([b"--header"], b"id," + V3 + b"\r\n" + V2 + b"\n" + V4,
     (0, TOP + b"id," + V3 + b"\n" + ROW_V4 + b"\t" + V4 + b"\n" + ROW_V2 + b"\t" + V2 + b"\n", b"")),
    ([b"--header", b"--min", b"10"], b"id\n" + V2, (0, TOP + b"id\n", b"")),
    ([b"--header"], b"id\n" + V2 + b"\nx", (1, b"", b"cvss: line 3: no vector\n")),
    ([b"--header", b"--keep-going"], b"id\nx\n" + V2, (1, TOP + b"id\n" + ROW_V2 + b"\t" + V2 + b"\n", b"cvss: line 2: no vector\n")),
    ([b"--header", b"--count"], b"id\n" + V2, (0, COUNTS % (0, 1, 0, 0, 0, 0), b"")),
    ([b"--header", b"--quiet"], b"id\n" + V2, (0, b"", b"")),
    ([b"--header", b"-", V2], b"id\n" + V4, (2, b"", b"cvss: option '--header' is for files and standard input; see 'cvss help triage'\n")),
    ([b"--header", b"--keep-going", b"no such file", b"-"], b"id\n" + V4,
     (2, ROW_V4 + b"\t" + V4 + b"\n", b"cvss: no such file: No such file or directory (os error 2)\n")),
    ([b"--quiet", b"--keep-going"], V4 + b"\nx", (1, b"", b"cvss: line 2: no vector\n")),
    ([b"--prefer", b"4.0"], V2 + b" " + V4, (0, ROW_V4 + b"\t" + V2 + b" " + V4 + b"\n", b"")),
    ([b"--prefer", b"2.0"], V2 + b" " + V4, (0, ROW_V2 + b"\t" + V2 + b" " + V4 + b"\n", b"")),
    ([b"--prefer", b"3.1"], V2 + b" " + V4, SEVERAL),
    ([b"--prefer", b"3.1"], V2 + b"\n" + V2 + b"," + V2, (0, ROW_V2 + b"\t" + V2 + b"\n" + ROW_V2 + b"\t" + V2 + b"," + V2 + b"\n", b"")),
    ([b"--prefer", b"3.1"], b"", (0, b"", b"")),
    ([b"--prefer", b"3.1"], b"x", (1, b"", b"cvss: line 1: no vector\n")),
    ([b"--prefer", b"3.1"], V3 + b" " + V2 + b" " + V3, (0, ROW_V3 + b"\t" + V3 + b" " + V2 + b" " + V3 + b"\n", b"")),
    ([b"--prefer", b"3.1"], V3 + b"/E:U " + V2 + b" " + V3, SEVERAL),
    ([b"--prefer", b"2.0"], V2 + b" " + V3 + b" CVSS:3.1/x", SEVERAL),
    ([b"--prefer", b"2.0"], b"CVSS:3.1/x " + V2 + b" " + V3, SEVERAL),
    ([b"--prefer", b"highest"], b"CVSS:3.1/x " + V2 + b" " + V3, SEVERAL),
    ([b"--prefer", b"highest"], V2 + b" " + V4 + b" " + V3, (0, ROW_V3 + b"\t" + V2 + b" " + V4 + b" " + V3 + b"\n", b"")),
    ([b"--prefer", b"highest"], V2 + b" " + V3 + b" " + V30, (0, ROW_V3 + b"\t" + V2 + b" " + V3 + b" " + V30 + b"\n", b"")),
    ([b"--prefer", b"highest"], V30 + b" " + V3, (0, b"9.8 critical " + V30 + b"\t" + V30 + b" " + V3 + b"\n", b"")),
    ([b"--prefer", b"highest", b"--set", b"e:u"], V4 + b" " + V2, (0, ROW_V2 + b"\t" + V4 + b" " + V2 + b"\n", b"")),
    ([b"--prefer", b"highest", b"--set", b"e:u", b"--base"], V4 + b" " + V2,
     (0, b"8.8 high " + V4 + b"/E:U\t" + V4 + b" " + V2 + b"\n", b"")),
    ([b"--prefer", b"highest"], V2 + b" " + CUT, SEVERAL),
    ([b"--prefer", b"2.0"], V2 + b" " + CUT, (0, ROW_V2 + b"\t" + V2 + b" " + CUT + b"\n", b"")),
    ([b"--prefer", b"3.1"], V2 + b" " + CUT, (1, b"", b"cvss: line 1: missing mandatory CVSSv3 I (Integrity Impact) metric\n")),
    ([b"--prefer", b"highest", b"--allow-incomplete"], CUT + b" " + V2, (0, ROW_V2 + b"\t" + CUT + b" " + V2 + b"\n", b"")),
    ([b"--prefer", b"highest", b"--set", b"I:H/A:H"], CUT + b" " + V2, (0, ROW_V3 + b"\t" + CUT + b" " + V2 + b"\n", b"")),
    ([b"--prefer", b"2.0", b"--prefer=highest"], V2 + b" " + V4, (0, ROW_V4 + b"\t" + V2 + b" " + V4 + b"\n", b"")),
    ([b"--prefer", b"2"], V2, (2, b"", b"cvss: '2' is not 4.0, 3.1, 3.0, 2.0 or highest; see 'cvss help triage'\n")),
    ([b"--profile", b"-"], b"\n \t\r\nCVSS:4.0/E:U\nCVSS:2.0/E:U\n",
     (2, b"", b"cvss: -: line 4: not v2 metrics, nor v3 or v4.0 metrics after their prefix: CVSS:2.0/E:U\n")),
    ([b"--set", b"E:\x1b[31m\n", V4], b"", (2, b"", b"cvss: " + UNKNOWN + b"E:\\u001b[31m\\n\n")),
    ([b"--profile", b"-"], b"MAV:\x9b\n",
     (2, b"", b"cvss: -: line 1: not v2 metrics, nor v3 or v4.0 metrics after their prefix: MAV:\\x9b\n")),
    ([b"--profile", b"CVSS:4.0/E:U", V4], b"", (0, b"6.7 medium " + V4 + b"/E:U\t" + V4 + b"\n", b"")),
    ([b"--profile", b"CVSS:3.1/E:U", V4], b"", (0, ROW_V4 + b"\t" + V4 + b"\n", b"")),
    ([b"--set", b"E:U", b"--base", V4], b"", (0, b"8.8 high " + V4 + b"/E:U\t" + V4 + b"\n", b"")),
    ([b"--profile", b"no such file", b"--keep-going", V4], b"", (2, b"", b"cvss: no such file: No such file or directory (os error 2)\n")),
    ([b"--keep-going", b"no such file", b"-"], V4,
     (2, ROW_V4 + b"\t" + V4 + b"\n", b"cvss: no such file: No such file or directory (os error 2)\n")),
    ([b"no such file", b"-"], V4 + b"\nx\n",
     (2, b"", b"cvss: no such file: No such file or directory (os error 2)\ncvss: -: line 2: no vector\n")),
]


def run(arguments, given):
    done = subprocess.run([PROGRAM, "triage", *arguments], input=given, capture_output=True, check=False)
    return done.returncode, done.stdout, done.stderr


def expect(arguments, given, wanted):
    actual = run(arguments, given)
    if actual != wanted:
        sys.exit(f"cvss triage {arguments} over {given[:500]!r}:\n{str(actual)[:3000]}\nand not\n{str(wanted)[:3000]}")


def gates(draw):
    """Options that choose rows by their scores, or print their numbers or nothing."""
    scores = "%d.%d" % divmod(draw.randrange(100), 10), draw.choice(("none", "low", "Medium", "high", "critical", "10", "7"))
    given = [(flag, draw.choice(scores).encode()) for flag in (b"--min", b"--fail-on") if draw.random() < 0.4]
    return [word for option in given for word in option] + [flag for flag in (b"--quiet", b"--count") if draw.random() < 0.1]


def several(draw):
    """Vectors of some versions, of which one may be there twice, be cut off, or be rejected."""
    found = [lines.line(draw, version, draw.choice(("base", "full", "any"))) for version in draw.sample(VERSIONS, 2)]
    if draw.random() < 0.4:
        found.append(draw.choice(found))
    if draw.random() < 0.2:
        found.append(draw.choice((CUT.decode(), "CVSS:3.1/x", lines.line(draw, "all", "full"))))
    draw.shuffle(found)
    return draw.choice((" ", ", ", "\t", ") (")).join(found).encode()


def line(draw, rejected):
    """A line with an id, of which some have no row."""
    if draw.random() < rejected:
        return draw.choice((texts.text, hostile.line, several, several))(draw).replace(b"\n", b"")
    text = lines.line(draw, "all", draw.choice(("base", "full", "any")))
    name = draw.choice(IDS) % draw.randrange(100_000)
    link = f"{name} {text} https://www.first.org/cvss/calculator/3.1#{text}"
    return draw.choice((f"{name} {text}", f"{text} {name}", f"{name} ({text}).", text, link)).encode()


def metrics(draw, known):
    """Some metrics of a version, for its vectors."""
    names = draw.sample(list(known), draw.choice((1, 1, 1, 2, 5)))
    return "/".join(f"{name}:{draw.choice(list(known[name][1]))}" for name in names)


def profile(draw, wrong):
    """Partial vectors, and blank lines."""
    rows = []
    for _ in range(draw.randrange(5)):
        front, known = draw.choice(FRONTS)
        rows.append(draw.choice(WRONG) if draw.random() < wrong else front + metrics(draw, known))
    rows += draw.choice(([], ["", " \t"]))
    draw.shuffle(rows)
    return draw.choice(("\n", "\r\n")).join(rows).encode()


def try_list(draw, room):
    """A list of lines, with what is set; returns how many lines it has and whether rows are written."""
    wrong = draw.choice((0, 0, 0, 0, 0.1))
    files, arguments = {}, []

    def file(content):
        name = f"{room}/{len(files)}".encode()
        files[name] = content
        Path(name.decode()).write_bytes(content)
        return name

    for _ in range(draw.randrange(5)):
        if draw.random() < 0.5:
            word = draw.choice(WRONG) if draw.random() < wrong else metrics(draw, draw.choice(FRONTS)[1])
            arguments += [b"--set", word.encode()]
        else:
            arguments += [b"--profile", file(profile(draw, wrong))]
    arguments += [flag for flag in (b"--keep-going", b"--allow-incomplete", b"--base", b"--header") if draw.random() < 0.4]
    arguments += draw.choice(([], [b"--prefer", draw.choice((b"4.0", b"3.1", b"3.0", b"2.0", b"highest", b"highest"))]))
    arguments += gates(draw)
    rejected = draw.choice((0, 0.02, 0.3))
    parts = [[line(draw, rejected) for _ in range(draw.randrange(80))] for _ in range(draw.choice((1, 1, 2, 3)))]
    given = None
    for part in parts:
        content = b"".join(each + draw.choice((b"\n", b"\n", b"\r\n")) for each in part)
        if given is None and draw.random() < 0.5:
            given = content
            arguments += [b"-"] if len(parts) > 1 else []
        else:
            arguments.append(file(content))
    given = given or b""
    wanted = ranking.run(arguments, lambda name: files.get(name, given))
    expect(arguments, given, wanted)
    return sum(map(len, parts)), bool(wanted[1])


def main():
    count = int(sys.argv[1]) if len(sys.argv) > 1 else 1_500
    draw = random.Random(int(sys.argv[2]) if len(sys.argv) > 2 else 2)
    for case in CASES:
        expect(*case)
    drawn = lists = ranked = 0
    with tempfile.TemporaryDirectory() as room:
        while drawn < count:
            size, is_ranked = try_list(draw, room)
            drawn, lists, ranked = drawn + size, lists + 1, ranked + is_ranked
    if not 0 < ranked < lists:
        sys.exit(f"{ranked} of {lists} lists are ranked: that tries too little")
    print(f"cvss triage: {len(CASES)} runs, and {drawn} drawn lines in {lists} lists, of which {ranked} are ranked: "
          "rows, reports and statuses are those of ranking.py")


if __name__ == "__main__":
    main()

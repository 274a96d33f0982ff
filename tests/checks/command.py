#!/usr/bin/env python3
"""Tries the built command `cvss` from outside: its arguments, vectors and files in one run, its hints, streams that are
full, and its completion.

usage: tests/checks/command.py
"""
import os
import re
import subprocess
import sys
import tempfile
from pathlib import Path

ROOT = Path(__file__).resolve().parents[2]
PROGRAM = ROOT / "crates/cvss_command/out/cvss_command"
V2 = b"AV:N/AC:L/Au:N/C:N/I:N/A:C"
V2_ANSWER = V2 + b" 7.8 high\n"
BASE = b"CVSS:3.1/AV:N/AC:L/PR:N/UI:N/S:U/C:H/I:H/A:H"
V4 = b"CVSS:4.0/AV:N/AC:L/AT:N/PR:N/UI:N/VC:L/VI:H/VA:N/SC:N/SI:N/SA:N"
CUT = b"CVSS:3.1/AV:N/AC:L/PR:N/UI:N/S:U/C:H"
CUT_ANSWER = b"error: missing mandatory CVSSv3 I (Integrity Impact) metric\n"
NO_FILE = b": No such file or directory (os error 2)\n"
HEADER = b"given\tvector\tversion\tbase\ttemporal\tenvironmental\tscore\tseverity\tnomenclature\terror\n"
tried = 0


def expect(status, out, error, *arguments, given=b"", **streams):
    """Runs the command, and compares its status, its standard output and its standard error."""
    global tried
    if "stdin" not in streams:
        streams["input"] = given
    streams.setdefault("stdout", subprocess.PIPE)
    done = subprocess.run([PROGRAM, *arguments], stderr=subprocess.PIPE, check=False, **streams)
    outcome = (done.returncode, done.stdout or b"", done.stderr)
    if outcome != (status, out, error):
        sys.exit(f"cvss {arguments}: {outcome}, and not {(status, out, error)}")
    tried += 1


def assert_fits(text):
    """A help text fits a screen."""
    rows = text.decode().splitlines()
    assert len(rows) <= 24 and max(map(len, rows)) <= 80, text


def try_arguments():
    usage = subprocess.run([PROGRAM, "--help"], stdout=subprocess.PIPE, check=True).stdout
    for topic in [line.split()[0].decode() for line in usage.splitlines() if re.match(rb"  [a-z]+  ", line)]:
        text = subprocess.run([PROGRAM, "help", topic], stdout=subprocess.PIPE, check=True).stdout
        assert re.search(f"^  (.* )?cvss {topic} ".encode(), text, re.MULTILINE), f"no example of {topic}"
        for asked in (["--help"], ["-h"], ["a/b", "-h"]):
            expect(0, text, b"", topic, *asked)
        assert_fits(text)
    assert_fits(usage)
    for asked in (["help"], ["help", "help"], ["help", "version"], ["-h"]):
        expect(0, usage, b"", *asked)
    for asked in ("--version", "-V", "version"):
        expect(0, f"cvss {(ROOT / 'VERSION').read_text().strip()}\n".encode(), b"", asked)
    expect(2, b"", usage)


def try_usage_errors():
    """One line says what is wrong with the arguments, and where help is."""
    all_scores = " does not go with '--json', which prints all scores"
    for arguments, problem, topic in (
            (["scores"], "unknown command 'scores'", None), ([b"a\n"], "unknown command 'a\\n'", None),
            (["-"], "unknown command '-'", None), (["--helper"], "unknown option '--helper'", None),
            (["-v"], "unknown option '-v'", None), (["--version", "x"], "unexpected argument 'x'", None),
            (["version", "-V"], "unexpected argument '-V'", None), (["-h", "-h"], "unexpected argument '-h'", None),
            (["--help", "score"], "unexpected argument 'score'", None), (["help", "x"], "unknown command 'x'", None),
            (["help", "set", "y", "z"], "unexpected argument 'y'", None),
            (["score", "--max", "x"], "unknown option '--max'", "score"),
            (["score", "--min", "x"], "'x' is not a score or a severity", "score"),
            (["score", "--fail-on=10.1"], "'10.1' is not a score or a severity", "score"),
            (["score", V2, "--min", "--max"], "'--max' is not a score or a severity", "score"),
            (["score", V2, "--min"], "option '--min' needs a value", "score"),
            (["score", "--standard", "--json"], "option '--standard' does not go with --json", "score"),
            (["score", "--standard", "--tsv", "--base"], "option '--standard' does not go with --tsv", "score"),
            (["score", "--json", "--count"], "option '--count' does not go with --json", "score"),
            (["diff"], "two vectors are compared", "diff"), (["diff", V2], "two vectors are compared", "diff"),
            (["diff", V2, V2, "-"], "two vectors are compared", "diff"),
            (["diff", "--json", V2, V2], "unknown option '--json'", "diff"),
            (["find", "--tsv"], "unknown option '--tsv'", "find"), (["explain", "--base"], "unknown option '--base'", "explain"),
            (["audit", "--tsv"], "unknown option '--tsv'", "audit"),
            (["audit", "--differing", "gone"], "option '--differing' needs --json", "audit"),
            (["set", "E:A", "-x", "--"], "unknown option '-x'", "set"),
            (["triage", "--base", "--min", "x"], "'x' is not a score or a severity", "triage"),
            (["triage", V2, "--fail-on"], "option '--fail-on' needs a value", "triage"),
            (["triage", "--count", "--json", V2], "option '--count' does not go with --json", "triage"),
            (["triage", "--set"], "option '--set' needs a value", "triage"),
            (["triage", "--prefer"], "option '--prefer' needs a value", "triage"),
            (["triage", "--prefer=3.2", V2], "'3.2' is not 4.0, 3.1, 3.0, 2.0 or highest", "triage"),
            (["triage", "--prefer", "Highest"], "'Highest' is not 4.0, 3.1, 3.0, 2.0 or highest", "triage"),
            (["find", "--prefer", "3.1"], "unknown option '--prefer'", "find"),
            (["triage", V2, "--header"], "option '--header' is for files and standard input", "triage"),
            (["triage", "--json", "--count", "--header", "-", V2], "option '--header' is for files and standard input", "triage"),
            (["triage", "--keep-going", "--profile"], "option '--profile' needs a value", "triage"),
            (["triage", V2, "--set"], "option '--set' needs a value", "triage"),
            (["find", "gone", "--assume"], "option '--assume' needs a value", "find"),
            (["find", "gone", "--assume", "3.2"], "unknown version '3.2'", "find"),
            (["find", "--assume=", "gone"], "unknown version ''", "find"),
            (["find", "--annotate", "--min", "7"], "option '--min' does not go with --annotate", "find"),
            (["find", "--quiet", "--annotate"], "option '--quiet' does not go with --annotate", "find"),
            (["find", "--count", "--json"], "option '--count' does not go with --json", "find"),
            (["find", "--fail-on=worse"], "'worse' is not a score or a severity", "find"),
            *((["find", *words, "--csv"], f"option '--csv' does not go with {words[0]}", "find")
              for words in (["--json", "--annotate"], ["--annotate", "--count"], ["--count", "--min", "low"],
                            ["--min", "7", "--quiet"], ["--fail-on", "7"], ["--quiet"], ["--assume", "3.1"])),
            (["find", "--column", "x", "--guard"], "option '--column' needs --csv", "find"),
            (["triage", "--guard", "--column", "x", "--json", "--count"], "option '--column' needs --csv", "triage"),
            (["triage", "--csv", "--column"], "option '--column' needs a value", "triage"),
            (["find", "--json", "--guard"], "option '--guard' needs --csv", "find"),
            (["find", "--csv", "--column"], "option '--column' needs a value", "find"),
            (["score", "--column=1", "--tsv"], "option '--column' needs --csv", "score"),
            (["score", "--guard"], "option '--guard' needs --csv or --tsv", "score"),
            (["score", "--json=x", V2], "unknown option '--json=x'", "score"),
            (["score", V2, "--min=--json"], "'--json' is not a score or a severity", "score"),
            (["set"], "no metric to set", "set"), (["set", "--", "x"], "no metric to set", "set"),
            (["set", BASE], "no metric to set", "set"), (["set", "--", "E:A"], "no metric to set", "set"),
            (["set", "E:", BASE], "'E:' is not METRIC:VALUE", "set"), (["set", ":A"], "':A' is not METRIC:VALUE", "set"),
            (["set", BASE, "E:A", ""], "'' is not METRIC:VALUE", "set"), (["set", "list"], "'list' is not METRIC:VALUE", "set"),
            (["set", "--base", "--allow-incomplete", "--", V2], "no metric to set", "set"),
            (["set", b"E:\xff"], "a metric is not UTF-8", "set"), (["set", "E:A", b"\xff:A"], "a metric is not UTF-8", "set"),
            (["score", "--base", "--json"], "--base" + all_scores, "score"),
            (["score", "--json", "--tsv", "--base"], "--base" + all_scores, "score"),
            (["score", "--tsv", "--base", V2], "--base" + all_scores.replace("json", "tsv"), "score"),
            (["find", "--annotate", "--json", "--base"], "--base" + all_scores, "find")):
        help_command = f"cvss help {topic}" if topic else "cvss help"
        expect(2, b"", f"cvss: {problem}; see '{help_command}'\n".encode(), *arguments)
    expect(2, b"", b"cvss: unknown command '\\xff'; see 'cvss help'\n", b"\xff")


def try_base():
    """The score with all metrics, and the base score in place of it."""
    all_metrics = BASE + b"/E:U/RL:O/RC:C"
    expect(0, all_metrics + b" 8.5 high\n", b"", "score", all_metrics)
    expect(0, all_metrics + b" 9.8 critical\n", b"", "score", "--base", all_metrics)
    expect(0, b"1:1 " + all_metrics + b" 8.5 high\n", b"", "find", given=all_metrics)
    expect(0, b"1:1 " + all_metrics + b" 9.8 critical\n", b"", "find", "--base", given=all_metrics)
    expect(0, BASE + b"/CR:H/MAV:L 8.4 high\n", b"", "set", "MAV:L", "CR:H", "--", BASE)
    expect(0, BASE + b"/CR:H/MAV:L 9.8 critical\n", b"", "set", "MAV:L", "--base", "CR:H", "--", BASE)
    expect(0, b"8.5 high " + all_metrics + b"\t" + all_metrics + b"\n", b"", "triage", all_metrics)
    expect(0, b"9.8 critical " + all_metrics + b"\t" + all_metrics + b"\n", b"", "triage", "--base", all_metrics)
    expect(0, V4 + b"/E:P 7.8 high\n", b"", "score", V4 + b"/E:P")
    expect(0, V4 + b"/E:P 8.8 high\n", b"", "score", "--base", V4 + b"/E:P")


def try_order(room):
    """Options among and after vectors and files, and what `--` ends."""
    (room / "list").write_bytes(BASE + b"\n" + V2)
    scored, scored_v2 = BASE + b" 9.8 critical\n", V2 + b" 7.8 high\n"
    for arguments in ([V2, "--base", BASE], [V2, BASE, "--base"], ["--base", V2, "--", BASE], [V2, "--base", "--", BASE]):
        expect(0, scored_v2 + scored, b"", "score", *arguments)
    expect(2, scored_v2, b"cvss: --base" + NO_FILE, "score", V2, "--", "--base", cwd=room)
    expect(2, scored_v2, b"cvss: --" + NO_FILE, "score", "--", V2, "--", cwd=room)
    done = subprocess.run([PROGRAM, "score", V2, "--json"], capture_output=True, check=True)
    assert done.stdout.startswith(b'{"given":"' + V2 + b'"'), done
    changed = BASE + b"/E:P 9.3 critical\n"
    for arguments in (["E:P", BASE], [BASE, "E:P"], ["E:P", "--", BASE], ["E:P", "-"], ["E:P"]):
        expect(0, changed, b"", "set", *arguments, given=BASE)
    expect(0, BASE + b"/E:P 9.8 critical\n", b"", "set", BASE, "--base", "E:P")
    ranked = b"9.3 critical " + BASE + b"/E:P\t" + BASE + b"\n"
    for arguments in ([BASE, "--set", "E:P"], ["--set=E:P", BASE], [BASE, "--set=E:P"], [BASE, "--set=E:U", "--set", "E:P"]):
        expect(0, ranked, b"", "triage", *arguments)
    expect(2, b"", b"cvss: no CVSS version has --\n", "triage", BASE, "--set", "--")
    for word, shown in (b"--x\x1b[31m", b"--x\\u001b[31m"), (b"-\n\xff", b"-\\x0a\\xff"), ("-\u202e".encode(), b"-\\u202e"):
        expect(2, b"", b"cvss: unknown option '" + shown + b"'; see 'cvss help score'\n", "score", word)
    headed = b"vector\n" + BASE + b"/E:P\n"
    top = b"score severity vector\tvector\n"
    expect(0, top + ranked.replace(b"\t" + BASE, b"\t" + BASE + b"/E:P"), b"", "triage", "--header", given=headed)
    expect(0, b'{"line":2,"text":"' + BASE + b'/E:P","vector":"' + BASE + b'/E:P","version":"3.1","base":9.8,"temporal":9.3,'
           b'"environmental":9.3,"score":9.3,"severity":"critical","nomenclature":null,"error":null}\n', b"",
           "triage", "--header", "--json", given=headed)
    bare = BASE.partition(b"/")[2]
    for arguments in (["--assume", "3.1"], ["--assume=3.1"], ["--assume=3.0", "-", "--assume", "3.1"]):
        expect(0, b"1:1 " + scored, b"", "find", *arguments, given=bare)


def try_lists(room):
    """Blanks and blank lines, gates, standards and differences."""
    blank = b" " + V2 + b"\t \n\n \t\n" + BASE
    expect(0, V2_ANSWER + b"\n\n" + BASE + b" 9.8 critical\n", b"", "score", given=blank)
    expect(0, V2_ANSWER, b"", "score", b"\t" + V2 + b" ")
    expect(0, b"\n\n" + BASE + b" 9.8 critical\n", b"", "score", "--min", "9", given=blank)
    expect(1, V2_ANSWER + b"\n\n" + BASE + b" 9.8 critical\n", b"", "score", "--fail-on=critical", given=blank)
    for arguments, status in ((["--quiet"], 0), (["--quiet", "--fail-on", "9.8"], 1), (["--quiet", "--fail-on", "9.9"], 0),
                              (["--tsv", "--quiet", "--min", "10"], 0), (["--json", "--quiet", "--fail-on", "low"], 1)):
        expect(status, b"", b"", "score", *arguments, given=blank)
    expect(0, HEADER, b"", "score", "--tsv", "--min", "10", V2)
    counts = b"critical %d\nhigh %d\nmedium %d\nlow %d\nnone %d\nrejected %d\n"
    expect(0, counts % (1, 1, 0, 0, 0, 0), b"", "score", "--count", given=blank)
    expect(1, counts % (1, 0, 0, 0, 0, 1), b"", "score", "--count", "--min=9.0", "--fail-on=9.8", BASE, V2, CUT, "-", given=b"\n")
    expect(0, b"", b"", "score", "--count", "--quiet", BASE)
    expect(2, counts % (0, 1, 0, 0, 0, 0), b"cvss: gone" + NO_FILE, "score", "--count", "gone", V2)
    (room / "one").write_bytes(V2)
    (room / "two").write_bytes(b"\n" + BASE)
    expect(0, b"two:\ntwo:" + BASE + b" 9.8 critical\n", b"", "score", "--min", "HIGH", "--min", "8.0", "one", "two", cwd=room)
    expect(1, b"error: lower case: av:N\n", b"", "score", "--standard", BASE.replace(b"AV", b"av"))
    expect(0, BASE + b"/E:X 9.8 critical\n", b"", "score", "--standard", "--base", BASE + b"/E:X")
    unlike = BASE.replace(b"AC:L", b"AC:H") + b"/E:P"
    expect(0, b"AC: L -> H\nE: - -> P\nscore: 9.8 critical -> 7.7 high\n", b"", "diff", BASE, unlike)
    expect(0, b"AC: L -> H\nE: - -> P\nscore: 9.8 critical -> 8.1 high\n", b"", "diff", "--base", BASE, unlike)
    expect(0, b"score: 7.8 high -> 7.8 high\n" * 2, b"", "diff", V2, "-", given=V2 + b"\n" + V2)
    expect(1, b"error: different versions: 3.1 and 2.0\n", b"", "diff", BASE, V2)
    expect(1, b"second vector: " + CUT_ANSWER, b"", "diff", BASE, CUT)
    expect(0, b"I: H -> -\nA: H -> -\nscore: 9.8 critical -> 7.5 high\n", b"", "diff", "--allow-incomplete", BASE, CUT)
    expect(2, b"", b"cvss: gone" + NO_FILE, "diff", BASE, "gone")


def try_found(room):
    """Gates of `cvss find`: each match by itself, and the line by all of its matches."""
    line, scored, scored_v2 = BASE + b" (" + V2 + b") " + CUT + b".", b"1:1 " + BASE + b" 9.8 critical\n", b"1:47 " + V2_ANSWER
    rejected = b"1:75 " + CUT_ANSWER
    expect(1, scored + scored_v2 + rejected, b"", "find", given=line)
    expect(1, scored + rejected, b"", "find", "--min", "7.9", given=line)
    expect(0, scored, b"", "find", "--min=9", "--allow-incomplete", given=line)
    expect(0, b"", b"", "find", "--min=9.9", "--fail-on", "low", given=BASE)
    for arguments, status in ((["--fail-on", "7.8"], 1), (["--fail-on", "7.9"], 0), (["--fail-on", "low", "--min", "high"], 1)):
        expect(status, b"1:1 " + V2_ANSWER, b"", "find", *arguments, given=V2)
        expect(status, b"", b"", "find", "--quiet", *arguments, given=V2)
        expect(status, b"", b"", "find", "--quiet", "--json", *arguments, given=V2)
    expect(1, b"", b"", "find", "--quiet", "--min", "9", given=line)
    expect(0, b"1:1 " + BASE + b"/E:P 9.8 critical\n", b"", "find", "--base", "--min", "9.8", given=BASE + b"/E:P")
    expect(0, b"", b"", "find", "--json", "--min", "9.4", given=BASE + b"/E:P")
    counts = b"critical %d\nhigh %d\nmedium %d\nlow %d\nnone %d\nrejected %d\n"
    expect(1, counts % (1, 1, 0, 0, 0, 1), b"", "find", "--count", given=line)
    expect(1, counts % (1, 0, 0, 0, 0, 0), b"", "find", "--count", "--min=9", "--fail-on=9.8", "--allow-incomplete", given=line)
    expect(0, counts % (0, 0, 0, 0, 0, 0), b"", "find", "--count", given=b"none")
    expect(0, b"", b"", "find", "--count", "--quiet", given=BASE)
    expect(2, counts % (0, 0, 0, 0, 0, 0), b"cvss: gone" + NO_FILE, "find", "--count", "gone", cwd=room)
    for name in ("one", "x\n\x1b[2J"):
        (room / name).write_bytes(line)
    for arguments, found in (([], [scored, scored_v2, rejected]), (["--min=9.0"], [scored, rejected])):
        expect(1, b"".join(name + each for name in (b"one:", b"x\\n\\u001b[2J:") for each in found), b"",
               "find", *arguments, "one", "x\n\x1b[2J", cwd=room)


def try_incomplete():
    """A v3 vector that lacks base metrics, in each subcommand that scores."""
    expect(1, CUT_ANSWER, b"", "set", "E:U", "--", CUT)
    expect(0, CUT + b"/E:U 6.9 medium\n", b"", "set", "E:U", "--allow-incomplete", "--", CUT)
    expect(0, CUT + b"/E:U 7.5 high\n", b"", "set", "--allow-incomplete", "--base", "E:U", "--", CUT)
    expect(0, CUT + b" 7.5 high\n", b"", "score", "--allow-incomplete", CUT)
    expect(0, b"1:1 " + CUT + b" 7.5 high\n", b"", "find", "--allow-incomplete", given=CUT)
    expect(0, b"7.5 high " + CUT + b"\t" + CUT + b"\n", b"", "triage", "--allow-incomplete", CUT)


def try_hints(room):
    """A rejected word that is nearly a vector has a hint, once a run."""
    rejected = b"error: unknown CVSS metric name: `PR`\n"
    bare = b"AV:N/AC:L/PR:N/UI:N/S:U/C:H/I:H/A:H"
    version = b"cvss: hint: write `CVSS:3.1/` before it\n"
    expect(1, rejected, version, "score", bare)
    expect(1, rejected * 2 + V2_ANSWER, version, "score", bare, bare, V2)
    expect(1, rejected, version, "set", "A:N", "--", bare)
    capitals = b"cvss: hint: write its prefix in capitals, as `CVSS:3.1/`\n"
    v4 = b"AV:N/AC:L/AT:N/PR:N/UI:N/VC:L/VI:H/VA:N/SC:N/SI:N/SA:N"
    expect(1, b"error: unknown CVSS metric name: `AT`\n", b"cvss: hint: write `CVSS:4.0/` before it\n", "score", v4)
    for prefix, metrics in ((b"cvss:3.1/", bare), (b"Cvss:3.0/", bare), (b"cvSS:4.0/", v4)):
        expect(1, b"error: invalid CVSS string prefix: `" + prefix[:4] + b"`\n", capitals, "score", prefix + metrics)
    for text in (b"(" + V2 + b").", b'"' + V2 + b'"', b"* " + V2):
        done = subprocess.run([PROGRAM, "score", text], capture_output=True, check=False)
        assert (done.returncode, done.stderr) == (1, b"cvss: hint: `cvss find` finds vectors among other text\n"), done
    for word, answer in ((CUT, CUT_ANSWER), (b"x:y", b"error: invalid CVSS metric group component: `x:y`\n")):
        expect(1, answer, b"", "score", word)
    expect(0, V2_ANSWER, b"", "score", V2)
    # lines have one too, where no argument is a vector
    (room / "bare").write_bytes(V2 + b"\n\n" + bare + b"\n" + bare + b"\n")
    expect(1, V2_ANSWER + b"\n" + rejected * 2, version, "score", "bare", cwd=room)
    expect(1, rejected, version, "score", given=bare)
    expect(1, b"", version, "score", "--quiet", given=bare)
    expect(1, V2_ANSWER + rejected, b"", "score", V2, "-", given=bare)
    expect(1, b"error: invalid CVSS metric group component: `x:y`\n", b"", "score", given=b"x:y")


def try_notes():
    """An audit that prints each vector, and finds none, says so; one that is rejected, or whose reader is gone, does not."""
    note = b"cvss: no vector was found\n"
    for given in (b"", b"{}\n", b'[1,"x"]\n{}\n'):
        expect(0, b"", note, "audit", "--json", given=given)
        expect(0, b"", b"", "audit", "--json", "--differing", given=given)
        documents = b"0 documents" if not given else b"2 documents" if b"x" in given else b"1 document"
        expect(0, b"", b"cvss: " + documents + b", 0 vectors, 0 disagreements\n", "audit", given=given)
    expect(0, b"", note, "audit", "--document", "--json", given=b"{}")
    expect(2, b"", b"cvss: gone" + NO_FILE + b"cvss: 0 documents, 0 vectors, 0 disagreements\n", "audit", "gone")
    expect(2, b"", b"cvss: gone" + NO_FILE, "audit", "--json", "gone")
    expect(1, b'{"error":"not JSON: line 1, column 1"}\n', b"", "audit", "--json", given=b"x\n")
    found = b'{"vectorString":"' + V2 + b'"}\n'
    done = subprocess.run([PROGRAM, "audit", "--json"], input=found, capture_output=True, check=True)
    assert done.stdout and not done.stderr, done
    for subcommand in ("score", "find", "explain"):
        expect(0, b"", b"", subcommand)
    closed = '"$0" audit --json < <(sleep 0.2; echo "$1") | true; exit ${PIPESTATUS[0]}'
    done = subprocess.run(["bash", "-c", closed, PROGRAM, found.decode()], capture_output=True, check=False)
    assert (done.returncode, done.stderr) == (0, b""), done


def try_operands(room):
    """Vectors and files in one run, and what follows `--`."""
    (room / "list").write_bytes(V2 + b"\r\n" + CUT)
    expect(1, V2_ANSWER + CUT_ANSWER, b"", "score", "--", "list", cwd=room)
    expect(2, V2_ANSWER, b"cvss: gone" + NO_FILE, "score", V2, "gone", cwd=room)
    expect(2, V2_ANSWER, b"cvss: \\xff\\xfe: invalid filename\n", "score", b"\xff\xfe", V2, cwd=room)
    expect(2, b"", b"cvss: --json" + NO_FILE, "score", "--", "--json", cwd=room)
    (room / "empty").touch()
    expect(0, V2_ANSWER, b"", "score", V2, "empty", cwd=room)
    folder = os.open(room, os.O_RDONLY)
    expect(2, V2_ANSWER, b"cvss: -: Is a directory (os error 21)\n", "score", "-", V2, stdin=folder)
    os.close(folder)


def try_long_names(room):
    """A name of 255 bytes opens, and so does a path of more; a longer name is one that the system rejects."""
    name = "n" * 255
    (room / name).write_bytes(V2)
    expect(0, V2_ANSWER, b"", "score", name, cwd=room)
    path = Path("d" * 200) / ("e" * 200)
    (room / path).mkdir(parents=True)
    (room / path / "list").write_bytes(V2)
    expect(0, V2_ANSWER, b"", "score", path / "list", cwd=room)
    error = b"n: File name too long (os error 36)\n"
    expect(2, b"", b"cvss: " + name.encode() + error, "score", name + "n", cwd=room)


def try_help(room):
    """The help on a stream that is full or closed."""
    with open("/dev/full", "wb") as device:
        expect(2, b"", b"cvss: standard output: No space left on device (os error 28)\n", "--help", stdout=device)
    done = subprocess.run(["bash", "-c", '"$0" --help 2>/dev/null | true; exit ${PIPESTATUS[0]}', PROGRAM], cwd=room, check=False)
    assert done.returncode == 0, done.returncode


def try_header(room):
    """The head of the columns where no line follows it."""
    with open("/dev/full", "wb") as device:
        expect(2, b"", b"cvss: standard output: No space left on device (os error 28)\n", "score", "--tsv", V2, stdout=device)
    expect(2, HEADER, b"cvss: gone" + NO_FILE, "score", "--tsv", "gone", cwd=room)
    expect(0, HEADER, b"", "score", "--tsv")


def try_columns(room):
    """Rows of several files and of a vector that is an argument: each has as many columns as the header."""
    for name in ("one", "two\n"):
        (room / name).write_bytes(V2 + b"\n")
    row = V2 + b"\t" + V2 + b"\t2.0\t7.8\t7.8\t7.8\t7.8\thigh\t\t\n"
    rows = b"\t" + row + b"one\t" + row + b"two\\n\t" + row
    expect(0, b"file\t" + HEADER + rows, b"", "score", "--tsv", V2, "one", "two\n", cwd=room)
    expect(0, HEADER + row + row, b"", "score", "--tsv", V2, "one", cwd=room)


def try_completion():
    """What bash completes, by the file that is installed, which runs no program; and which words each shell has."""
    script = 'cvss() { exit 1; }; . "$FILE"; COMP_WORDS=("$@"); COMP_CWORD=$(($# - 1)); _cvss; printf "%s\\n" "${COMPREPLY[@]}"'
    environment = os.environ | {"FILE": str(ROOT / "bindings/completion/cvss")}

    def complete_words(*words):
        done = subprocess.run(["bash", "-c", script, "bash", "cvss", *words], env=environment, capture_output=True, text=True,
                              check=True, cwd=ROOT)
        return done.stdout.split()

    assert {"score", "set", "help", "--help", "--version"} <= set(complete_words(""))
    assert complete_words("sc") == ["score"] and complete_words("help", "se") == ["set"]
    assert complete_words("score", "--a") == ["--allow-incomplete"] and "--tsv" in complete_words("score", "--")
    assert complete_words("set", "--b") == ["--base"] and "--base" not in complete_words("explain", "--")
    assert complete_words("score", "VERS") == ["VERSION"] and set(complete_words("-")) == {"-h", "-V", "--help", "--version"}
    for words in (["--assume", ""], ["--assume", "="], ["--assume", "=", "3"]):
        assert complete_words("find", *words) == ["3.0", "3.1"], words
    for words in (["--prefer", "h"], ["--prefer", "=", "hi"]):
        assert complete_words("triage", *words) == ["highest"], words
    for words in (["--min", "h"], ["--fail-on", "=", "hi"]):
        assert complete_words("score", *words) == ["high"], words
    usage = subprocess.run([PROGRAM, "help"], stdout=subprocess.PIPE, text=True, check=True).stdout
    commands = re.findall(r"^  ([a-z]+)  ", usage, re.MULTILINE)
    zsh, fish = ((ROOT / "bindings/completion" / name).read_text() for name in ("_cvss", "cvss.fish"))
    assert complete_words("help", "") == sorted(commands)
    assert re.findall(r"^        '([a-z]+):", zsh, re.MULTILINE) == commands
    assert re.search(r"^set -l commands (.*)$", fish, re.MULTILINE)[1].split() == commands
    of_fish = re.findall(r"_from ([a-z ]+)' -l ([a-z-]+)", fish)
    for command in commands:
        text = subprocess.run([PROGRAM, "help", command], stdout=subprocess.PIPE, text=True, check=True).stdout
        options = set(re.findall(r"--[a-z][a-z-]*(?:=[0-9.]+)?", text.partition("\n\n")[0]))
        assert set(complete_words(command, "--")) == options | {"--help"}, command
        assert set(re.search(rf"^        {command}\) options=\((.*)\)", zsh, re.MULTILINE)[1].split()) == options, command
        names = {option.partition("=")[0] for option in options}
        assert {f"--{name}" for holders, name in of_fish if command in holders.split()} == names, command


def main():
    with tempfile.TemporaryDirectory() as folder:
        room = Path(folder)
        try_arguments()
        try_usage_errors()
        try_base()
        try_incomplete()
        try_hints(room)
        try_lists(room)
        try_found(room)
        try_notes()
        try_order(room)
        try_operands(room)
        try_long_names(room)
        try_help(room)
        try_header(room)
        try_columns(room)
    try_completion()
    print(f"cvss: {tried} runs end as they should")


if __name__ == "__main__":
    main()

#!/usr/bin/env python3
"""Compares what the built `cvss audit` prints with reference/auditing.py, over drawn documents of all forms, and texts that are
almost documents, in one input or several: for people how many lines there are, and the last line, which counts documents,
vectors and disagreements; in all forms which vectors are let through by --min, --fail-on, --quiet and --count. The names of
files are shown as before other lines.

usage: tests/checks/audit_lines.py [COUNT [SEED]]
"""
import json
import random
import subprocess
import sys
import tempfile
from pathlib import Path

ROOT = Path(__file__).resolve().parents[2]
sys.path[:0] = [str(ROOT / "reference"), str(ROOT / "tests/inputs")]

import auditing
import complete
from audit import PROGRAM, STORED, Drawing, answer_file, damaged, expect, without_place

NOTE = "cvss: no vector was found\n"
THRESHOLDS = {"none": 0, "low": 0.1, "Medium": 4, "high": 7, "CRITICAL": 9, "0": 0, "3.9": 3.9, "7.5": 7.5, "8": 8, "9.8": 9.8,
              "10": 10}
FORMS = [], ["--json"], ["--json", "--differing"], ["--count"], ["--quiet"], ["--json", "--quiet"], ["--count", "--quiet"]


def run(arguments, given=b"", cwd=None):
    """The status, the lines of standard output and standard error."""
    done = subprocess.run([PROGRAM, "audit", *arguments], input=given, cwd=cwd, capture_output=True, check=False)
    return done.returncode, done.stdout.decode().split("\n")[:-1], done.stderr.decode()


def documents_in(data, by_line=None):
    """How many documents a file has."""
    if auditing.is_by_line(data) if by_line is None else by_line:
        lines = enumerate(auditing.reference.lines_of(data), 1)
        return sum(auditing.is_document({"line": number}, line) for number, line in lines)
    return int(auditing.is_document({}, data))


class Inputs:
    """Some inputs, of which the objects for all vectors and documents are known."""

    def __init__(self, inputs, names=None, by_line=None):
        names = [None] * len(inputs) if names is None else names
        self.documents = sum(documents_in(data, by_line) for data in inputs)
        self.answers = {allow: [members for data, name in zip(inputs, names)
                                for members in answer_file(data, allow, name, by_line)[1]] for allow in (False, True)}

    def wanted(self, form, minimum=None, fail_on=None, allow_incomplete=False):
        """The status, what is printed, and what is reported: for people how many lines are printed."""
        shown, fails = auditing.through(self.answers[allow_incomplete], minimum or 0, fail_on, allow_incomplete)
        if "--quiet" in form:
            return int(fails), [], ""
        if "--count" in form:
            return int(fails), auditing.severities(shown, allow_incomplete).splitlines(), ""
        if form:
            differing = [each for each in shown if "--differing" not in form or auditing.lines_about(each, allow_incomplete)]
            is_noted = form == ["--json"] and minimum is None and not fails and not differing
            return int(fails), differing, NOTE if is_noted else ""
        vectors = [members for members in shown if "at" in members]
        lines = sum(auditing.lines_about(members, allow_incomplete) for members in shown)
        return int(fails), lines, auditing.last_line(self.documents, vectors, allow_incomplete)

    def expect(self, arguments, form=(), given=b"", **asked):
        """Compares a run in a form."""
        form = list(form)
        status, printed, reported = run([*form, *arguments], given)
        if not form:
            printed = len(printed)
        elif "--json" in form:
            printed = [without_place(json.loads(line)) for line in printed]
        expect((status, printed, reported), self.wanted(form, **asked), f"cvss audit {form} {arguments}")


def try_counts():
    """Numbers by hand, and stored documents."""
    record = '{"vectorString":"AV:N/AC:L/Au:N/C:N/I:N/A:C","baseScore":%s}'
    cases = [("", 0, 0, 0), ("\n \n", 0, 0, 0), ("{}", 1, 0, 0), ("x", 0, 0, 0), (record % 7.8, 1, 1, 0), (record % 7, 1, 1, 1),
             ("\n".join([record % 7, "", record % 8, "x"]), 2, 2, 2), (f"[{record % 7},\n{record % 7.8}]", 1, 2, 1),
             ('{"vectorString":"CVSS:3.1/AV:N","baseScore":1,"version":"3.0"}', 1, 1, 3), ('{"vectorString":1}\n', 1, 1, 1)]
    for text, documents, vectors, disagreements in cases:
        line = (f"cvss: {documents} document{'s' * (documents != 1)}, {vectors} vector{'s' * (vectors != 1)},"
                f" {disagreements} disagreement{'s' * (disagreements != 1)}\n")
        expect(run([], text.encode())[2], line, text)
        for form in (["--json"], ["--json", "--differing"]):
            expect("document" in run(form, text.encode())[2], False, f"{form} {text}")
    paths = sorted(STORED.glob("*.json")) + [STORED / "lines.jsonl"]
    stored = Inputs([path.read_bytes() for path in paths])
    for allow_incomplete, options in ((False, []), (True, ["--allow-incomplete"])):
        stored.expect([*options, *paths], allow_incomplete=allow_incomplete)
        for path in paths:
            Inputs([path.read_bytes()], by_line=False).expect([*options, "--document", path], allow_incomplete=allow_incomplete)
    print(f"{len(cases)} inputs and {len(paths)} stored documents: as many lines and numbers as there should be")


def try_gates():
    """Answers by hand: of a vector that agrees, one that does not, one that lacks metrics, and a text that is no JSON."""
    high = '{"vectorString":"AV:N/AC:L/Au:N/C:N/I:N/A:C","baseScore":7.8}'
    critical = '{"vectorString":"CVSS:3.1/AV:N/AC:L/PR:N/UI:N/S:U/C:H/I:H/A:H","baseScore":1}'
    missing, error = '{"vectorString":"CVSS:3.1/AV:N"}', "x"
    disagrees = "1: baseScore: says 1, should be 9.8"
    cases = [([], high, 0, []), (["--fail-on", "7.8"], high, 1, []), (["--fail-on", "7.9"], high, 0, []),
             (["--min", "7.9", "--fail-on", "0"], high, 0, []), (["--min", "critical"], critical, 1, [disagrees]),
             (["--min", "9.9"], critical, 0, []), (["--min", "9.9"], missing, 1, ["1: missing: AC PR UI S C I A"]),
             (["--min", "9.9", "--allow-incomplete"], missing, 0, []), (["--fail-on", "0", "--allow-incomplete"], missing, 1, []),
             (["--quiet"], critical, 1, []), (["--quiet", "--min", "10"], critical, 0, []), (["--quiet"], error, 1, []),
             (["--quiet", "--fail-on", "HIGH"], high, 1, []), (["--min", "10"], error, 1, ["error: not JSON: line 1, column 1"]),
             (["--count"], high, 0, ["critical 0", "high 1", "medium 0", "low 0", "none 0", "rejected 0"]),
             (["--count"], f"{critical}\n{missing}\n{error}\n{high}", 1,
              ["critical 1", "high 1", "medium 0", "low 0", "none 0", "rejected 2"]),
             (["--count", "--min", "8"], f"{high}\n{high}", 0, ["critical 0", "high 0", "medium 0", "low 0", "none 0", "rejected 0"])]
    for arguments, text, status, printed in cases:
        expect(run(arguments, text.encode())[:2], (status, printed), f"cvss audit {arguments} over {text}")
    expect(run(["--json", "--min", "9"], high.encode()), (0, [], ""), "a vector that is passed over")
    print(f"{len(cases)} runs through gates end as they should")


def try_names():
    """Files whose names have characters that are not to be seen as themselves, or that JSON escapes."""
    names = ["plain", "two\nlines", "\x1b[2Jclear", "tab\t", 'quo"te', "back\\slash", "next\u0085line", "\u202eleft", "\u2028line",
             "\u00e9", "\x7f"]
    with tempfile.TemporaryDirectory() as room:
        for name in names:
            (Path(room) / name).write_text('{"vectorString":"AV:N/AC:L/Au:N/C:N/I:N/A:C","baseScore":7}')
        shown = [complete.shown_name(name.encode()) for name in names]
        wanted = [f"{name}:1: baseScore: says 7, should be 7.8" for name in shown]
        expect(run(names, cwd=room)[:2], (1, wanted), "the names of files")
        files = [json.loads(line)["file"] for line in run(["--json", *names], cwd=room)[1]]
        expect(files, names, "the names of files in objects")
        (Path(room) / names[1]).write_text("x")
        expect(run(names[:2], cwd=room)[1], wanted[:1] + [f"{shown[1]}: error: not JSON: line 1, column 1"], "an error in a file")
    print(f"{len(names)} names of files are shown as before other lines")


def drawn_inputs(draw, drawing, count):
    """Inputs of drawn documents, one a line or one in all, of which some are almost documents."""
    texts = [json.dumps(drawing.document(), ensure_ascii=draw.random() < 0.5).encode() for _ in range(count)]
    inputs = []
    while texts:
        own, texts = texts[:20], texts[20:]
        if draw.random() < 0.3:
            inputs.append(json.dumps(json.loads(own[0]), indent=1).encode())
        own = [damaged(draw, line) if draw.random() < 0.05 else line for line in own]
        inputs.append(b"".join(line + draw.choice((b"\n", b"\r\n", b"\n\n", b"\n \t\n")) for line in own))
    return inputs


def asked(draw):
    """A form, options, and what they mean."""
    form, options, meant = draw.choice(FORMS), [], {}
    for option, name in (("--min", "minimum"), ("--fail-on", "fail_on")):
        if draw.random() < 0.6:
            word = draw.choice(list(THRESHOLDS))
            options += [f"{option}={word}"] if draw.random() < 0.5 else [option, word]
            meant[name] = THRESHOLDS[word]
    if draw.random() < 0.5:
        options.append("--allow-incomplete")
        meant["allow_incomplete"] = True
    return form, options, meant


def compare_drawn(count, seed):
    draw = random.Random(seed)
    inputs = drawn_inputs(draw, Drawing(seed), count)
    with tempfile.TemporaryDirectory() as folder:
        paths = [Path(folder) / f"{number}.json" for number in range(len(inputs))]
        for path, data in zip(paths, inputs):
            path.write_bytes(data)
        runs = [(Inputs(inputs, [str(path) for path in paths]), paths, b"", 60)]
        for path, data in draw.sample(list(zip(paths, inputs)), min(5, len(inputs))):
            runs += [(Inputs([data]), [path], b"", 20), (Inputs([data]), [], data, 20)]
        for known, operands, given, times in runs:
            known.expect(operands, given=given)
            for _ in range(times):
                form, options, meant = asked(draw)
                known.expect([*options, *operands], form, given, **meant)
    print(f"{count} drawn documents (seed {seed}) in {len(inputs)} files: the lines, objects and numbers are those of"
          " reference/auditing.py")


def main():
    count = int(sys.argv[1]) if len(sys.argv) > 1 else 500
    seed = int(sys.argv[2]) if len(sys.argv) > 2 else random.randrange(10**6)
    try_counts()
    try_gates()
    try_names()
    compare_drawn(count, seed)


if __name__ == "__main__":
    main()

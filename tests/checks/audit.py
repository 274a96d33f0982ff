#!/usr/bin/env python3
"""Tries the built `cvss audit` from outside.

- Each document of tests/samples, in the shape that its tool writes, has planted errors: all are found, and nothing
  else.
- Files with one document a line and files that are one document are distinguished.
- Of a text that is no JSON the line and the column of the error are reported.
- Documents that are drawn in the form of each tool have planted errors: all are found, and nothing else.
- Drawn documents of all forms, and lines that are almost documents, are answered as by reference/auditing.py, one per
  line, in files or printed over many lines.

usage: tests/checks/audit.py [COUNT [SEED]]
"""
import json
import random
import re
import subprocess
import sys
import tempfile
from pathlib import Path

ROOT = Path(__file__).resolve().parents[2]
sys.path[:0] = [str(ROOT / "reference"), str(ROOT / "tests/inputs")]

import auditing
import hostile
import planted
import v2
import v3
import v4

PROGRAM = ROOT / "crates/cvss_command/out/cvss_command"
STORED = ROOT / "tests/samples"
# What is planted in the stored documents, by hand: the pointer, and the members that disagree or why it is found.
PLANTED = {
    "cargo_audit": [("/vulnerabilities/list/1/advisory", "error"), ("/vulnerabilities/list/2/advisory", "missing")],
    "csaf": [("/vulnerabilities/0/scores/1/cvss_v2", "baseScore")],
    "cve": [("/containers/cna/metrics/0/cvssV3_1", "baseSeverity"), ("/containers/cna/metrics/1/cvssV3_0", "version cvssV3_0")],
    "cyclonedx": [("/vulnerabilities/0/ratings/1", "method score severity"), ("/vulnerabilities/0/ratings/3", "severity"),
                  ("/vulnerabilities/0/ratings/6", "score"), ("/vulnerabilities/0/ratings/7", "error")],
    "github": [("/cvss_severities/cvss_v3", "score")],
    "grype": [("/matches/0/relatedVulnerabilities/0/cvss/0", "baseScore"), ("/matches/0/vulnerability/cvss/1", "baseScore"),
              ("/matches/0/vulnerability/cvss/2", "version")],
    "nvd": [("/vulnerabilities/0/cve/metrics/cvssMetricV31/2/cvssData", "exploitabilityScore impactScore"),
            ("/vulnerabilities/0/cve/metrics/cvssMetricV31/4/cvssData", "scope impactScore"),
            ("/vulnerabilities/1/cve/metrics/cvssMetricV2/0/cvssData", "baseSeverity exploitabilityScore impactScore"),
            ("/vulnerabilities/1/cve/metrics/cvssMetricV31/2/cvssData", "impactScore")],
    "osv": [("/severity/1", "type")],
    "spdx": [("/@graph/3", "security_score security_severity"), ("/@graph/5", "error"), ("/@graph/7", "security_severity")],
    "trivy": [("/Results/0/Vulnerabilities/0/CVSS/nvd", "V2Score"), ("/Results/0/Vulnerabilities/0/CVSS/redhat", "V3Score"),
              ("/Results/0/Vulnerabilities/0/CVSS/wrong", "V2Vector"), ("/Results/0/Vulnerabilities/0/CVSS/wrong", "V40Vector"),
              ("/Results/0/Vulnerabilities/1/CVSS/nvd", "missing")],
}


def audit(*arguments, given=b"", cwd=None):
    done = subprocess.run([PROGRAM, "audit", "--json", *arguments], input=given, cwd=cwd, capture_output=True, check=False)
    note = b"" if done.stdout else b"cvss: no vector was found\n"
    if done.returncode == 2 or done.stderr != note:
        sys.exit(f"cvss audit {arguments}: status {done.returncode}, {done.stderr}")
    return done.returncode, [without_place(json.loads(line)) for line in done.stdout.splitlines()]


def without_place(answer):
    """An answer without the line and the column of an error in a text that is no JSON, which `try_errors` tries."""
    if re.fullmatch(r"not JSON: line \d+, column \d+", answer.get("error", "")):
        answer["error"] = "not JSON"
    return answer


def finding(answer):
    if "differs" in answer:
        return " ".join(each["member"] for each in answer["differs"])
    return next((member for member in ("error", "missing") if member in answer), None)


def expect(actual, expected, what):
    if actual != expected:
        sys.exit(f"{what}: {actual}, and not {expected}")


def try_stored():
    names = sorted(path.stem for path in STORED.glob("*.json"))
    expect(names, sorted(PLANTED), "the stored documents")
    for name in names:
        path = STORED / f"{name}.json"
        answers, clean = auditing.answer({}, path.read_bytes())
        expect(audit(path), (1, answers), name)
        expect([(answer["at"], finding(answer)) for answer in answers if finding(answer)], PLANTED[name], name)
        one_line = json.dumps(json.loads(path.read_text())).encode()
        expect(audit(given=one_line), (1, auditing.answer({"line": 1}, one_line)[0]), name)
        expect(audit("--document", given=path.read_bytes()), (1, answers), name)
    paths = [STORED / f"{name}.json" for name in names]
    many = [answer for path in paths for answer in auditing.answer({"file": str(path)}, path.read_bytes())[0]]
    expect(audit(*paths), (1, many), "several files")
    print(f"{len(names)} stored documents: all that is planted is found, and nothing else")


def try_layouts():
    record = b'{"vectorString":"AV:N/AC:L/Au:N/C:N/I:N/A:C"}'
    cases = [(record, True), (record + b"\n", True), (b" \r\n\n" + record + b"\n" + record, True), (b"1\n[\n" + record + b"]\n", True),
             (b"[\n" + record + b",\n" + record + b"\n]\n", False), (b"\n\n {\n\"a\":" + record + b"}", False),
             (b"", True), (b" \n\t\r\n", True), (b"x\n" + record, False), (b"\xff\n" + record, False), (b"{}\n\xff\n", True),
             (b" " * 70_000 + record + b"\n[", True), (b"[" + b"\n" * 200_000 + record + b"]", False),
             (b"[" + b" " * 200_000 + record + b"]\n" + record, True)]
    with tempfile.TemporaryDirectory() as room:
        for number, (data, by_line) in enumerate(cases):
            path = Path(room) / f"{number}"
            path.write_bytes(data)
            expect(auditing.is_by_line(data), by_line, f"layout {number}")
            expect(audit(path), answer_file(data), f"layout {number}")
            expect(audit(given=data), answer_file(data), f"layout {number} on standard input")
            expect(audit("--document", path), answer_file(data, by_line=False), f"document {number}")
    print(f"{len(cases)} files with one document a line, or with one")


def try_errors():
    """The line and the column, in bytes, of the first byte that is not JSON: no contract promises them."""
    cases = [(b"x", 1, 1), (b'{"a":1,\n"b":}', 2, 5), (b'{"a":1,\n\n "b" 2}', 3, 6), ('["é", }]'.encode(), 1, 8)]
    for text, line, column in cases:
        done = subprocess.run([PROGRAM, "audit", "--document"], input=text, capture_output=True, check=False)
        expect((done.returncode, done.stdout.decode()), (1, f"error: not JSON: line {line}, column {column}\n"), f"the error in {text}")
    print(f"{len(cases)} texts that are no JSON: the line and the column of the error")


def answer_file(data, allow_incomplete=False, of_file=None, by_line=None):
    of_file = {} if of_file is None else {"file": of_file}
    parts = [(of_file | {"line": number}, line) for number, line in enumerate(auditing.reference.lines_of(data), 1)]
    answers, clean = [], True
    for source, text in parts if (auditing.is_by_line(data) if by_line is None else by_line) else [(of_file, data)]:
        more, agree = auditing.answer(source, text, allow_incomplete)
        answers += more
        clean &= agree
    return (0 if clean else 1), answers


def damaged(draw, line):
    """A document that probably is none any more."""
    at = draw.randrange(len(line))
    mark = draw.choice((b"e", b"0", b"-", b",", b'"', b"\\", b"]", b"1e999", b"\xff"))
    other = draw.choice((b"", line[at:at + 1] * 2, bytes([draw.randrange(256)]), mark))
    return (line[:at] + other + line[at + draw.choice((0, 1)):]).replace(b"\n", b" ")


def lines_of_documents(draw, count):
    """Lines of which most are documents, each with what is planted in it, or None for what is no such document."""
    lines = []
    for _ in range(count):
        document, _, found = planted.drawn(draw)
        lines.append((json.dumps(document, ensure_ascii=draw.random() < 0.5).encode(), found))
        chance = draw.random()
        if chance < 0.05:
            lines.append((damaged(draw, lines[-1][0]), None))
        elif chance < 0.1:
            lines.append((hostile.line(draw), None))
    return lines


def expect_planted(answers, documents_by_source):
    """Ends if in one of these documents something else is found than what is planted."""
    found = {source: [] for source in documents_by_source}
    for answer in answers:
        source = answer.get("file"), answer.get("line")
        if finding(answer) and source in found:
            reasons = [each["member"] for each in answer["differs"]] if "differs" in answer else [finding(answer)]
            found[source].append((answer["at"], sorted(reasons)))
    for source, wanted in documents_by_source.items():
        expect(sorted(found[source]), wanted, f"what is planted in {source}")


def try_layout(draw, room, lines, allow_incomplete):
    """Audits these lines: from standard input, in files with one document a line, or each in a file of its own. Returns
    how many vectors were found."""
    options = ["--allow-incomplete"] if allow_incomplete else []
    layout = draw.choice(("standard input", "file", "files", "each"))
    names = ["standard input"]
    if layout == "each":
        lines = [line for line in lines if line[1] is not None]
        files = {f"{number}.json": [line] for number, line in enumerate(lines)}
    else:
        names = hostile.NAMES[:1 if layout != "files" else 3]
        starts = [0, *sorted(draw.randrange(len(lines)) for _ in names[1:]), len(lines)]
        files = {name: lines[start:end] for name, start, end in zip(names, starts, starts[1:])}
    wanted, status, by_source = [], 0, {}
    for name, own in files.items():
        if layout == "each":
            data = own[0][0]
            if draw.random() < 0.7:
                data = json.dumps(json.loads(data), indent=draw.choice((1, "\t", "\r"))).encode()
        else:
            data = b"".join(text + draw.choice((b"\n", b"\n", b"\r\n")) for text, _ in own)
        (room / name).write_bytes(data)
        of_file = name if len(files) > 1 else None
        is_read_by_line = auditing.is_by_line(data)
        own_status, answers = answer_file(data, allow_incomplete, of_file, is_read_by_line)
        wanted += answers
        status |= own_status
        for number, (_, found) in enumerate(own, 1):
            if found is not None and (is_read_by_line or layout == "each"):
                by_source[of_file, number if is_read_by_line else None] = found
    if layout == "standard input":
        actual = audit(*options, given=data)
    else:
        actual = audit(*options, *files, cwd=room)
    if actual != (status, wanted):
        pairs = zip(actual[1], wanted)
        here, there = next((pair for pair in pairs if pair[0] != pair[1]), (len(actual[1]), len(wanted)))
        sys.exit(f"cvss audit, {layout}: {actual[0]}, {here}\nand not\n{status}, {there}")
    expect_planted(actual[1], by_source)
    return len(wanted)


def compare_planted(count, seed):
    draw = random.Random(seed)
    tried = vectors = 0
    with tempfile.TemporaryDirectory() as folder:
        while tried < count:
            lines = lines_of_documents(draw, min(500, count - tried))
            vectors += try_layout(draw, Path(folder), lines, draw.random() < 0.3)
            tried += sum(found is not None for _, found in lines)
    print(f"{tried} documents in the forms of {len(planted.FORMS)} tools (seed {seed}) with {vectors} vectors: all that"
          " is planted is found, and nothing else")


class Drawing:
    """Documents at random, of which about half say of their vectors what is right."""

    def __init__(self, seed):
        self.random = random.Random(seed)

    def pick(self, *choices):
        return self.random.choice(choices)

    def chance(self, part):
        return self.random.random() < part

    def text(self):
        version = self.pick("2.0", "3.0", "3.1", "3.1", "4.0")
        table, mandatory = {"2.0": (v2.METRICS, v2.MANDATORY), "4.0": (v4.METRICS, v4.MANDATORY)}.get(version, (v3.METRICS, list(v3.BASE)))
        if version[0] == "3" and self.chance(0.1):
            mandatory = mandatory[:self.random.randrange(8)]
        names = [name for name in table if name in mandatory or name not in v3.BASE and self.chance(self.pick(0, 0, 0.2))]
        pieces = [f"{name}:{self.pick(*table[name][1])}" for name in names]
        if self.chance(0.05):
            self.random.shuffle(pieces)
        if self.chance(0.05):
            pieces.append(self.pick("AV:N", "x", "E:Q", ""))
        return "/".join(([] if version == "2.0" else [f"CVSS:{version}"]) + pieces)

    def value(self, right):
        """What is right, or something else."""
        if right is not None and self.chance(0.6):
            return right
        return self.pick(right, None, 0, 10, 9.8, 5.0, 7.5, True, "9.8", "HIGH", "critical", "unknown", "none", "NOT_DEFINED", [], {},
                         self.random.randrange(101) / 10, "3.1", "2.0", "CVSSv3", "CVSSv31", "CVSSv2", "CVSS_V3", "OWASP")

    def vector(self):
        return self.text() if self.chance(0.95) else self.pick(None, "x", 3.1, [], {}, "CVSS:3.1/AV:N")

    def known(self, text):
        try:
            return auditing.vector_of(text) if isinstance(text, str) else None
        except auditing.reference.Refused:
            return None

    def record(self, text, known):
        members = {"vectorString": text}
        if known:
            for member, expected in known.expected().items():
                if self.chance(0.3):
                    members[member] = self.value(expected)
        if self.chance(0.1):
            members["score"] = self.value(known and known.score / 10)
        if self.chance(0.2):
            members[self.pick(*sorted(auditing.METRIC_MEMBERS))] = self.value("NOT_DEFINED")
        return members

    def form(self):
        text = self.vector()
        known = self.known(text)
        score = known and known.score / 10
        severity = known and known.severity_of(known.score)
        named = auditing.VERSION_NAMES[known.version] if known else "3.1"
        kind = self.random.randrange(9)
        if kind == 0:
            return self.record(text, known)
        if kind == 1:
            return {"vector_string": text, "score": self.value(score)}
        if kind == 2:
            return {"type": self.value(known and auditing.OSV_TYPES[known.version]), "score": text,
                    "vector": self.pick(None, f"({text})", f" {text}", str(text).lower())}
        if kind == 3:
            members = {"vector": text, "method": self.value(known and auditing.METHODS[known.version]), "score": self.value(score),
                    "severity": self.value(severity)}
        elif kind == 4:
            metrics = {"baseScore": self.value(score), "impactScore": self.value(known and known.sub_scores().get("impactScore", 0) / 10)}
            members = {"vector": text, "version": self.value(named), "metrics": metrics if self.chance(0.9) else self.pick([], None, 1)}
        elif kind == 5:
            members = {}
            for version in ("V2", "V3", "V40"):
                if self.chance(0.5):
                    own = self.vector()
                    members[f"{version}Vector"] = own
                    members[f"{version}Score"] = self.value((vector := self.known(own)) and vector.score / 10)
        elif kind == 6:
            return {self.pick("advisory", "advisory", "other"): {"id": "RUSTSEC-1", "cvss": text}}
        elif kind == 7:
            members = {"security_vectorString": text, "security_score": self.value(score), "security_severity": self.value(severity),
                    "type": self.pick(*auditing.SPDX_TYPES.values(), "security_Other", None)}
        else:
            parts = known.sub_scores() if known else {}
            members = {self.pick("cvssData", "cvssData", "cvssV3_1", "cvss_v2", "cvss_v4", "cvssV2", "cvssV3"): self.record(text, known),
                    "baseSeverity": self.value(severity and severity.upper()), "severity": self.value(severity and severity.upper())}
            for member in ("exploitabilityScore", "impactScore"):
                members[member] = self.value(self.pick(parts[member], max(0, parts[member])) / 10 if member in parts else None)
        return {name: value for name, value in members.items() if self.chance(0.9)}

    def document(self, depth=0):
        members = {**self.form(), **(self.form() if self.chance(0.2) else {})}
        for name in ("id", "cve", "ghsa_id", "VulnerabilityID", "spdxId", "cveMetadata"):
            if self.chance(0.08):
                members[name] = self.pick(f"{name}-{self.random.randrange(9)}", None, 1, {"id": "inner", "cveId": "own"})
        if depth < 3:
            for _ in range(self.random.randrange(3)):
                name = self.pick("a", "b/c", "d~e", "cvssData", "advisory", "é", "", "cvss_v3", "metrics")
                inner = self.document(depth + 1)
                if self.chance(0.2):
                    name = self.pick(*auditing.NAMED_VERSIONS)
                members[name] = inner if self.chance(0.6) else [self.pick(0, "x", None), inner]
        return members


def compare_drawn(count, seed):
    drawing = Drawing(seed)
    lines = [json.dumps(drawing.document(), ensure_ascii=drawing.chance(0.5)).encode() for _ in range(count)]
    for arguments, allow_incomplete in (((), False), (("--allow-incomplete",), True)):
        status, output = audit(*arguments, given=b"\n".join(lines))
        at = 0
        clean = True
        for number, line in enumerate(lines, 1):
            expected, agree = auditing.answer({"line": number}, line, allow_incomplete)
            clean &= agree
            if output[at:at + len(expected)] != expected:
                sys.exit(f"line {number}: {line.decode()}\n{output[at:at + len(expected)]}\nand not\n{expected}")
            at += len(expected)
        expect((status, len(output)), (0 if clean else 1, at), "the answers")
    print(f"{count} drawn documents (seed {seed}) with {at} vectors: the answers are those of reference/auditing.py")


def main():
    count = int(sys.argv[1]) if len(sys.argv) > 1 else 5_000
    seed = int(sys.argv[2]) if len(sys.argv) > 2 else random.randrange(10**6)
    try_stored()
    try_layouts()
    try_errors()
    compare_planted(count, seed)
    compare_drawn(count, seed)


if __name__ == "__main__":
    main()

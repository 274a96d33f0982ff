#!/usr/bin/env python3
"""A second implementation of what `cvss audit` prints, written from the public schemas alone.

Reads JSON documents, one per line of standard input, or as one document with `--document`, and writes
the answer to each: a JSON object for each location of a vector. It shares no code with the crates: its
answers are expected values for them.

usage: reference/auditing.py [--allow-incomplete] [--document] < DOCUMENTS
"""
import json
import re
import sys
from fractions import Fraction
from functools import lru_cache
from math import floor, isinf

import records
import reference
import scores
import setting
import v2
import v3
import v4

VERSION_NAMES = {20: "2.0", 30: "3.0", 31: "3.1", 40: "4.0"}
OSV_TYPES = {20: "CVSS_V2", 30: "CVSS_V3", 31: "CVSS_V3", 40: "CVSS_V4"}
METHODS = {20: "CVSSv2", 30: "CVSSv3", 31: "CVSSv31", 40: "CVSSv4"}
TRIVY = {20: "V2", 30: "V3", 31: "V3", 40: "V40"}
SPDX_TYPES = {version: f"security_Cvss{name}VulnAssessmentRelationship"
              for version, name in ((20, "V2"), (30, "V3"), (31, "V3"), (40, "V4"))}
# The names of members that say the version of what is in them: CVE records, CSAF and GitHub, NVD's API, its old feeds.
NAMED_VERSIONS = {
    "cvssV2_0": [20], "cvssV3_0": [30], "cvssV3_1": [31], "cvssV4_0": [40],
    "cvss_v2": [20], "cvss_v3": [30, 31], "cvss_v4": [40],
    "cvssMetricV2": [20], "cvssMetricV30": [30], "cvssMetricV31": [31], "cvssMetricV40": [40],
    "cvssV2": [20], "cvssV3": [30, 31], "baseMetricV2": [20], "baseMetricV3": [30, 31],
}
METRIC_MEMBERS = {member for table in (records.V2, records.V3, records.V4) for member, _ in table.values()}
# A value of CycloneDX's `vector` that was meant as a vector, though it may not be one.
LIKE_VECTOR = re.compile(r"[ (\[]?(CVSS|AV:)", re.IGNORECASE | re.ASCII)


# Two escapes that are a surrogate pair, half of one, or any other escape.
ESCAPE = re.compile(r"\\u[dD][89abAB][0-9a-fA-F]{2}\\u[dD][c-fC-F][0-9a-fA-F]{2}|(\\u[dD][89a-fA-F])|\\.")
STRING = re.compile(r'"(?:[^"\\]|\\.)*"')
DEEPEST = 127


class Vector:
    """A vector with its scores in tenths: `score` as a record says it, `overall` with all metrics in the vector."""

    def __init__(self, text):
        self.version, self.metrics = setting.read(text)
        self.canonical, self.score, _ = reference.read(text)
        self.overall, self.severity = scores.overall(self.version, self.metrics)
        self.groups = {"base": self.score}
        if self.version == 20:
            own = v2.scores(self.metrics)
        elif self.version < 40:
            own = v3.scores(self.version - 30, self.metrics)
        if self.version < 40:
            self.groups = dict(zip(("base", "temporal", "environmental"), own))

    def severity_of(self, tenths):
        return (v2 if self.version == 20 else v3).severity(tenths)

    def missing(self):
        if self.version not in (30, 31):
            return []
        return [name for name in v3.BASE if name not in self.metrics]

    @lru_cache(maxsize=10_000)
    def sub_scores(self):
        """Exploitability and impact as NVD gives them, rounded to the nearest tenth, which may be below 0."""
        if self.version == 40:
            return {}
        if self.version == 20:
            own = v2.exploitability(self.metrics), v2.impact(self.metrics, [None, None, None])
        else:
            own = v3.exploitability(self.metrics), v3.base_impact(self.metrics)
        return dict(zip(("exploitabilityScore", "impactScore"), (floor(x * 10 + Fraction(1, 2)) for x in own)))

    def has_member(self, member):
        """Whether a record has to have this member: all but the version, and the scores and severities of an optional group
        of which the vector has no metric."""
        if member in ("temporalScore", "temporalSeverity"):
            return any(name in self.metrics for name in scores.TEMPORAL)
        if member in ("environmentalScore", "environmentalSeverity"):
            return any(name in self.metrics for name in scores.ENVIRONMENTAL[self.version // 10])
        return member != "version"

    def expected(self):
        """What each member of the vector's record has to say; `None` for a metric that is absent."""
        table = {20: records.V2, 40: records.V4}.get(self.version, records.V3)
        name = VERSION_NAMES[self.version]
        members = {"version": name}
        for metric, (member, words) in table.items():
            value = self.metrics.get(metric)
            members[member] = None if value is None else records.word(name, words, value)
        for group, tenths in self.groups.items():
            members[f"{group}Score"] = tenths / 10
            if self.version != 20:
                members[f"{group}Severity"] = self.severity_of(tenths).upper()
        return members


@lru_cache(maxsize=10_000)
def vector_of(text):
    """The vector that a text is; documents often say it again."""
    return Vector(text)


def is_number(value):
    return isinstance(value, (int, float)) and not isinstance(value, bool)


def difference(member, says, expected):
    return {"member": member, "says": says, "is": expected}


def agrees(says, expected):
    if expected is None:
        return says in (None, "NOT_DEFINED")
    if isinstance(expected, str):
        return says == expected
    return is_number(says) and float(says) == expected


def text_difference(holder, member, expected):
    if holder.get(member) is not None and holder[member] != expected:
        yield difference(member, holder[member], expected)


def number_difference(holder, member, tenths):
    says = holder.get(member)
    is_text = isinstance(says, str) and re.match("[0-9]", says)
    if is_text or is_number(says) and float(says) != tenths / 10:
        yield difference(member, says, tenths / 10)


def sub_score_differences(vector, holder):
    for member, tenths in vector.sub_scores().items():
        says = holder.get(member)
        # below 0 it is the equation's own number
        if not is_number(says) or float(says) != tenths / 10:
            yield from number_difference(holder, member, max(0, tenths))


def severity_difference(holder, member, vector):
    if holder.get(member) != "unknown":
        yield from text_difference(holder, member, vector.severity_of(vector.score))


def of_record(vector, holder):
    expected = vector.expected()
    for member in sorted(holder):
        if member == "score":
            yield from number_difference(holder, member, vector.score)
        elif member in expected:
            if holder[member] is None and not vector.has_member(member):
                continue
            if not agrees(holder[member], expected[member]):
                yield difference(member, holder[member], expected[member])
        elif member in METRIC_MEMBERS and isinstance(holder[member], str) and holder[member] != "NOT_DEFINED":
            yield difference(member, holder[member], None)


def of_rating(vector, holder):
    yield from text_difference(holder, "method", METHODS[vector.version])
    if isinstance(holder.get("metrics"), dict):
        yield from number_difference(holder["metrics"], "baseScore", vector.score)
        yield from sub_score_differences(vector, holder["metrics"])
    yield from number_difference(holder, "score", vector.score)
    yield from severity_difference(holder, "severity", vector)
    yield from text_difference(holder, "version", VERSION_NAMES[vector.version])


def of_trivy(version):
    def differences(vector, holder):
        yield from number_difference(holder, f"{version}Score", vector.score)
        if TRIVY[vector.version] != version:
            yield difference(f"{version}Vector", f"{version}Vector", VERSION_NAMES[vector.version])
    return differences


def of_spdx(vector, holder):
    yield from number_difference(holder, "security_score", vector.score)
    yield from severity_difference(holder, "security_severity", vector)
    if holder.get("type") in SPDX_TYPES.values():
        yield from text_difference(holder, "type", SPDX_TYPES[vector.version])


def holds_rating(holder):
    """Whether `vector` is one of CVSS: by CycloneDX's method, or else by grype's metrics or how it begins."""
    method, text = holder.get("method"), holder["vector"]
    if method is not None:
        return isinstance(method, str) and method[:4].upper() == "CVSS" and method[:4].isascii()
    return isinstance(holder.get("metrics"), dict) or isinstance(text, str) and LIKE_VECTOR.match(text) is not None


def holds_osv(holder):
    text = holder["score"]
    is_prefixed = isinstance(text, str) and text.startswith("CVSS:")
    if not isinstance(holder.get("type"), str) or holder["type"] not in OSV_TYPES.values() and not is_prefixed:
        return False
    others = holder.get("vectorString") is not None or holder.get("vector_string") is not None
    return isinstance(holder["score"], str) or not others


def is_advisory(holder, name):
    return name == "advisory" and isinstance(holder["cvss"], str)


# For each form the member that holds the vector, whether the object has that form, and what disagrees.
FORMS = [
    ("vectorString", None, of_record),
    ("vector_string", None, lambda vector, holder: number_difference(holder, "score", vector.score)),
    ("score", lambda holder, _: holds_osv(holder),
     lambda vector, holder: text_difference(holder, "type", OSV_TYPES[vector.version])),
    ("vector", lambda holder, _: holds_rating(holder), of_rating),
    *((f"{version}Vector", None, of_trivy(version)) for version in ("V2", "V3", "V40")),
    ("cvss", is_advisory, lambda vector, holder: ()),
    ("security_vectorString", None, of_spdx),
]


def of_parent(vector, name, outer, parent):
    """What disagrees around the object that holds a vector, by the names of the two members that it is in."""
    if parent is None:
        return
    for each in (name, outer):
        if each in NAMED_VERSIONS and vector.version not in NAMED_VERSIONS[each]:
            yield difference(each, each, VERSION_NAMES[vector.version])
    severity = "baseSeverity" if name == "cvssData" else "severity" if outer == "baseMetricV2" else None
    if vector.version == 20 and severity is not None:
        yield from text_difference(parent, severity, vector.severity_of(vector.score).upper())
    if name == "cvssData" or outer in ("baseMetricV2", "baseMetricV3"):
        yield from sub_score_differences(vector, parent)


def id_of(holder):
    """The id that an object has, if it has one."""
    for path in (("cve", "id"), ("cveMetadata", "cveId"), ("ghsa_id",), ("id",), ("cve",), ("VulnerabilityID",), ("spdxId",)):
        value = holder
        for name in path:
            value = value.get(name) if isinstance(value, dict) else None
        if isinstance(value, str):
            return value
    return None


def locations(value, at="", own_id=None, name=None, outer=None, parent=None):
    """Each location of a vector: its pointer, its text, the id, what disagrees there, and what is around. The items of an
    array are seen as the member that it is."""
    if isinstance(value, list):
        for index, each in enumerate(value):
            yield from locations(each, f"{at}/{index}", own_id, name, outer, parent)
    elif isinstance(value, dict):
        nearest = id_of(value)
        own_id = own_id if nearest is None else nearest
        for member, has_form, disagreeing in FORMS:
            if value.get(member) is not None and (has_form is None or has_form(value, name)):
                yield at, value[member], own_id, lambda vector, d=disagreeing: [
                    *d(vector, value), *of_parent(vector, name, outer, parent)]
        for member in sorted(value):
            step = member.replace("~", "~0").replace("/", "~1")
            yield from locations(value[member], f"{at}/{step}", own_id, member, name, value)


def scores_of(vector):
    score = {"score": vector.overall / 10}
    if vector.version == 40:
        return {"nomenclature": v4.nomenclature(vector.metrics)} | score
    return {group: tenths / 10 for group, tenths in vector.groups.items()} | score


def answer_location(source, location, allow_incomplete):
    """The object for a location, and whether nothing is found there."""
    at, text, own_id, disagreeing = location
    members = {"at": at, **source}
    if own_id is not None:
        members["id"] = own_id
    if not isinstance(text, str):
        return {**members, "error": "not a string"}, False
    members["given"] = text
    try:
        vector = vector_of(text)
    except reference.Refused as reason:
        return {**members, "error": str(reason)}, False
    members |= {"vector": vector.canonical, "scores": scores_of(vector), "severity": vector.severity}
    missing, differs = vector.missing(), disagreeing(vector)
    if missing:
        members["missing"] = missing
    if differs:
        members["differs"] = differs
    return members, not differs and (allow_incomplete or not missing)


def no_constant(word):
    raise ValueError(word)


def double(word):
    value = float(word)
    if isinf(value):
        raise ValueError(word)
    return value


def integer(word):
    """An integer of at most 64 bits, or else a double."""
    value = double(word)
    return int(word) if -2 ** 63 <= int(word) < 2 ** 64 else value


def nests_too_deep(text):
    """Whether arrays and objects nest deeper than a document may, in a text that is JSON otherwise."""
    depth = 0
    for bracket in re.findall(r"[][{}]", STRING.sub("", text)):
        depth += 1 if bracket in "[{" else -1
        if depth > DEEPEST:
            return True
    return False


def parsed(text):
    """The document that a text is, in which no text has half of a surrogate pair (RFC 8259, 8.2) and each number is in
    the range of a double (6)."""
    try:
        document = json.loads(text, parse_constant=no_constant, parse_float=double, parse_int=integer)
    except RecursionError:
        raise ValueError("too deep") from None
    if any(escape.group(1) for escape in ESCAPE.finditer(text)) or nests_too_deep(text):
        raise ValueError("no document here")
    return document


def answer(source, text, allow_incomplete=False):
    """The objects that answer a document, and whether nothing is found in it."""
    if "line" in source and not text.strip(b" \t\r\n"):
        return [], True
    try:
        document = parsed(text.decode("utf-8"))
    except UnicodeDecodeError:
        return [{**source, "error": "not UTF-8"}], False
    except ValueError:
        return [{**source, "error": "not JSON"}], False
    answers = [answer_location(source, each, allow_incomplete) for each in locations(document)]
    return [members for members, _ in answers], all(agree for _, agree in answers)


def is_document(source, text):
    """Whether a text counts as a document: it is JSON, and no line that is passed over."""
    if "line" in source and not text.strip(b" \t\r\n"):
        return False
    try:
        parsed(text.decode("utf-8"))
    except ValueError:
        return False
    return True


def lines_about(members, allow_incomplete=False):
    """How many lines for people there are about a vector, whose object has these members."""
    if "error" in members:
        return 1
    return len(members.get("differs", ())) + (not allow_incomplete and "missing" in members)


def score_in(members, allow_incomplete=False):
    """The score by which a gate sees a vector, whose object has these members: none if it is rejected, or lacks base metrics
    that it may not lack."""
    if "error" in members or "missing" in members and not allow_incomplete:
        return None
    return members["scores"]["score"]


def through(answers, minimum=0, fail_on=None, allow_incomplete=False):
    """The objects that a gate does not pass over, and whether one of them is found, or fails."""
    shown, fails = [], False
    for members in answers:
        score = score_in(members, allow_incomplete)
        if score is None or score >= minimum:
            shown.append(members)
            is_high = None not in (score, fail_on) and score >= fail_on
            fails |= is_high or lines_about(members, allow_incomplete) > 0
    return shown, fails


def severities(answers, allow_incomplete=False):
    """How many of these objects are of vectors of each severity, and how many are of what is rejected."""
    names = ["rejected" if score_in(members, allow_incomplete) is None else members["severity"] for members in answers]
    return "".join(f"{name} {names.count(name)}\n" for name in ("critical", "high", "medium", "low", "none", "rejected"))


def counted(number, word):
    return f"{number} {word}" if number == 1 else f"{number} {word}s"


def last_line(documents, vectors, allow_incomplete=False):
    """What is counted of so many documents, whose vectors have these objects."""
    disagreements = sum(lines_about(members, allow_incomplete) for members in vectors)
    return (f"cvss: {counted(documents, 'document')}, {counted(len(vectors), 'vector')},"
            f" {counted(disagreements, 'disagreement')}\n")


def is_by_line(text):
    """Whether a file has one document a line: its first line that is not blank is one, or there is no such line."""
    first = text.lstrip(b" \t\r\n").split(b"\n")[0]
    return not first or answer({}, first)[0] not in ([{"error": "not UTF-8"}], [{"error": "not JSON"}])


def written(members):
    return json.dumps(members, sort_keys=True, separators=(",", ":"), ensure_ascii=False)


def main():
    text = sys.stdin.buffer.read()
    allow_incomplete = "--allow-incomplete" in sys.argv
    whole = [({}, text)] if "--document" in sys.argv else [
        ({"line": number}, line) for number, line in enumerate(reference.lines_of(text), 1)]
    clean = True
    for source, document in whole:
        answers, agree = answer(source, document, allow_incomplete)
        clean &= agree
        for members in answers:
            print(written(members))
    sys.exit(0 if clean else 1)


if __name__ == "__main__":
    main()

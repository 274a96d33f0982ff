#!/usr/bin/env python3
"""Writes random JSON documents in the forms that tools write, one per line, with planted errors.

Each says of its vectors what is right, by reference/auditing.py, except for what is planted: a score, a rating or
another member that is wrong, a member's name that says another version, a vector that is rejected, lacks base metrics
or is no string. Around it are objects that look like vectors and are none. The same seed gives the same documents.

usage: tests/inputs/planted.py COUNT [SEED]
"""
import json
import random
import sys
from pathlib import Path

sys.path.insert(0, str(Path(__file__).resolve().parents[2] / "reference"))

import auditing
import lines
import reference

OF_CVE = {20: "cvssV2_0", 30: "cvssV3_0", 31: "cvssV3_1", 40: "cvssV4_0"}
OF_CSAF = {20: "cvss_v2", 30: "cvss_v3", 31: "cvss_v3", 40: "cvss_v4"}
OF_NVD = {20: "cvssMetricV2", 30: "cvssMetricV30", 31: "cvssMetricV31", 40: "cvssMetricV40"}
# What NVD's feeds have, which its API replaced.
OF_FEED = {20: ("baseMetricV2", "cvssV2"), 30: ("baseMetricV3", "cvssV3"), 31: ("baseMetricV3", "cvssV3")}
# A member of the schemas of other versions alone, for each version.
OTHER_METRICS = {20: ("attackVector", "scope", "Safety"), 30: ("accessVector", "authentication", "Automatable"),
                 31: ("accessComplexity", "targetDistribution", "vulnIntegrityImpact"),
                 40: ("accessVector", "scope", "availabilityImpact")}
LINE_VERSIONS = {20: "v2", 30: "v3.0", 31: "v3.1", 40: "v4"}
WORDS = """NONE LOW MEDIUM HIGH CRITICAL High none low medium high critical NETWORK LOCAL UNCHANGED PARTIAL REQUIRED
X""".split()
NO_STRINGS = 3.1, 0, True, False, [], {}, ["AV:N"], {"AV": "N"}
OTHERS = ({"method": "OWASP", "vector": "SL:1/M:1/O:0/S:2", "score": 5, "severity": "high"},
          {"type": "Ubuntu", "score": "high"}, {"vectorString": None, "baseScore": 9.8},
          {"vector": "north", "score": 1}, {"cvss": "AV:N", "baseSeverity": "HIGH"},
          {"other": {"type": "ssvc", "content": {"version": "2.0.3"}}},
          {"score": "CVSS:3.1/AV:N"}, {"description": "CVSS:3.1/AV:N"})


class Planted:
    """A document being drawn, and what is planted in it: the object with each vector, and the members that are wrong
    there or why it is found."""

    def __init__(self, draw, rate):
        self.draw = draw
        self.rate = rate
        self.found = []

    def chance(self, part):
        return self.draw.random() < part

    def number(self):
        return f"CVE-2024-{self.draw.randrange(10_000):04}"

    def vector(self, versions=(20, 30, 31, 31, 40)):
        """The text of a vector, what it is, and its fault, if it has one."""
        kind = self.draw.choice(("base", "base", "full", "any"))
        text = lines.line(self.draw, LINE_VERSIONS[self.draw.choice(versions)], kind)
        known = auditing.vector_of(text)
        if not self.chance(self.rate / 3):
            return text, known, None
        fault = self.draw.choice(("error", "missing", "not a string"))
        if fault == "not a string":
            return self.draw.choice(NO_STRINGS), known, fault
        if fault == "missing" and known.version in (30, 31):
            front, *pieces = text.split("/")
            dropped = self.draw.choice([piece for piece in pieces if piece.split(":")[0].upper() in auditing.v3.BASE])
            text = "/".join([front, *(piece for piece in pieces if piece != dropped)])
            return text, auditing.vector_of(text), fault
        return self.rejected(text), known, "error"

    def rejected(self, text):
        for _ in range(20):
            other = self.draw.choice((text + "/", text + "/x", " " + text, text.lower(), text[:-1], text + "/E:Q",
                                      text + "\u00e9", text * 2, text[1:], "x"))
            try:
                reference.read(other)
            except reference.Refused:
                return other
        return "AV:N"

    def wrong(self, value):
        """Another value of the same kind."""
        if isinstance(value, float):
            choices = [self.draw.randrange(101) / 10, value + 0.05, value - 1, 0, 10, 11, str(value)]
            # a sub-score below 0 may be 0 too, and a string with a sign is none
            choices = [other for other in choices if value >= 0 or other and not isinstance(other, str)]
        elif value in auditing.SPDX_TYPES.values():
            choices = auditing.SPDX_TYPES.values()
        elif value in auditing.METHODS.values():
            choices = auditing.METHODS.values()
        else:
            choices = [*WORDS, *auditing.VERSION_NAMES.values()]
        return self.draw.choice([other for other in choices if other != value])

    def sub_scores(self, known):
        """Those of a vector, where one below 0 may be 0."""
        return {member: self.draw.choice((tenths, max(0, tenths))) / 10 for member, tenths in known.sub_scores().items()}

    def finish(self, holder, fault, places, already=()):
        """Makes some of the members wrong, each an object and a name in it, unless the vector has a fault itself."""
        members = set(already)
        if fault is None and places and self.chance(self.rate):
            for other, name in self.draw.sample(places, min(len(places), self.draw.choice((1, 1, 2, 3)))):
                other[name] = self.wrong(other[name])
                members.add(name)
        if fault in ("error", "not a string"):
            members = {"error"}
        elif fault == "missing" and not members:
            members = {"missing"}
        if members:
            self.found.append((holder, members))

    def record(self, text, known):
        """An object of FIRST's schemas, and the places in it that are compared."""
        holder = {"vectorString": text}
        for member, expected in known.expected().items():
            if expected is None:
                if self.chance(0.1):
                    holder[member] = "NOT_DEFINED"
            elif not known.has_member(member) and self.chance(0.2):
                holder[member] = None
            elif member in ("version", "baseScore", "baseSeverity") or self.chance(0.4):
                holder[member] = expected
        return holder, [(holder, name) for name in holder if name != "vectorString" and holder[name] is not None]

    def named_record(self, names):
        """A record under the name of its version, or, as an error, of another; or with a metric of another version."""
        text, known, fault = self.vector()
        holder, places = self.record(text, known)
        name = names[known.version]
        already = ()
        if fault is None and self.chance(self.rate / 3):
            other = self.draw.choice(OTHER_METRICS[known.version])
            holder[other] = self.draw.choice(WORDS)
            self.finish(holder, fault, places, (other,))
            return {name: holder}
        if fault is None and self.chance(self.rate / 3):
            name = self.draw.choice([other for other in names.values() if other != name])
            already = (name,)
        self.finish(holder, fault, places, already)
        return {name: holder}

    def several(self, make):
        return [make() if self.chance(0.85) else self.draw.choice(OTHERS) for _ in range(self.draw.randrange(1, 5))]

    def cve(self):
        scenarios = [{"lang": "en", "value": "GENERAL"}]
        records = self.several(lambda: {"format": "CVSS", "scenarios": scenarios, **self.named_record(OF_CVE)})
        split = self.draw.randrange(len(records) + 1)
        return {"dataType": "CVE_RECORD", "dataVersion": "5.1",
                "cveMetadata": {"cveId": self.number(), "state": "PUBLISHED"},
                "containers": {"cna": {"metrics": records[:split]},
                               "adp": [{"title": "CISA ADP Vulnrichment", "metrics": records[split:]}]}}

    def nvd_entry(self):
        text, known, fault = self.vector()
        holder, places = self.record(text, known)
        entry = {"source": "nvd@nist.gov", "type": "Primary", "cvssData": holder}
        entry |= self.sub_scores(known)
        if known.version == 20:
            entry["baseSeverity"] = known.severity_of(known.score).upper()
        places += [(entry, name) for name in entry if name not in ("source", "type", "cvssData")]
        name = OF_NVD[known.version]
        already = ()
        if fault is None and self.chance(self.rate / 3):
            name = self.draw.choice([other for other in OF_NVD.values() if other != name])
            already = (name,)
        self.finish(holder, fault, places, already)
        return name, entry

    def nvd(self):
        def vulnerability():
            metrics = {}
            for name, entry in (self.nvd_entry() for _ in range(self.draw.randrange(1, 5))):
                metrics.setdefault(name, []).append(entry)
            return {"cve": {"id": self.number(), "metrics": metrics, "weaknesses": [], "references": []}}
        return {"resultsPerPage": 2, "format": "NVD_CVE", "version": "2.0",
                "vulnerabilities": self.several(vulnerability)}

    def feed(self):
        """NVD's old feeds."""
        def item():
            impact = {}
            for versions in ((20,), (30, 31)):
                text, known, fault = self.vector(versions)
                holder, places = self.record(text, known)
                outer, name = OF_FEED[known.version]
                entry = self.sub_scores(known)
                if known.version == 20:
                    entry["severity"] = known.severity_of(known.score).upper()
                places += [(entry, member) for member in entry]
                self.finish(holder, fault, places)
                impact[outer] = {name: holder, **entry}
            return {"cve": {"CVE_data_meta": {"ID": self.number()}}, "impact": impact}
        return {"CVE_data_type": "CVE", "CVE_data_version": "4.0", "CVE_Items": self.several(item)}

    def osv_severity(self):
        text, known, fault = self.vector()
        holder = {"type": auditing.OSV_TYPES[known.version], "score": text}
        already = ()
        if fault is None and self.chance(self.rate):
            others = [other for other in auditing.OSV_TYPES.values() if other != holder["type"]]
            if text.startswith("CVSS:"):
                others += ["CVSS_V31", "cvss_v4", "CVSSv3"]
            holder["type"] = self.draw.choice(others)
            already = ("type",)
        self.finish(holder, fault, [], already)
        return holder

    def osv(self):
        affected = {"package": {"ecosystem": "PyPI", "name": "x"}, "severity": self.several(self.osv_severity)}
        return {"schema_version": "1.6.0", "id": "OSV-2024-1", "aliases": [self.number()],
                "severity": self.several(self.osv_severity), "affected": [affected]}

    def csaf(self):
        """CSAF 2.0 has scores, and 2.1 metrics."""
        def score():
            if self.chance(0.5):
                return {"products": ["P-1"], **self.named_record(OF_CSAF)}
            return {"products": ["P-2"], "content": self.named_record(OF_CSAF)}
        return {"document": {"category": "csaf_vex", "tracking": {"id": "EX-2024-1", "version": "1"}},
                "vulnerabilities": [{"cve": self.number(), "scores": self.several(score)}
                                    for _ in range(self.draw.randrange(1, 3))]}

    def github_score(self):
        text, known, fault = self.vector()
        holder = {"vector_string": text, "score": known.score / 10}
        self.finish(holder, fault, [(holder, "score")])
        return {OF_CSAF[known.version]: holder}

    def github(self):
        return {"ghsa_id": "GHSA-2222-3333-4444", "cve_id": self.number(), "severity": "high",
                "cvss_severities": self.github_score()}

    def rating(self):
        text, known, fault = self.vector()
        holder = {"source": {"name": "NVD"}, "score": known.score / 10, "severity": known.severity_of(known.score),
                  "method": auditing.METHODS[known.version], "vector": text}
        places = [(holder, name) for name in ("score", "severity", "method")]
        if self.chance(0.1):
            holder["severity"] = "unknown"
            places.remove((holder, "severity"))
        self.finish(holder, fault, places)
        return holder

    def cyclonedx(self):
        return {"bomFormat": "CycloneDX", "specVersion": "1.5", "version": 1,
                "vulnerabilities": [{"bom-ref": "x", "id": self.number(), "ratings": self.several(self.rating)}
                                    for _ in range(self.draw.randrange(1, 3))]}

    def grype_score(self):
        text, known, fault = self.vector()
        holder = {"source": "nvd@nist.gov", "version": auditing.VERSION_NAMES[known.version], "vector": text,
                  "metrics": {"baseScore": known.score / 10}, "vendorMetadata": {}}
        holder["metrics"] |= self.sub_scores(known)
        places = [(holder["metrics"], member) for member in holder["metrics"]]
        self.finish(holder, fault, [(holder, "version"), *places])
        return holder

    def grype(self):
        related = {"id": self.number(), "cvss": self.several(self.grype_score)}
        own = {"id": self.number(), "severity": "High", "cvss": self.several(self.grype_score)}
        return {"matches": [{"vulnerability": own, "relatedVulnerabilities": [related]}]}

    def trivy_source(self):
        holder = {}
        for name, versions in (("V2", (20,)), ("V3", (30, 31)), ("V40", (40,))):
            if self.chance(0.6):
                is_wrong = self.chance(self.rate / 3)
                text, known, fault = self.vector([each for each in (20, 30, 31, 40) if (each in versions) != is_wrong])
                holder[f"{name}Vector"], holder[f"{name}Score"] = text, known.score / 10
                self.finish(holder, fault, [(holder, f"{name}Score")], (f"{name}Vector",) if is_wrong else ())
        return holder

    def trivy(self):
        vulnerability = {"VulnerabilityID": self.number(), "Severity": "HIGH",
                         "CVSS": {"nvd": self.trivy_source(), "redhat": self.trivy_source()}}
        return {"SchemaVersion": 2, "Results": [{"Target": "x", "Vulnerabilities": [vulnerability]}]}

    def advisory(self):
        text, _, fault = self.vector()
        holder = {"id": "RUSTSEC-2024-0001", "package": "x", "cvss": text}
        # a text alone counts here
        self.finish(holder, None if fault == "not a string" else fault, [])
        return {"advisory": holder, "versions": {"patched": [">=1.2.3"]}}

    def cargo_audit(self):
        return {"database": {"advisory-count": 600},
                "vulnerabilities": {"found": True, "list": self.several(self.advisory)}}

    def assessment(self):
        text, known, fault = self.vector()
        holder = {"type": auditing.SPDX_TYPES[known.version], "spdxId": f"urn:{self.number()}",
                  "security_vectorString": text, "security_score": known.score / 10,
                  "security_severity": known.severity_of(known.score)}
        self.finish(holder, fault, [(holder, name) for name in ("security_score", "security_severity", "type")])
        return holder

    def spdx(self):
        return {"@context": "https://spdx.org/rdf/3.0.1/spdx-context.jsonld", "@graph": self.several(self.assessment)}

    def document(self, form):
        made = getattr(self, form)()
        if self.chance(0.1):
            made = {"a/b~c": [0, made], "": None, "\u00e9\U0001f600": "\u201c"}
        return made


FORMS = "cve", "nvd", "feed", "osv", "csaf", "github", "cyclonedx", "grype", "trivy", "cargo_audit", "spdx"


def pointers(value, at=""):
    """Each object in a document by its identity, with its pointer."""
    if isinstance(value, dict):
        yield id(value), at
    for name, each in value.items() if isinstance(value, dict) else enumerate(value) if isinstance(value, list) else ():
        yield from pointers(each, f"{at}/{str(name).replace('~', '~0').replace('/', '~1')}")


def drawn(draw):
    """A document, its form, and what is found in it: for each pointer the members that are wrong or the reason."""
    planted = Planted(draw, draw.choice((0, 0.1, 0.5)))
    form = draw.choice(FORMS)
    document = planted.document(form)
    at = dict(pointers(document))
    return document, form, sorted((at[id(holder)], sorted(members)) for holder, members in planted.found)


def main():
    draw = random.Random(int(sys.argv[2]) if len(sys.argv) > 2 else 2)
    for _ in range(int(sys.argv[1])):
        print(json.dumps(drawn(draw)[0], separators=(",", ":")))


if __name__ == "__main__":
    main()

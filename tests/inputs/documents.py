#!/usr/bin/env python3
"""Prints COUNT JSON documents in the form of NVD's, one per line, with one v3.1 vector each.

What a document says of its vector is right; with `differing` its score and its rating are random, and
with `nameless` the vector's member has another name, so that no vector is found.
usage: tests/inputs/documents.py COUNT [differing|nameless]
"""
import json
import random
import sys
from pathlib import Path

sys.path.insert(0, str(Path(__file__).resolve().parents[2] / "reference"))

import reference

LEVELS = {"N": "NONE", "L": "LOW", "H": "HIGH"}
METRICS = {
    "AV": ("attackVector", {"N": "NETWORK", "A": "ADJACENT_NETWORK", "L": "LOCAL", "P": "PHYSICAL"}),
    "AC": ("attackComplexity", {"L": "LOW", "H": "HIGH"}),
    "PR": ("privilegesRequired", LEVELS),
    "UI": ("userInteraction", {"N": "NONE", "R": "REQUIRED"}),
    "S": ("scope", {"U": "UNCHANGED", "C": "CHANGED"}),
    "C": ("confidentialityImpact", LEVELS),
    "I": ("integrityImpact", LEVELS),
    "A": ("availabilityImpact", LEVELS),
}


def record(draw, kind):
    """The record of a vector that is drawn at random."""
    values = {name: draw.choice(list(words)) for name, (_, words) in METRICS.items()}
    text = "CVSS:3.1/" + "/".join(f"{name}:{value}" for name, value in values.items())
    _, tenths, rating = reference.read(text)
    if kind == "differing":
        tenths, rating = draw.randrange(101), draw.choice(["low", "medium", "high", "critical"])
    told = {"version": "3.1", "vectorStrinG" if kind == "nameless" else "vectorString": text,
            "baseScore": tenths / 10, "baseSeverity": rating.upper()}
    for name, (member, words) in METRICS.items():
        told[member] = words[values[name]]
    return told


def document(draw, number, kind):
    metric = {"source": "nvd@example.org", "type": "Primary", "cvssData": record(draw, kind),
              "exploitabilityScore": 3.9, "impactScore": 5.9}
    match = {"vulnerable": True, "criteria": "cpe:2.3:a:vendor:product:*:*:*:*:*:*:*:*",
             "versionEndExcluding": "1.2.3"}
    english = "A flaw in the parser lets who can send a crafted request read what they should not. "
    spanish = "Un fallo en el analizador permite a un atacante leer datos. "
    return {"cve": {
        "id": f"CVE-2024-{number:05d}", "published": "2024-01-02T03:04:05.678",
        "lastModified": "2024-02-03T04:05:06.789", "vulnStatus": "Analyzed",
        "descriptions": [{"lang": "en", "value": english * 4}, {"lang": "es", "value": spanish * 4}],
        "metrics": {"cvssMetricV31": [metric]},
        "weaknesses": [{"type": "Primary", "description": [{"lang": "en", "value": "CWE-79"}]}],
        "configurations": [{"nodes": [{"operator": "OR", "negate": False, "cpeMatch": [match]}]}],
        "references": [{"url": f"https://example.org/advisories/{number:05d}",
                        "tags": ["Vendor Advisory", "Patch"]}]}}


def main():
    kind = sys.argv[2] if len(sys.argv) > 2 else ""
    draw = random.Random(7)
    for number in range(int(sys.argv[1])):
        print(json.dumps(document(draw, number, kind), separators=(",", ":")))


main()

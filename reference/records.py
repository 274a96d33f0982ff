"""The records of vectors, a second implementation: the members and words of FIRST's JSON schemas for CVSS."""
import json

LEVELS = "NONE LOW HIGH"
DEGREES = "LOW MEDIUM HIGH"
CIA = (("C", "confidentiality"), ("I", "integrity"), ("A", "availability"))
CIA_V4 = (("C", "Confidentiality"), ("I", "Integrity"), ("A", "Availability"))
REQUIREMENTS = {f"{letter}R": (f"{word}Requirement", DEGREES) for letter, word in CIA}

# For each metric the member, and the words of its values, which the first letters select except for those below.
V2 = {
    "AV": ("accessVector", "LOCAL ADJACENT_NETWORK NETWORK"),
    "AC": ("accessComplexity", "HIGH MEDIUM LOW"),
    "Au": ("authentication", "MULTIPLE SINGLE NONE"),
    **{letter: (f"{word}Impact", "NONE PARTIAL COMPLETE") for letter, word in CIA},
    "E": ("exploitability", "UNPROVEN PROOF_OF_CONCEPT FUNCTIONAL HIGH"),
    "RL": ("remediationLevel", "OFFICIAL_FIX TEMPORARY_FIX WORKAROUND UNAVAILABLE"),
    "RC": ("reportConfidence", "UNCONFIRMED UNCORROBORATED CONFIRMED"),
    "CDP": ("collateralDamagePotential", "NONE LOW LOW_MEDIUM MEDIUM_HIGH HIGH"),
    "TD": ("targetDistribution", "NONE LOW MEDIUM HIGH"),
    **REQUIREMENTS,
}
V3_BASE = {
    "AV": ("attackVector", "NETWORK ADJACENT_NETWORK LOCAL PHYSICAL"),
    "AC": ("attackComplexity", "LOW HIGH"),
    "PR": ("privilegesRequired", LEVELS),
    "UI": ("userInteraction", "NONE REQUIRED"),
    "S": ("scope", "UNCHANGED CHANGED"),
    **{letter: (f"{word}Impact", LEVELS) for letter, word in CIA},
}
V3 = {
    **V3_BASE,
    "E": ("exploitCodeMaturity", "UNPROVEN PROOF_OF_CONCEPT FUNCTIONAL HIGH"),
    "RL": ("remediationLevel", "OFFICIAL_FIX TEMPORARY_FIX WORKAROUND UNAVAILABLE"),
    "RC": ("reportConfidence", "UNKNOWN REASONABLE CONFIRMED"),
    **REQUIREMENTS,
}
V4_BASE = {
    "AV": ("attackVector", "NETWORK ADJACENT LOCAL PHYSICAL"),
    "AC": ("attackComplexity", "LOW HIGH"),
    "AT": ("attackRequirements", "NONE PRESENT"),
    "PR": ("privilegesRequired", LEVELS),
    "UI": ("userInteraction", "NONE PASSIVE ACTIVE"),
    **{f"V{letter}": (f"vuln{word}Impact", LEVELS) for letter, word in CIA_V4},
    **{f"S{letter}": (f"sub{word}Impact", LEVELS) for letter, word in CIA_V4},
}
V4 = {
    **V4_BASE,
    "E": ("exploitMaturity", "UNREPORTED PROOF_OF_CONCEPT ATTACKED"),
    **REQUIREMENTS,
    "S": ("Safety", "NEGLIGIBLE PRESENT"),
    "AU": ("Automatable", "NO YES"),
    "R": ("Recovery", "AUTOMATIC USER IRRECOVERABLE"),
    "V": ("valueDensity", "DIFFUSE CONCENTRATED"),
    "RE": ("vulnerabilityResponseEffort", "LOW MODERATE HIGH"),
    "U": ("providerUrgency", "CLEAR GREEN AMBER RED"),
}


def modified(base):
    """The modified metrics, which have their base metrics' words."""
    return {f"M{name}": ("modified" + member[0].upper() + member[1:], words) for name, (member, words) in base.items()}


V3.update(modified(V3_BASE))
V4.update(modified(V4_BASE))
V4["MSC"] = (V4["MSC"][0], "NEGLIGIBLE LOW HIGH")
for changed in ("MSI", "MSA"):
    V4[changed] = (V4[changed][0], "NEGLIGIBLE LOW HIGH SAFETY")

# Values that the first letter of a word does not select.
SPELLINGS = {
    "2.0": {"POC": "PROOF_OF_CONCEPT", "OF": "OFFICIAL_FIX", "TF": "TEMPORARY_FIX", "UC": "UNCONFIRMED",
            "UR": "UNCORROBORATED", "LM": "LOW_MEDIUM", "MH": "MEDIUM_HIGH"},
    "3": {"O": "OFFICIAL_FIX", "T": "TEMPORARY_FIX"},
    "4.0": {"Clear": "CLEAR", "Green": "GREEN", "Amber": "AMBER", "Red": "RED"},
}
TEMPORAL = ("E", "RL", "RC")


def word(version, words, value):
    if value in ("X", "ND"):
        return "NOT_DEFINED"
    spelled = SPELLINGS[version if version in SPELLINGS else "3"].get(value)
    return spelled or next(title for title in words.split() if title.startswith(value))


def is_environmental(version, name):
    return name in REQUIREMENTS or name in ("CDP", "TD") or (version != "2.0" and name.startswith("M"))


def groups_with_scores(version, names):
    """The groups whose scores a record has."""
    yield "base"
    if version != "4.0":
        if any(name in TEMPORAL for name in names):
            yield "temporal"
        if any(is_environmental(version, name) for name in names):
            yield "environmental"


def record(number, canonical, metrics, scores):
    """The text of the record's JSON object, with its members by their names and without spaces.

    The scores are those of expected.py, with their severities. `baseScore` of v4.0 is the score with all metrics, as
    publishers write it."""
    version = f"{number // 10}.{number % 10}"
    table = {"2.0": V2, "4.0": V4}.get(version, V3)
    members = {"version": version, "vectorString": canonical}
    for name, value in metrics.items():
        member, words = table[name]
        members[member] = word(version, words, value)
    for group in groups_with_scores(version, metrics):
        tenths, severity = scores["score" if version == "4.0" else group]
        members[f"{group}Score"] = tenths / 10
        if version != "2.0":
            members[f"{group}Severity"] = severity.upper()
    return json.dumps(members, separators=(",", ":"), sort_keys=True)

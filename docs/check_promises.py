#!/usr/bin/env python3
"""Checks three lists that become out of date.

Each public type that derives PartialEq or Clone has a law for it: two values are equal exactly if they are the same or
report the same, and a clone is that value; and if the type is Copy, that a clone needs no memory. A law is a clause of
a module `laws` or of `cvss_laws` that names the type's impl; of a metric, that of its impl of `MetricEnum` in `cvss`.

docs/CONTRACTS.md lists exactly the public calls with preconditions, by the last part of their names.

Each contract that a row of docs/CONTRACTS.md names exists. If it is a clause, it is one of a function that the row names,
or of any function if the row names a module or a type; otherwise it is a law, a trait or a definition.

usage: docs/check_promises.py    prints each type without a law, each wrong call and each wrong contract; status 1 if
                                 there are some
"""
import re
import sys

from check_shelves import ROOT, WITHOUT_PROMISES, signatures, sources

# effective values and classes of v4, which have a path only for a test; an explanation of them is public
SCORING = "cvss_score/src/v4/scoring"

DERIVED = re.compile(r"^#\[derive\(([^)]*)\)\]\n(?:#\[[^\n]*\n)*pub (?:struct|enum) (\w+)", re.M)
LAW = re.compile(r"⟦<(?:\w+::)?(\w+)(?:<'static>|<NUMBER>)? as (?:PartialEq|Clone)>⟧\.(eq|is_clone|is_infallible)")
METRIC = re.compile(r"^impl(?:<[^>]*>)? MetricEnum for (\w+)", re.M)
CLAUSE = re.compile(r"\b(?:ensures|requires) (\w+)")
DECLARED = re.compile(r"\b(?:fn|ghost|struct|trait|enum) (\w+)")
DEFINED = re.compile(r"^ *(?:(?:pub|abbrev|unfoldable|record|data) )+(\w+)", re.M)
CALL = re.compile(r"^    (?:final )?fn (\w+)(.*?)(?=^    [{}]|;$|{$)", re.M | re.S)


def crates():
    """The crates of which something is promised; of those for C, the types that C sees are."""
    return sorted({path.name for path in (ROOT / "crates").iterdir()} - WITHOUT_PROMISES)


def laws_for(path):
    """Which words of which types the laws cite that are in the crate of a file, or in its part of `cvss_laws`."""
    crate, _, *inside = path.relative_to(ROOT / "crates").parts
    part = inside[0].removesuffix(".rt") if crate in ("cvss_metric", "cvss_score", "cvss_vector") else crate.removeprefix("cvss_")
    if crate == "cvss_vector" and not re.fullmatch(r"v\d", part):
        part = "any"
    above = [folder / "laws.rt" for folder in path.parents if "src" in folder.parts]
    above.append(ROOT / "crates/cvss_laws/src" / f"{part}.rt")
    return {law for laws in above if laws.exists() for law in LAW.findall(laws.read_text(encoding="utf-8"))}


def metrics_with_law(path):
    """The metrics that implement `MetricEnum` in `cvss`, of the version of a file there or in `cvss_metric`."""
    crate, _, *inside = path.relative_to(ROOT / "crates").parts
    if crate not in ("cvss", "cvss_metric"):
        return set()
    impls = (ROOT / "crates/cvss/src" / inside[0].removesuffix(".rt") / "metric").rglob("*.rt")
    return {name for impl in impls for name in METRIC.findall(impl.read_text(encoding="utf-8"))}


def without_law():
    """Each public type without a law."""
    for crate in [*crates(), "cvss_ffi"]:
        files, exported = sources(crate)
        for path, is_public, text in files:
            found = laws_for(path) | laws_for(ROOT / "crates/cvss/src/lib.rt")
            metrics = metrics_with_law(path)
            for traits, name in DERIVED.findall(text):
                if SCORING in str(path) and path.stem != "explanation" or name in metrics or not (is_public or name in exported):
                    continue
                for trait, word in (("PartialEq", "eq"), ("Clone", "is_clone"), ("Copy", "is_infallible")):
                    if trait in traits.split(", ") and (name, word) not in found:
                        yield f"{path.relative_to(ROOT)}: no law says {word} of {name}"


def asking():
    """The public calls with preconditions."""
    for crate in crates():
        files, exported = sources(crate)
        for _, is_public, text in files:
            for name, signature in signatures(text, is_public, exported):
                calls = CALL.findall(signature) if signature.startswith("pub trait") else [(name, signature)]
                yield from (call.split("::")[-1] for call, said in calls if re.search(r"\brequires\b", said))


def listed():
    """The calls that docs/CONTRACTS.md lists with preconditions."""
    text = (ROOT / "docs" / "CONTRACTS.md").read_text(encoding="utf-8")
    rows = re.findall(r"^\| (`.*) \| ", text.split("## What calls ask for")[1].split("## ")[0], re.M)
    return {call.split("::")[-1] for row in rows for call in re.findall(r"`([\w:]+)`", row)} - {*crates()}


def text_of(pattern):
    """The text of all files of a pattern in `crates/`."""
    return "\n".join(path.read_text(encoding="utf-8") for path in (ROOT / "crates").glob(pattern))


def wrong_contracts():
    """Each contract that a row of docs/CONTRACTS.md names, and that does not exist there."""
    code, clauses, calls = text_of("*/src/**/*.rt"), {}, []
    parts = re.split(r"\bfn (\w+)", code)
    for function, said in zip(parts[1::2], parts[2::2]):
        clauses.setdefault(function, set()).update(CLAUSE.findall(said))
    named = {*DECLARED.findall(code), *DEFINED.findall(text_of("*/specs/**/*.antt")), *crates(), "ensures"}
    text = (ROOT / "docs" / "CONTRACTS.md").read_text(encoding="utf-8").split("## Each call")[1].split("\n## ")[0]
    for row in re.findall(r"^\| (?!call )(.*) \|$", text, re.M):
        call, *_, contracts = row.split(" | ")
        calls = [name.split("::")[-1] for name in re.findall(r"`([\w:]+)`", call)] or calls
        functions = calls if all(name in clauses or name in crates() for name in calls) else clauses
        said = set().union(*(clauses.get(name, set()) for name in functions))
        for name in re.findall(r"`([\w:]+)`", contracts):
            if name.split("::")[-1] not in said | named:
                yield f"CONTRACTS.md names {name} as a contract of {', '.join(calls)}, which has no such"


def main():
    wrong = list(without_law()) + list(wrong_contracts())
    wrong += [f"CONTRACTS.md does not list the preconditions of {call}" for call in sorted({*asking()} - listed())]
    wrong += [f"CONTRACTS.md lists {call}, which has no precondition" for call in sorted(listed() - {*asking()})]
    sys.exit("\n".join(wrong) or None)


if __name__ == "__main__":
    main()

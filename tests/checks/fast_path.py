#!/usr/bin/env python3
"""Checks that canonical vectors are recognised on the fast path, which no contract says: each call
of that path may decline any text, which is then read component by component, more slowly.

It asks the built `test_vectors`, by the mark `sight`, about the canonical text of each vector in
its stored lines that has all base metrics. Each call has to recognise the text, and to report the
stored score. Every value of every metric has to occur in these texts.

usage: tests/checks/fast_path.py
"""
import subprocess
import sys
from pathlib import Path

ROOT = Path(__file__).resolve().parents[2]
sys.path.insert(0, str(ROOT / "reference"))

import v2
import v3
import v4
from refused_memory import stored

# The metrics of each version by the first component of its texts, and those that a text must have.
VERSIONS = {
    "": (v2.METRICS, v2.MANDATORY),
    "CVSS:3.0": (v3.METRICS, list(v3.BASE)),
    "CVSS:3.1": (v3.METRICS, list(v3.BASE)),
    "CVSS:4.0": (v4.METRICS, v4.MANDATORY),
}


def parts(text):
    """The first component of a text, where it has a version, and its metrics."""
    components = text.split("/")
    version = components.pop(0) if text.startswith("CVSS:") else ""
    return version, components


def recognised():
    """The canonical texts that have to be recognised, with what is reported of each."""
    found = {}
    for mark, _, answer in stored("test_vectors"):
        if mark in ("", "v2", "v3", "v4") and not answer.startswith("error: "):
            text, score, *_ = answer.split(" ")
            version, components = parts(text)
            names = {component.split(":")[0] for component in components}
            if names.issuperset(VERSIONS[version][1]):
                rating = "v3" if version else "v2"
                found[text] = f"{text} {int(score.replace('.', ''))} {rating}"
    return found


def check_values(texts):
    """Every value of every metric occurs in the texts."""
    seen = {(version, component) for version, components in map(parts, texts)
            for component in components}
    for version, (metrics, _) in VERSIONS.items():
        for name, (_, values) in metrics.items():
            for value in values:
                if (version, f"{name}:{value}") not in seen:
                    sys.exit(f"no stored vector of {version or 'v2'} has {name}:{value}")


def main():
    found = recognised()
    check_values(found)
    done = subprocess.run([ROOT / "crates/test_vectors/out/test_vectors"], check=True, text=True,
                          input="".join(f"sight {text}\n" for text in found), capture_output=True)
    answers = done.stdout.splitlines()
    for (text, wanted), answer in zip(found.items(), answers, strict=True):
        if answer != wanted:
            sys.exit(f"{text}: `{answer}`, and not `{wanted}`")
    print(f"{len(found)} canonical vectors are recognised on the fast path")


if __name__ == "__main__":
    main()

#!/usr/bin/env python3
"""Writes each vector of v3.0 and of v3.1 with a changed scope, all base metrics and no other.

The last metric changes fastest; values are in the order of the specification's tables.

usage: tests/inputs/changed_scopes.py
"""
import itertools
import sys
from pathlib import Path

sys.path.insert(0, str(Path(__file__).resolve().parents[2] / "reference"))

import v3

VERSIONS = ["CVSS:3.0", "CVSS:3.1"]


def texts():
    choices = [[f"{name}:{value}" for value in (["C"] if name == "S" else weights)]
               for name, (_, weights) in v3.BASE.items()]
    return ["/".join(pieces) for pieces in itertools.product(VERSIONS, *choices)]


if __name__ == "__main__":
    print("\n".join(texts()))

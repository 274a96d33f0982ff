#!/usr/bin/env python3
"""usage: write.py LANGUAGE CODE CONSTANTS > FILE: one file in `c` or `go` of what wasm2c wrote for a module without memory, and its constants."""
import re
import sys

import to_c
import to_go

LANGUAGES = {"c": to_c, "go": to_go}


def main():
    language, code, constants = sys.argv[1:]
    with open(code, encoding="ascii") as file:
        code = file.read()
    with open(constants, "rb") as file:
        constants = file.read()
    accesses = sorted(set(re.findall(r"\(\*Z_envZ_(i\d\d_\w+)\)", code)))
    sys.stdout.write(LANGUAGES[language].file(code, constants, accesses))


if __name__ == "__main__":
    main()

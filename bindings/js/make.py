#!/usr/bin/env python3
"""Writes the generated files of the package: cvss.js, a script for CommonJS and for a page, and cvss.mjs, an ECMAScript
module. Both have the modules of src/ in one file, with the bytes of cvss.wasm, the words of bindings/metrics.json and
the version. Copies the licences.

usage: bindings/js/make.py [--check]    with --check names the files that are out of date; status 1 if there are some
"""
import json
import re
import sys
import zlib
from pathlib import Path

HERE = Path(__file__).resolve().parent
ROOT = HERE.parent.parent
# each after those that it needs at once
MODULES = ("metrics", "inflate", "module", "memory", "words", "error", "given", "vector", "score", "find")
NOTE = "// Written by bindings/js/make.py from bindings/js/src, cvss.wasm and bindings/metrics.json.\n"
IMPORT = re.compile(r"^import [^;]*;\n", re.M)
EXPORTED = re.compile(r"^export \{ (.*) \} from .*;$", re.M)
# the digits of base 85: printable, and none that a string or a page reads otherwise
DIGITS = "".join(chr(code) for code in range(33, 127) if chr(code) not in "\"$&'<>\\`")[:85]


def digits_of(data):
    """The bytes as text: five digits of base 85 for each four bytes, which zeros fill up."""
    words = (int.from_bytes(data[at:at + 4].ljust(4, b"\0"), "big") for at in range(0, len(data), 4))
    return "".join(DIGITS[word // 85 ** place % 85] for word in words for place in (4, 3, 2, 1, 0))


def generated():
    """The constants of src/generated.mjs, which is not a file."""
    words = json.dumps(json.loads((ROOT / "bindings/metrics.json").read_text()), separators=(",", ":"))
    yield f'const version = "{(ROOT / "VERSION").read_text().strip()}";'
    yield f"const TABLES = {words};"
    module = (HERE / "cvss.wasm").read_bytes()
    yield f'const DIGITS = "{DIGITS}";'
    yield f"const LENGTH = {len(module)};"
    deflate = zlib.compressobj(9, zlib.DEFLATED, -15)
    yield f'const TEXT = "{digits_of(deflate.compress(module) + deflate.flush())}";'


def body():
    """The modules without their imports and exports."""
    sources = [(HERE / f"src/{name}.mjs").read_text() for name in MODULES]
    assert not any(" as " in line for source in sources for line in IMPORT.findall(source)), "an import has another name"
    parts = [re.sub(r"^export ", "", IMPORT.sub("", source), flags=re.M) for source in sources]
    return "\n".join([*generated(), *parts])


def files():
    code = body()
    names = ", ".join(EXPORTED.findall((HERE / "src/index.mjs").read_text()))
    assert "</script" not in code and "<!--" not in code
    head = '(function (make) {\n  "use strict";\n'
    head += '  if (typeof module === "object" && module.exports) module.exports = make();\n'
    head += "  else globalThis.cvss = make();\n"
    yield "cvss.js", f'{NOTE}{head}}})(function () {{\n"use strict";\n{code}\nreturn {{ {names} }};\n}});\n'
    yield "cvss.mjs", f"{NOTE}{code}\nexport {{ {names} }};\n"
    for name in ("LICENSE-APACHE", "LICENSE-MIT"):
        yield name, (ROOT / name).read_text()


def main(arguments):
    if arguments not in ([], ["--check"]):
        sys.exit(__doc__)
    wrong = []
    for name, text in files():
        path = HERE / name
        if path.is_file() and path.read_text() == text:
            continue
        wrong.append(f"bindings/js/{name} is out of date: bindings/js/make.py writes it")
        if not arguments:
            path.write_text(text)
    sys.exit("\n".join(wrong) if arguments and wrong else None)


if __name__ == "__main__":
    main(sys.argv[1:])

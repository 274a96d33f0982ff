#!/usr/bin/env python3
"""usage: without_memory.py FIRST SECOND MODULE CONSTANTS

Makes of a module with a 64-bit memory, as text, one without a memory, which wasm2c can translate: each load and store becomes a call
of an imported function with the address. It is written to MODULE, and the module's constants to CONSTANTS.

FIRST and SECOND are the module linked with its constants at two addresses. The numbers that differ are addresses of constants, and
nothing else is; they become addresses from 2^62 on, where no processor has memory.
"""
import re
import sys

sys.path.insert(0, f"{sys.path[0]}/../wasm")
from text import items_of, read, write  # noqa: E402

AT = 1 << 62
ACCESS = re.compile(r"(i32|i64)\.(load|store)(8|16|32)?(_[su])?$")
BULK = {"memory.copy": ("i64", "i64", "i64"), "memory.fill": ("i64", "i32", "i64")}
ESCAPE = re.compile(r'\\([0-9a-f]{2}|[tnr"\'\\])|([^"\\])')
CONTROL = {"t": "\t", "n": "\n", "r": "\r"}


def bytes_of(literals):
    out = bytearray()
    for escaped, plain in ESCAPE.findall("".join(literals)):
        out += bytes.fromhex(escaped) if len(escaped) == 2 else (CONTROL.get(escaped, escaped) or plain).encode("latin-1")
    return bytes(out)


class Module:
    def __init__(self, first, second):
        (segment,), (other,) = items_of(first, "data"), items_of(second, "data")
        self.base = int(segment[2][1])
        self.distance = int(other[2][1]) - self.base
        self.imports = {}
        self.constants = self.merged_bytes(bytes_of(segment[3:]), bytes_of(other[3:]))
        # the word after `module` may be its name
        pairs = [pair for pair in zip(first, second, strict=True) if self.is_kept(pair[0])]
        self.items = [self.merged(*pair) for pair in pairs]

    @staticmethod
    def is_kept(item):
        return not isinstance(item, str) and item[0] not in ("data", "memory") and item[-1][0] != "memory"

    def moved(self, number, other):
        assert other - number == self.distance, (number, other)
        return AT + number - self.base

    def merged_bytes(self, first, second):
        out = bytearray(first)
        for at in range(0, len(first), 8):
            numbers = [int.from_bytes(each[at : at + 8], "little") for each in (first, second)]
            if numbers[0] != numbers[1]:
                out[at : at + 8] = self.moved(*numbers).to_bytes(8, "little")
        return bytes(out)

    def merged(self, first, second):
        if not isinstance(first, str):
            return self.called([self.merged(*pair) for pair in zip(first, second, strict=True)])
        if first == second:
            return first
        prefix = "offset=" if first.startswith("offset=") else ""
        return f"{prefix}{self.moved(*(int(each[len(prefix):]) for each in (first, second)))}"

    def called(self, item):
        """A load or a store as a call; anything else as it is."""
        name = item[0] if item and isinstance(item[0], str) else ""
        access = ACCESS.match(name)
        if not access and name not in BULK:
            return item
        operands = [each for each in item[1:] if not isinstance(each, str)]
        for immediate in item[1:]:
            if immediate[:7] == "offset=":
                operands[0] = ["i64.add", operands[0], ["i64.const", immediate[7:]]]
        if access:
            kind, verb = access.group(1, 2)
            heads = [["param", "i64", kind]] if verb == "store" else [["param", "i64"], ["result", kind]]
        else:
            heads = [["param", *BULK[name]]]
        name = name.replace(".", "_")
        self.imports[name] = ["import", '"env"', f'"{name}"', ["func", f"${name}", *heads]]
        return ["call", f"${name}", *operands]

    def text(self):
        imports = [self.imports[name] for name in sorted(self.imports)]
        return "\n".join(["(module", *map(write, imports + self.items), ")"])


def main():
    first, second, module, constants = sys.argv[1:]
    made = Module(*(read(open(name, encoding="ascii").read()) for name in (first, second)))
    with open(module, "w", encoding="ascii") as file:
        file.write(made.text())
    with open(constants, "wb") as file:
        file.write(made.constants)


if __name__ == "__main__":
    main()

#!/usr/bin/env python3
"""Gives the exported functions of a module 32-bit pointers and lengths, which JavaScript has as numbers.

The module, as text on standard input, has a 32-bit memory and functions with 64-bit pointers. Each export becomes a
function that extends its arguments, calls the exported one, and wraps the result, which fits since a memory has less
than 2^32 bytes. The number that says where free memory begins is written with 32 bits too. Nothing changes in memory: a usize
in a struct keeps its eight bytes.

A sum of which only the low 32 bits are used is computed with 32 bits, so that wasm-opt --low-memory-unused can make a number
that is added to an address part of the load or store. It may if no address below 1,024 is used: these are the last bytes of
the stack, and bindings/js/tests/module.mjs checks that the stack stays far above them.
"""
import sys

from text import items_of, read, write

WRAPPED = {"i64": "i32", "i32": "i32"}
EXTEND = {"i64": lambda given: ["i64.extend_i32_u", given], "i32": lambda given: given}
RESULT = {"i64": lambda call: ["i32.wrap_i64", call], "i32": lambda call: call}
# JavaScript has no call of them, and they would make the module larger
LEFT_OUT = (
    "cvss_metrics", "cvss_numbers", "cvss_rounded", "cvss_score_lines", "cvss_temporal_with_impact", "cvss_values",
)


def narrow_function(public, function):
    arguments = [part[-1] for part in function if part[0] == "param"]
    results = [part[-1] for part in function if part[0] == "result"]
    call = ["call", function[1]]
    call += [EXTEND[each](["local.get", str(index)]) for index, each in enumerate(arguments)]
    heads = [["param", WRAPPED[each]] for each in arguments] + [["result", WRAPPED[each]] for each in results]
    return ["func", ["export", public], *heads, RESULT[results[0]](call) if results else call]


def narrow_global(public, own):
    return ["global", ["export", public], "i32", low(own[-1])]


def low(number):
    """The low 32 bits of a number of 64 bits."""
    kind, *operands = number
    if kind == "i64.add":
        return ["i32.add", *map(low, operands)]
    if kind == "i64.const":
        return ["i32.const", str(int(operands[0]) & 0xFFFFFFFF)]
    return ["i32.wrap_i64", number]


def with_low_sums(item):
    if isinstance(item, str):
        return item
    item = [with_low_sums(part) for part in item]
    return low(item[1]) if item[0] == "i32.wrap_i64" else item


def main():
    module = with_low_sums(read(sys.stdin.read()))
    functions = {item[1]: item for item in items_of(module, "func")}
    own_globals = {item[1]: item for item in items_of(module, "global")}
    added = []
    for _, public, (kind, name) in items_of(module, "export"):
        if public.strip('"') in LEFT_OUT:
            continue
        if kind == "func":
            added.append(narrow_function(public, functions[name]))
        elif kind == "global":
            added.append(narrow_global(public, own_globals[name]))
    kept = [item for item in module if item[0] != "export" or item[2][0] == "memory"]
    print("(module", *map(write, kept[1:] + added), ")", sep="\n")


if __name__ == "__main__":
    main()

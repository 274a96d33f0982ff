#!/usr/bin/env python3
"""Puts the functions of a module, as text on standard input, into an order in which gzip finds more that is repeated: each next
to functions that have the same runs of instructions.
"""
import sys

from text import items_of, read, write

RUN = 4  # instructions
WINDOW = 20_000  # instructions, about as many as are in the 32 KiB in which gzip looks


def instructions_of(item):
    """The instructions of a function, each with its immediates and after its operands."""
    for part in item:
        if not isinstance(part, str):
            yield from instructions_of(part)
    yield " ".join(part for part in item if isinstance(part, str))


def ordered(functions):
    """The largest first, then always the one of which the window before it has the largest part of the runs."""
    lengths, runs = [], []
    for function in functions:
        instructions = list(instructions_of(function[2:]))
        lengths.append(len(instructions))
        runs.append(set(zip(*(instructions[first:] for first in range(RUN)))))
    order = [max(range(len(functions)), key=lengths.__getitem__)]
    left = [index for index in range(len(functions)) if index not in order]
    while left:
        window, size = set(), 0
        for index in reversed(order):
            window |= runs[index]
            size += lengths[index]
            if size > WINDOW:
                break
        following = max(left, key=lambda index: len(runs[index] & window) / (1 + len(runs[index])))
        order.append(following)
        left.remove(following)
    return [functions[index] for index in order]


def main():
    module = read(sys.stdin.read())
    others = [item for item in module[1:] if item[0] != "func"]
    print("(module", *map(write, others + ordered(items_of(module, "func"))), ")", sep="\n")


if __name__ == "__main__":
    main()

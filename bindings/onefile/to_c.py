"""Writes the functions of a module without memory in C."""
import os
import re

from statements import Function, functions

HEAD = """\
/*
 * CVSS vectors of v2, v3.0, v3.1 and v4.0: parse, normalize and score them. The header cvss.h says what each function does.
 *
 * This is the whole library in one file of C99, for any C compiler and system: cc -O2 program.c cvss.c
 *
 * It is made, and not meant to be edited: bindings/onefile/make of the project Yuntabek translates the WebAssembly module of the
 * proved library by wasm2c, and adds the functions of cvss.h. They do what is proved if wasm2c, that script, the functions before
 * and after the translated ones and the C compiler are right.
 *
 * Each load and store is checked: it reaches the stack and the constants of the library and what the caller has given, or the
 * program aborts. If CVSS_UNCHECKED is defined, they are not checked, and calls are faster.
 *
 * Copyright (c) 2026 The Yuntabek maintainers. Licensed under the Apache License 2.0 or the MIT license, at your choice.
 */
"""

# each is written only where it is used, since compilers warn of a function that is not
COUNTS = {
    "CTZ": """
#define I32_CTZ(x) ((u32)trailing_zeros(x, 32))
#define I64_CTZ(x) trailing_zeros(x, 64)

static u64 trailing_zeros(u64 x, u64 bits)
{
    u64 n = 0;
    while (n < bits && !(x >> n & 1))
        n++;
    return n;
}
""",
    "CLZ": """
#define I32_CLZ(x) ((u32)leading_zeros(x, 32))
#define I64_CLZ(x) leading_zeros(x, 64)

static u64 leading_zeros(u64 x, u64 bits)
{
    u64 n = 0;
    while (n < bits && !(x >> (bits - 1 - n) & 1))
        n++;
    return n;
}
""",
}


class C:
    # the module's globals, with their types: its stack pointer, and whether a call is going on
    globals = {"instance->w2c_g0": ("u64", "m->stack_pointer"), "instance->w2c_g1": ("u32", "m->is_in_call")}
    unreachable = "abort();"

    def number(self, digits, kind):
        return f"{digits}ull" if kind == "u64" else f"{digits}u"

    def sum(self, kind, types, sign, left, right):
        return f"({left} {sign} {right})"

    def shift(self, kind, types, sign, left, right):
        return f"({left} {sign} {masked(kind, right)})"

    def signed_shift(self, kind, types, signed, left, right):
        return f"({kind})(({signed}){left} >> {masked(kind, right)})"

    def compare(self, kind, types, sign, left, right):
        return f"(u32)({left} {sign} {right})"

    def signed_compare(self, kind, types, signed, sign, left, right):
        return f"(u32)(({signed}){left} {sign} ({signed}){right})"

    def is_zero(self, kind, types, value):
        return f"(u32)({value} == 0)"

    def select(self, kind, types, condition, left, right):
        condition = truth(condition)
        return f"({f'({condition})' if '?' in condition else condition} ? {left} : {right})"

    def cast(self, kind, types, casts, value):
        return f"{casts}{value}"

    def binary(self, kind, types, name, left, right):
        return {"DIV_U": f"({left} / {right})", "REM_U": f"({left} % {right})"}.get(name) or f"{name}({left}, {right})"

    def unary(self, kind, types, name, value):
        return f"{name}({value})"

    def access(self, name, given):
        return f"{name}({', '.join(['m', *given])})"

    def call(self, name, given):
        return f"{c_name(name)}({', '.join(['m', *given])})"

    def statement(self, made):
        return f"{made};"

    def assign(self, name, made):
        sign = re.match(rf"\({re.escape(name)} ([-+*&|^]) ((?:[^()]|\([^()]*\))*)\)$", made)
        return f"{name} {sign.group(1)}= {sign.group(2)};" if sign and not re.search("[?<>]", sign.group(2)) else f"{name} = {bare(made)};"

    def branch(self, condition, label):
        return f"if ({truth(condition)}) goto {label};"

    def if_(self, condition):
        return f"if ({truth(condition)}) {{"

    def switch(self, value):
        return f"switch ({bare(value)}) {{"

    def case(self, case, label):
        return f"{case}: goto {label};"

    def goto(self, label):
        return f"goto {label};"

    def label(self, label):
        return f"{label}:;"

    def return_(self, value):
        return f"return {bare(value)};"

    def plain(self, words):
        return words


def masked(kind, count):
    """A shift's count, of which only the lowest bits are used."""
    bits = int(kind[1:])
    number = re.match(r"\d+", count)
    return str(int(number.group()) % bits) if number else f"({count} & {bits - 1})"


def c_name(name):
    """The functions of cvss.h have other parameters."""
    return f"m_{name}" if name.startswith("cvss_") else name


def truth(made):
    """A condition, which need not be a number."""
    return bare(made[5:]) if made.startswith("(u32)(") and bare(made[5:]) != made[5:] else bare(made)


def bare(made):
    """Without parentheses around all of it."""
    if not made.startswith("(") or made.startswith(("(u", "(s")) and re.match(r"\([us]\d+\)", made):
        return made
    depth = 0
    for at, sign in enumerate(made):
        depth += (sign == "(") - (sign == ")")
        if depth == 0:
            return made[1:-1] if at == len(made) - 1 else made


def translated(code):
    heads, bodies = [], []
    for name, result, parameters, body in functions(code):
        given = ", ".join(["Memory *m", *(f"{kind} {each}" for each, kind in parameters)])
        head = f"static {result} {c_name(name)}({given})"
        function = Function(C(), parameters, body)
        declared = [
            f"{kind} {', '.join(each + ' = 0' * is_zero for each, is_zero in function.used(kind) if each not in dict(parameters))};"
            for kind in ("u32", "u64")
        ]
        heads.append(f"{head};")
        unused = [] if any(re.search(r"\bm\b", each) for each in function.lines) else ["(void)m;"]
        bodies += [head, "{", *(each for each in declared if not each.endswith(" ;")), *unused, *function.lines, "}"]
    return "\n".join(heads + bodies) + "\n"


def lines_of(constants):
    return re.sub(r"(.{1,119},)", r"\1\n", ",".join(map(str, constants)))


def access(name):
    loaded, verb, bits, signed = re.match(r"i(\d\d)_(load|store)(\d*)(_s)?", name).groups()
    stored = f"{'s' if signed else 'u'}{bits or loaded}"
    return f"{verb.upper()}({name}, {stored}, u{loaded})"


def part(name):
    with open(os.path.join(os.path.dirname(__file__), name), encoding="ascii") as file:
        return file.read()


def file(code, constants, accesses):
    memory = part("memory.c")
    memory = memory.replace("@CONSTANTS@", f"static const u8 constants[{len(constants)}] = {{\n{lines_of(constants)}\n}};")
    memory = memory.replace("@ACCESSES@", "\n".join(map(access, accesses)))
    counts = (text for name, text in COUNTS.items() if re.search(rf"= I\d\d_{name}\(", code))
    memory = memory.replace("@COUNTS@\n", "".join(counts) + "\n")
    return HEAD + memory + translated(code) + part("functions.c")

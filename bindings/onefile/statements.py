"""Reads what wasm2c writes for a module without memory, a statement at a time, and writes it again in C or Go, with fewer words.

wasm2c gives each value on WebAssembly's stack a variable, which is used once. Here a value that only reads is written where it is
used instead, unless something that it reads may change before, or the control flow comes in between.
"""
import re

VALUE = r"(?:instance->)?w2c_\w+|\d+u(?:ll)?"
STATEMENTS = [(re.compile(pattern.replace("@", f"({VALUE})") + "$"), kind) for pattern, kind in [
    (r"@ = @;", "copy"),
    (r"@ ([-+*&|^])= @;", "sum"),
    (r"@ (<<|>>)= \(@ & \d+\);", "shift"),
    (r"@ = \(u\d\d\)\(\((s\d\d)\)@ >> \(@ & \d+\)\);", "signed_shift"),
    (r"@ = @ ([=!<>]=|[<>]) @;", "compare"),
    (r"@ = \(u\d\d\)\(\((s\d\d)\)@ ([<>]=?) \(s\d\d\)@\);", "signed_compare"),
    (r"@ = !\(@\);", "is_zero"),
    (r"@ = @ \? @ : @;", "select"),
    (r"@ = ((?:\([us]\d+\))+)\(@\);", "cast"),
    (r"@ = (DIV_U|REM_U|I\d\d_ROT[LR])\(@, @\);", "binary"),
    (r"@ = (I\d\d_C[LT]Z)\(@\);", "unary"),
    (r"(?:@ = )?\(\*Z_envZ_(\w+)\)\(instance->Z_env_instance, (.*)\);", "access"),
    (r"(?:@ = )?w2c_(\w+)\(instance(?:, )?(.*)\);", "call"),
    (r"if \(@\) \{goto w2c_(\w+);\}", "branch"),
    (r"if \(@\) \{", "if_"),
    (r"switch \(@\) \{", "switch"),
    (r"(case \d+|default): goto w2c_(\w+);", "case"),
    (r"goto w2c_(\w+);", "goto"),
    (r"w2c_(\w+):;?", "label"),
    (r"return @;", "return_"),
    (r"(return;|\}|\} else \{)", "plain"),
    (r"UNREACHABLE;", "unreachable"),
]]
DEFINED = re.compile(r"^static (void|u32|u64) w2c_(\w+)\(Z_cvss_instance_t\* instance(?:, )?(.*?)\) \{\n(.*?)^\}\n", re.M | re.S)
# a longer value is written at once
LONGEST = 160
# what reads only: of these the values may be written later
PURE = ("copy", "sum", "shift", "signed_shift", "compare", "signed_compare", "is_zero", "select", "cast", "binary", "unary")


def functions(code):
    """The name, the type of the result, the parameters with their types, and the body of each function."""
    for result, name, given, body in DEFINED.findall(code):
        parameters = [(each.split()[1][4:], each.split()[0]) for each in given.split(", ") if each]
        yield name, result, parameters, re.sub(r",\s*\n\s*", ", ", body)


class Function:
    """Writes the body of a function with the words of a language."""

    def __init__(self, language, parameters, body):
        self.words, self.lines, self.waiting = language, [], {}
        self.reads_memory = self.is_unreachable = False
        self.types, self.initial = dict(parameters), []
        self.targets = set(re.findall(r"goto w2c_(\w+);", body))
        for line in body.splitlines():
            line = line.strip()
            declared = re.match(r"(u32|u64) (w2c_.*);$", line)
            if declared:
                self.declare(declared.group(1), declared.group(2).split(", "))
            elif line and not line.startswith("FUNC_"):
                self.read(line)
        self.remove_unread()

    def remove_unread(self):
        """Of a variable that is never read, its assignments, except what is called."""
        text = "\n".join(self.lines)
        for name in [each for each in self.types if re.match(r"[ij]\d", each)]:
            assigned = re.findall(rf"^{name} = .*$", text, re.M)
            if assigned and len(assigned) == len(re.findall(rf"\b{name}\b", text)):
                called = re.compile(rf"{name} = ((?:m\.)?(?:f\d|m_cvss).*)")
                self.lines = [called.sub(r"\1", each) for each in self.lines if called.match(each) or each not in assigned]
                text = "\n".join(self.lines)

    def declare(self, kind, names):
        for name in names:
            name, *value = name[4:].split(" = ")
            self.types[name] = kind
            if value:
                self.initial.append(name)

    def read(self, line):
        if line.startswith("}") or line[:-1].rstrip(":")[4:] in self.targets:
            self.is_unreachable = False
        if self.is_unreachable:
            return None
        self.reads_memory = False
        for pattern, kind in STATEMENTS:
            match = pattern.match(line)
            if match:
                return getattr(self, "read_pure" if kind in PURE else f"read_{kind}")(kind, *match.groups())
        raise SystemExit(f"a statement that is not known: {line}")

    # values

    def type_of(self, name):
        return self.words.globals[name][0] if name in self.words.globals else self.types[name[4:]]

    def value(self, name, kind=None):
        """What is written for a variable or a number."""
        if name[0].isdigit():
            return self.words.number(re.match(r"\d+", name).group(), "u64" if name.endswith("ull") else "u32")
        if name in self.words.globals:
            return self.words.globals[name][1]
        made, reads_memory = self.waiting.pop(name[4:], (name[4:], False))
        self.reads_memory |= reads_memory
        return made

    def given(self, names):
        return [self.value(name) for name in names.split(", ") if name]

    def is_on_stack(self, name):
        return re.match(r"w2c_[ij]\d+$", name)

    def read_pure(self, kind, target, *parts):
        if kind == "copy":
            made = self.value(parts[0])
        else:
            operands = [each for each in parts if re.match(VALUE, each)]
            others = [each for each in parts if not re.match(VALUE, each)]
            if kind in ("sum", "shift"):
                operands.insert(0, target)
            types = [self.type_of(each) if not each[0].isdigit() else None for each in operands]
            made = getattr(self.words, kind)(self.type_of(target), types, *others, *[self.value(each) for each in operands])
        self.assign(target, made, parts[0])

    def assign(self, target, made, source=""):
        name = target[4:]
        if self.is_on_stack(target):
            self.forget(name)
            if len(made) <= LONGEST:
                self.waiting[name] = made, self.reads_memory
                return
            self.write_readers(name)
            self.lines.append(self.words.assign(name, made))
            return
        if target in self.words.globals:
            _, word = self.words.globals[target]
            self.write_waiting(lambda made, _: word in made)
            self.lines.append(self.words.assign(word, made))
            return
        self.write_readers(name)
        self.lines.append(self.words.assign(name, made))
        if source and self.is_on_stack(source):
            # the value may stay on the stack
            self.waiting[source[4:]] = name, False

    def forget(self, target):
        """What was at this height of the stack and above it is no longer there."""
        for name in [each for each in self.waiting if int(each[1:]) >= int(target[1:])]:
            del self.waiting[name]

    def write_waiting(self, condition=lambda made, reads_memory: True):
        for name in list(self.waiting):
            if name in self.waiting and condition(*self.waiting[name]):
                self.write_now(name)

    def write_now(self, name):
        made, _ = self.waiting.pop(name)
        self.write_readers(name)
        self.lines.append(self.words.assign(name, made))

    def write_readers(self, variable):
        """Before a variable changes: the values that are made of what it is."""
        for name in list(self.waiting):
            if name in self.waiting and re.search(rf"\b{variable}\b", self.waiting[name][0]):
                self.write_now(name)

    # other statements

    def read_access(self, _, target, name, given):
        made = self.words.access(name, self.given(given))
        if target:
            self.reads_memory = True
            self.assign(target, made)
        else:
            self.write_waiting(lambda _, reads_memory: reads_memory)
            self.lines.append(self.words.statement(made))

    def read_call(self, _, target, name, given):
        made = self.words.call(name, self.given(given))
        words = [word for _, word in self.words.globals.values()]
        self.write_waiting(lambda made, reads_memory: reads_memory or any(word in made for word in words))
        if target:
            self.forget(target[4:])
            self.write_readers(target[4:])
        self.lines.append(self.words.assign(target[4:], made) if target else self.words.statement(made))

    def read_branch(self, _, condition, label):
        self.flow(self.words.branch(self.value(condition), label))

    def read_if_(self, _, condition):
        self.flow(self.words.if_(self.value(condition)))

    def read_switch(self, _, value):
        self.flow(self.words.switch(self.value(value)))

    def read_case(self, _, case, label):
        self.flow(self.words.case(case, label))

    def read_goto(self, _, label):
        self.flow(self.words.goto(label))
        self.is_unreachable = True

    def read_label(self, _, label):
        if label in self.targets:
            self.flow(self.words.label(label))

    def read_return_(self, _, value):
        self.lines.append(self.words.return_(self.value(value)))
        self.waiting.clear()
        self.is_unreachable = True

    def read_plain(self, _, words):
        self.flow(self.words.plain(words))
        self.is_unreachable = words.startswith("return")

    def read_unreachable(self, _):
        self.waiting.clear()
        self.lines.append(self.words.unreachable)
        self.is_unreachable = True

    def flow(self, line):
        self.write_waiting()
        self.lines.append(line)

    def used(self, kind):
        """The variables of a type that are used, and whether they begin as 0."""
        text = "\n".join(self.lines)
        names = set(re.findall(r"\b[a-z]\d+\b", text))
        return [(name, name in self.initial) for name, each in self.types.items() if each == kind and name in names]

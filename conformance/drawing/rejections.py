"""Texts that are rejected, each with one error, and some with two of which the first is reported."""
from itertools import permutations

from .rows import BASE, FRONTS, METRICS, options, rejected
from .texts import bases, full_vector, spelled

VERSIONS = ("1.0 1 2 2.0 2.1 3 3.00 03.0 3.1.0 3.2 3.10 3,1 30 31 4 4.00 4.1 5.0 v3.1 v4.0 .1 3. . "
            "10.0 X").split()
PREFIXES = "cvss Cvss CVS CVSSS CVSS3 VSS AV CVSS2 CVSSv3".split() + ["", " CVSS", "CVSS "]
BLANKS = [" ", "\t", "\v", "\f", "\r", "\xa0", "\u2003", "\u200b", "\ufeff", "\0"]
# Letters beyond ASCII that become ASCII letters, or look like them, when their case is changed.
LOOKALIKES = {"S": "\u017f", "K": "\u212a", "I": "\u0131", "A": "\uff21", "C": "\u0421",
              "N": "\uff2e", "H": "\u041d", "L": "\u216c", "U": "\uff35"}
# Bytes that are not UTF-8: lone, cut short, overlong, surrogates, past the last scalar value.
NO_TEXT = [
    b"\x80", b"\xff", b"\xc3", b"\xe2\x82", b"\xf0\x9f\x92", b"\xc0\xaf", b"\xc1\xbf",
    b"\xe0\x80\xaf", b"\xf0\x80\x80\xaf", b"\xed\xa0\x80", b"\xed\xbf\xbf", b"\xf4\x90\x80\x80",
    b"\xf8\x88\x80\x80\x80", b"N\xff", b"\xffN"]


def pieces_of(version, vector):
    return FRONTS[version] + [f"{name}:{value}" for name, value in vector.items()]


def base_pieces(version):
    return pieces_of(version, bases(version)[0])


def replaced(pieces, at, *others):
    return "/".join([*pieces[:at], *others, *pieces[at + 1:]])


def components(version):
    """Each segment without a colon, with two, empty, doubled in its colon, or none."""
    pieces = base_pieces(version)
    for at, piece in enumerate(pieces):
        for spoilt in (piece.replace(":", ""), piece + ":", ":" + piece, piece.replace(":", "::"),
                       piece.replace(":", "="), ""):
            yield replaced(pieces, at, spoilt)
    for at in range(len(pieces) + 1):
        yield "/".join([*pieces[:at], "", *pieces[at:]])
    whole = "/".join(pieces)
    yield from ("", "/", "//", ":", ":/", "a", "CVSS", pieces[0])
    yield from (whole.replace("/", "\\"), whole.replace("/", " "), f"({whole})", whole + "/#")


def versions(version):
    """Other versions before the base metrics, and no version."""
    base = [f"{name}:{value}" for name, value in bases(version)[0].items()]
    for other in VERSIONS:
        yield "/".join(["CVSS:" + other, *base])
    for front in FRONTS.values():
        if front != FRONTS[version] and not (version[0] == "3" and front and front[0][5] == "3"):
            yield "/".join(front + base)
    for prefix in PREFIXES if FRONTS[version] else ():
        yield "/".join([f"{prefix}:{version}", *base])
    if FRONTS[version]:
        yield "/".join(base[:1] + FRONTS[version] + base[1:])
        yield "/".join(FRONTS[version] * 2 + base)


def unknown_names(version):
    """Each name of other versions after the base metrics, and names that no version has."""
    foreign = dict.fromkeys(name for metrics in METRICS.values() for name in metrics
                            if (name.upper() if FRONTS[version] else name) not in METRICS[version])
    for name in [*foreign, "", "XX", "AVV", "A V", "Q", "MM", "MMAV", "CVSS", "A" * 1000]:
        yield "/".join([*base_pieces(version), name + ":N"])


def foreign_values(version):
    """Each metric with each spelling of its version that is not its own, with none, and others."""
    spellings = dict.fromkeys(value for name in METRICS[version]
                              for value in spelled(version, name))
    base = bases(version)[0]
    for name in METRICS[version]:
        own = [value.upper() for value in spelled(version, name)]
        for value in [*spellings, "", "0", own[0] * 2]:
            if value.upper() not in own:
                yield "/".join(pieces_of(version, {**base, name: value}))


def repeats(version):
    """Each metric twice, with the same value and with the next, at the end and next to itself."""
    vector = full_vector(version)
    pieces = pieces_of(version, vector)
    for at, (name, value) in enumerate(vector.items(), len(FRONTS[version])):
        values = spelled(version, name)
        other = values[(values.index(value) + 1) % len(values)]
        yield "/".join([*pieces, f"{name}:{value}"])
        yield "/".join([*pieces, f"{name}:{other}"])
        yield replaced(pieces, at, pieces[at], f"{name}:{other}")


def missing(version):
    """v2, v4: each base metric left out, each left alone, and all left out."""
    if version[0] == "3":
        return
    vector = full_vector(version)
    for name in BASE[version]:
        yield "/".join(pieces_of(version, {n: v for n, v in vector.items() if n != name}))
        yield "/".join(pieces_of(version, {n: vector[n] for n in BASE[version] if n != name}))
        yield "/".join(FRONTS[version] + [f"{name}:{vector[name]}", f"E:{vector['E']}"])
    yield "/".join(pieces_of(version, {name: vector[name] for name in options(version)}))


def cases(version):
    """v2: each name or value in another case; v3, v4: the prefix in another case."""
    pieces = pieces_of(version, full_vector(version))
    if version == "2.0":
        for at, piece in enumerate(pieces):
            name, value = piece.split(":")
            for spoilt in (f"{name.swapcase()}:{value}", f"{name}:{value.lower()}", piece.lower()):
                yield replaced(pieces, at, spoilt)
        yield replaced(pieces, 2, "AU:S")
    else:
        yield from (replaced(pieces, 0, pieces[0].lower()), replaced(pieces, 0, pieces[0].title()))


def blanks(version):
    """Spaces and invisible marks, before and after a text, a segment and a value."""
    pieces = base_pieces(version)
    for blank in BLANKS:
        yield blank + "/".join(pieces)
        # A line may end in a carriage return, which is no part of its text.
        yield "/".join(pieces) + blank + ("" if blank != "\r" else "\t")
        for at in (1, len(pieces) - 1):
            yield replaced(pieces, at, blank + pieces[at])
            yield replaced(pieces, at, pieces[at].replace(":", ":" + blank))
            yield replaced(pieces, at, pieces[at].replace(":", blank + ":"))
        yield blank.join(pieces)


def lookalikes(version):
    """Letters beyond ASCII instead of ASCII letters."""
    pieces = pieces_of(version, full_vector(version))
    for at, piece in enumerate(pieces):
        for letter, other in LOOKALIKES.items():
            if letter in piece:
                yield replaced(pieces, at, piece.replace(letter, other))


def no_text(version):
    """Bytes that are not UTF-8, as a value, as a name and after the text; each lone one as a
    value."""
    pieces = [piece.encode() for piece in base_pieces(version)]
    for byte in range(0x80, 0x100):
        yield b"/".join([*pieces[:-1], b"A:" + bytes([byte])])
    for spoilt in NO_TEXT:
        yield b"/".join([*pieces[:-1], b"A:" + spoilt])
        yield b"/".join([*pieces, spoilt + b":N"])
        yield b"/".join(pieces) + spoilt


def first_faults(version):
    """Two errors in one text, of each two kinds in both orders."""
    faults = ["AV", "AV:N:N", "QQ:N", "AV:Q", "RC:Q", "PR:", base_pieces(version)[1]]
    for first, second in permutations(faults, 2):
        yield "/".join([*base_pieces(version), first, second])
        yield "/".join([*FRONTS[version], first, *base_pieces(version)[2:], second])


CLASSES = (
    ("component", components), ("version", versions), ("unknown-name", unknown_names),
    ("foreign-value", foreign_values), ("repeat", repeats), ("missing", missing),
    ("refused-case", cases), ("blank", blanks), ("lookalike", lookalikes), ("no-text", no_text),
    ("two-faults", first_faults),
)


def rows():
    for reason, draw in CLASSES:
        for version in FRONTS:
            for text in draw(version):
                yield rejected(reason, text if isinstance(text, bytes) else text.encode())

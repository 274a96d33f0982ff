"""Texts of all versions: values of metrics, values not defined, orders, cases, missing metrics."""
from .rows import BASE, FRONTS, METRICS, UNDEFINED, accepted, base_vector, in_order, options

# Two vectors of the base metrics of each version, in printing order; in v3 their scopes differ.
BASES = {
    "2.0": ("A M S P P C", "L H M N C P"),
    "3.0": ("A L L N U L H L", "L H L R C H L N"),
    "3.1": ("A L L N U L H L", "L H L R C H L N"),
    "4.0": ("A L N L N L H L L N L", "L H P L P H L N N H L"),
}


def bases(version):
    return [base_vector(version, spellings) for spellings in BASES[version]]


def spelled(version, name):
    return list(METRICS[version][name][1])


def full_vector(version):
    """All metrics, the optional ones at their second spelling, which weighs."""
    return bases(version)[0] | {name: spelled(version, name)[1] for name in options(version)}


def metric_values(version):
    """Each value of each metric."""
    for base in bases(version):
        for name in METRICS[version]:
            for value in spelled(version, name):
                yield in_order(version, {**base, name: value}), None


def not_defined(version):
    """Each optional metric not defined, alone and among all others, and left out; and all."""
    undefined = dict.fromkeys(options(version), UNDEFINED[version])
    for base in bases(version):
        yield base, None
        yield base | undefined, None
        for name in undefined:
            yield in_order(version, base | {name: undefined[name]}), None
    full = full_vector(version)
    for name in undefined:
        yield full | {name: undefined[name]}, None
        yield {other: value for other, value in full.items() if other != name}, None


def in_other_orders(version):
    """Each rotation, each swap of neighbours, the reverse and the alphabetic orders."""
    vector = full_vector(version)
    pieces = [f"{name}:{value}" for name, value in vector.items()]
    orders = [pieces[turn:] + pieces[:turn] for turn in range(len(pieces))]
    orders += [pieces[:at] + [pieces[at + 1], pieces[at]] + pieces[at + 2:]
               for at in range(len(pieces) - 1)]
    orders += [pieces[::-1], sorted(pieces), sorted(pieces, reverse=True)]
    base = [f"{name}:{vector[name]}" for name in BASE[version]]
    for order in orders:
        yield vector, "/".join(FRONTS[version] + order)
    for order in (base[::-1], sorted(base)):
        yield {name: vector[name] for name in BASE[version]}, "/".join(FRONTS[version] + order)


def in_other_cases(version):
    """v3, v4: all components, names, values, and each component in lower case, or in turns."""
    vector = full_vector(version)
    pieces = [f"{name}:{value}" for name, value in vector.items()]
    names = [f"{name.lower()}:{value}" for name, value in vector.items()]
    values = [f"{name}:{value.lower()}" for name, value in vector.items()]
    upper, lower = [piece.upper() for piece in pieces], [piece.lower() for piece in pieces]
    swapped = [piece.swapcase() for piece in pieces]
    turns = [low if at % 2 else piece for at, (low, piece) in enumerate(zip(lower, pieces))]
    single = [pieces[:at] + [lower[at]] + pieces[at + 1:] for at in range(len(pieces))]
    for cased in [names, values, upper, lower, swapped, turns, *single]:
        yield vector, "/".join(FRONTS[version] + cased)


def incomplete(version):
    """v3: each choice of base metrics that is not whole nor empty, and optional metrics alone."""
    base = base_vector(version, "N L N N C H L H")
    for choice in range(1, 2 ** len(base) - 1):
        yield {name: base[name] for at, name in enumerate(base) if choice >> at & 1}, None
    for name in options(version):
        yield {name: spelled(version, name)[1]}, None


CLASSES = (
    ("metric-value", metric_values, FRONTS),
    ("not-defined", not_defined, FRONTS),
    ("order", in_other_orders, FRONTS),
    ("case", in_other_cases, ("3.0", "3.1", "4.0")),
    ("incomplete", incomplete, ("3.0", "3.1")),
)


def rows():
    for reason, draw, versions in CLASSES:
        for version in versions:
            for vector, text in draw(version):
                yield accepted(reason, version, vector, text)

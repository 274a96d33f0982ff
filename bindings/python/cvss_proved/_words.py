"""Names and words of the metrics and of their values, from the one file that all languages share.

bindings/tables.py reads this module by itself, so it imports nothing of the package.
"""

from __future__ import annotations

import json
from functools import lru_cache
from pathlib import Path
from typing import Any, Dict, Iterator, List, Literal, NamedTuple, Tuple

Version = Literal["2.0", "3.0", "3.1", "4.0"]
"""A version of the standard."""

Group = Literal["base", "temporal", "threat", "environmental", "supplemental"]
"""The group of a metric: v2 and v3 have temporal metrics, and v4.0 threat and supplemental ones."""


def check_version(version: Version) -> Version:
    """The version. Raises `ValueError` for anything else."""
    if version not in ("2.0", "3.0", "3.1", "4.0"):
        raise ValueError(f"expected version '2.0', '3.0', '3.1' or '4.0', got {version!r}")
    return version


class MetricValue(NamedTuple):
    """A value of a metric: how a vector spells it, its name in words, and a sentence that says what it means."""

    value: str
    title: str
    description: str


class MetricType(NamedTuple):
    """A metric of a version: its abbreviation, its name in words, its group, and its values from the first to offer.

    FIRST's documents ask for each base metric: `is_mandatory` is true for these. The question is one that a form asks.
    """

    name: str
    title: str
    group: Group
    is_mandatory: bool
    question: str
    values: Tuple[MetricValue, ...]


class Described(NamedTuple):
    """A metric that a vector has, and the value that the vector has for it."""

    metric: MetricType
    value: MetricValue


def file_bytes() -> bytes:
    """The file, which is next to this module in an installed package, and above the package's folder in a checkout."""
    here = Path(__file__).resolve().parent
    beside = here / "metrics.json"
    return (beside if beside.is_file() else here.parent.parent / "metrics.json").read_bytes()


def _values(rows: List[List[str]]) -> Tuple[MetricValue, ...]:
    return tuple(MetricValue(*row) for row in rows)


def _modified(metric: Dict[str, Any], base: MetricType) -> MetricType:
    """A modified metric: it has the values of its base metric, or others instead, and X."""
    others = {value.value: value for value in _values(metric.get("others", []))}
    own = [others.pop(value.value, value) for value in base.values]
    absent = MetricValue("X", "Not defined", f"The same as {base.name}.")
    title = metric.get("full", f"Modified {base.title}")
    return base._replace(
        name=metric["name"],
        title=title,
        group="environmental",
        is_mandatory=False,
        values=(absent, *others.values(), *own),
    )


def _types(groups: List[Dict[str, Any]]) -> Iterator[MetricType]:
    known: Dict[str, MetricType] = {}
    for group in groups:
        for metric in group["metrics"]:
            if "of" in metric:
                own = _modified(metric, known[metric["of"]])
            else:
                title = metric.get("full", metric["title"])
                is_mandatory = group.get("base", False)
                values = _values(metric["values"])
                own = MetricType(metric["name"], title, group["group"], is_mandatory, metric["ask"], values)
            known[own.name] = own
            yield own


@lru_cache(maxsize=None)
def _tables() -> Dict[str, Tuple[MetricType, ...]]:
    tables = {version: tuple(_types(groups)) for version, groups in json.loads(file_bytes()).items()}
    # v3.0 has the metrics of v3.1
    return {**tables, "3.0": tables["3.1"]}


@lru_cache(maxsize=None)
def by_letters(version: Version) -> Dict[Tuple[str, str], Described]:
    """Each value of each metric of a version, by the abbreviation and the spelling."""
    return {
        (metric.name, value.value): Described(metric, value) for metric in metrics(version) for value in metric.values
    }


def metrics(version: Version) -> Tuple[MetricType, ...]:
    """The metrics of a version, in the order in which a vector prints them: what a form offers.

    >>> for metric in metrics("3.1")[:2]:
    ...     print(metric.name, metric.title, metric.group, [value.title for value in metric.values])
    AV Attack Vector base ['Network', 'Adjacent', 'Local', 'Physical']
    AC Attack Complexity base ['Low', 'High']
    """
    return _tables()[check_version(version)]


for _public in (MetricValue, MetricType, Described):
    _public.__module__ = "cvss_proved"

"""Metrics that a caller gives."""

from __future__ import annotations

from collections import abc
from typing import Mapping, Optional

from ._error import CvssError
from ._texts import bytes_of


def _check_mapping(metrics: Mapping[str, str]) -> None:
    """Raises `TypeError` for what is no mapping of `str` to `str`."""
    if not isinstance(metrics, abc.Mapping):
        kind = type(metrics).__name__
        raise TypeError(f'expected a mapping of metric names to values, such as {{"MSI": "S"}}, got {kind}')
    for name, value in metrics.items():
        if not (isinstance(name, str) and isinstance(value, str)):
            raise TypeError(f"expected str for the name and the value of a metric, got {name!r} and {value!r}")


def joined(metrics: Optional[Mapping[str, str]], values: Mapping[str, str]) -> bytes:
    """The components of metrics. A slash would make two of one, so it is rejected as in a component."""
    for given in (metrics, values):
        if given is not None:
            _check_mapping(given)
    components = [f"{name}:{value}" for name, value in {**(metrics or {}), **values}.items()]
    for component in components:
        if "/" in component:
            message = f"invalid CVSS metric group component: `{component}`"
            raise CvssError(message, "invalid component", "", component)
    return bytes_of("/".join(components))

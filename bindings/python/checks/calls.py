"""Metrics that are set, vectors made of metrics, what messages quote, and the four scores of v4.0, against the second
implementation."""

from __future__ import annotations

import os
import re
from pathlib import Path
from typing import Dict, Optional, Tuple, cast

from cvss_proved import Vector, Version

from .shared import BASES, STORED, lines_of, message_of, outcome, raises


def mapping_of(given: bytes) -> Optional[Dict[str, str]]:
    """The metrics that a text joins; None if no mapping has them: a colon is missing, or a name is there twice."""
    segments = [part.split(":", 1) for part in given.decode("utf-8", "surrogateescape").split("/")] if given else []
    own = {part[0]: part[-1] for part in segments}
    return own if len(own) == len(segments) and all(len(part) == 2 for part in segments) else None


def unescaped(column: bytes) -> Optional[bytes]:
    """A column of a row that tests/stored/expected.py has written."""
    return None if column == b"\\N" else re.sub(rb"\\x(..)", lambda found: bytes([int(found[1], 16)]), column)


def check_setting_of(given: bytes, metrics: bytes, expected: Tuple[Optional[str], ...]) -> bool:
    """Whether a mapping has the metrics, which are set then."""
    own = mapping_of(metrics)
    if own is None:
        return False
    made = own
    assert outcome(lambda: Vector(given, allow_incomplete=True).with_metrics(made)) == expected, (given, metrics)
    return True


def check_making_of(asked: str, components: bytes, expected: Tuple[Optional[str], ...]) -> bool:
    """Whether a mapping has the components, of which a vector is made then. Where it is incomplete, it is so by request."""
    own, version = mapping_of(components), cast(Version, asked)
    if version not in BASES:
        assert raises(ValueError, lambda: Vector.from_metrics(version, {})), asked
        return False
    if own is None:
        return False
    made = own
    assert outcome(lambda: Vector.from_metrics(version, made, allow_incomplete=True)) == expected, (asked, components)
    by_default = outcome(lambda: Vector.from_metrics(version, made))
    if expected[0] is None or Vector(expected[0], allow_incomplete=True).is_complete:
        assert by_default == expected, (asked, components)
    else:
        assert by_default == outcome(lambda: Vector(str(expected[0]))) and by_default[0] is None, (asked, components)
    return True


def check_calls() -> None:
    """The variable CVSS_ROWS names a file with other rows."""
    rows = lines_of(Path(os.environ.get("CVSS_ROWS", str(STORED / "calls"))))
    tried = 0
    for row in rows:
        given, metrics, asked, components, *expected = map(unescaped, row.split(b"\t"))
        assert given is not None and metrics is not None and asked is not None and components is not None
        text, columns = given, [None if column is None else column.decode() for column in expected]
        changed, unset, made, unmade, error, reason, *scores = columns
        tried += check_setting_of(text, metrics, (changed, unset))
        tried += check_making_of(asked.decode(), components, (made, unmade))
        assert outcome(lambda: Vector(text, allow_incomplete=True))[1] == error, row
        assert message_of(ValueError, lambda: Vector(text)) == reason, row
        if error is None:
            by_nomenclature = Vector(text, allow_incomplete=True).nomenclature_scores.values()
            assert [f"{score:.1f}" for score in by_nomenclature] == [score for score in scores if score is not None], row
    assert tried > len(rows), tried
    print(f"Python: {len(rows)} texts with metrics to set and to make vectors of, 0 wrong results")

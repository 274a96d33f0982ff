"""Subclasses, copies, pickles and weak references."""

from __future__ import annotations

import copy
import gc
import pickle
import weakref
from typing import Callable, Tuple, Type

from cvss_proved import CvssError, Text, Vector, find, numbers, values

from .shared import (BASES, LACKS, SHORT, TEXT, TEXT_METRICS, V4, Forged, Own, Row, RowError, Slotted, copies, error_of,
                     raises)


def check_subclasses() -> None:
    """A subclass stays its class."""
    for text in (TEXT + "/E:ND", BASES["3.1"] + "/E:X", V4 + "/E:X"):
        for own in (Own(text), Slotted(text)):
            for made in (own, own.without_not_defined(), own.with_metrics({"CR": "H"}), *copies(own)):
                assert type(made) is type(own), made
            assert own == Vector(text) and hash(own) == hash(Vector(text))
        assert Own(text).is_urgent() == (Vector(text).score >= 7)


def check_copies() -> None:
    """A copy has the attributes that a subclass has added, and is scored as the text is."""
    own, slotted = Own(TEXT), Slotted(TEXT).with_note("seen")
    own.sources = ["NVD"]
    slotted.sources = ["NVD"]
    for vector in copies(own):
        assert (vector, vector.sources, vector.scores) == (own, ["NVD"], own.scores)
    for other in copies(slotted):
        assert (other, other.sources, other.note) == (slotted, ["NVD"], "seen") and not hasattr(other, "never_set")
    row = Row(TEXT, "first", set())
    for other_row in copies(row):
        assert (other_row, other_row.name, list(other_row.others)) == (row, "first", [row])
    for error in (RowError(7, "words"), CvssError("words", "invalid value", "AV"), error_of(lambda: Vector(SHORT))):
        for rejected in copies(error):
            assert type(rejected) is type(error) and vars(rejected) == vars(error) and rejected.args == error.args
            assert (rejected.message, rejected.kind, rejected.metric) == (error.message, error.kind, error.metric)
    for plain in copies(Vector(TEXT)):
        assert plain == Vector(TEXT) and type(plain) is Vector
    tuples = Vector(TEXT).scores, Vector(TEXT).severities, values(TEXT), numbers("2.0", TEXT_METRICS), next(find(TEXT))
    assert all(copied == tuples for copied in copies(tuples))


def check_forged_pickles() -> None:
    """Whatever a pickle says, the scores of its vector are those of its text."""
    other = Vector(V4)
    parts = {name: getattr(other, name) for name in ("_code", "_decoded", "_numbers")}
    texts: Tuple[Text, ...] = (TEXT.encode(), TEXT, "CVSS:3.1/A:H/I:H/C:H/S:U/UI:N/PR:N/AC:L/AV:N", SHORT)
    for kind in (Vector, Own, Slotted):
        for text in texts:
            pickled = pickle.dumps(Forged(kind, (None, {**parts, "_code": text})))
            vector = pickle.loads(pickled)
            own = Vector(text, allow_incomplete=True)
            assert (type(vector), vector, vector.text) == (kind, own, own.text), (kind, vector)
            assert (vector.score, vector.scores, vector.record()) == (own.score, own.scores, own.record())
            assert vector.is_complete == own.is_complete == (text != SHORT)
        for rejected in ("", "AV:N", b"\xff"):
            pickled = pickle.dumps(Forged(kind, (None, {**parts, "_code": rejected})))
            assert raises(CvssError, lambda: pickle.loads(pickled)), (kind, rejected)
        for state in ((None, {"_numbers": parts["_numbers"]}), (None, {}), {}):
            pickled = pickle.dumps(Forged(kind, state))
            assert raises(AttributeError, lambda: pickle.loads(pickled)), (kind, state)
    made = copy.copy(other)
    made.__setstate__((None, {"_numbers": Vector(TEXT)._numbers, "_decoded": TEXT}))
    assert (made, made.scores) == (other, other.scores)


def check_weak_references() -> None:
    """A vector can be referred to weakly, as by a cache."""
    kinds: Tuple[Type[Vector], ...] = (Vector, Own, Slotted)
    for kind in kinds:
        vector = kind(TEXT)
        cache = weakref.WeakValueDictionary({TEXT: vector})
        assert weakref.ref(vector)() is vector is cache[TEXT]
        for copied in copies(vector):
            assert copied == vector and weakref.getweakrefcount(copied) == 0
        del vector, copied
        assert TEXT not in cache, kind


def check_errors_are_freed() -> None:
    """An error is freed when it is no longer used, without the collector of cycles."""
    vector = Vector(TEXT)
    calls: Tuple[Callable[[], Vector], ...] = (
        lambda: Vector("AV:N"), lambda: vector.with_metrics(E="Q"), lambda: Vector.from_metrics("2.0"))
    for call in calls:
        gc.disable()
        try:
            call()
        except CvssError as error:
            reference = weakref.ref(error)
        is_freed = reference() is None
        gc.enable()
        assert is_freed


def check_incomplete_copies() -> None:
    """Copies of an incomplete vector that was accepted are incomplete, and its text alone is still rejected."""
    for kind in (Vector, Own):
        vector = kind(SHORT, allow_incomplete=True)
        for copied in copies(vector):
            assert (type(copied), copied, copied.is_complete, copied.scores) == (kind, vector, False, vector.scores)
        assert error_of(lambda: kind(vector.text)).metric == LACKS

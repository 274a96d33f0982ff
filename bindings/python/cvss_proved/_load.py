"""Finds the C library, loads it, and declares its functions.

The library is the file that the variable CVSS_LIBRARY names; otherwise the one next to this module, where an installed
package has it; otherwise the one that bindings/build makes in a checkout.
"""

from __future__ import annotations

import ctypes
import os
from pathlib import Path
from typing import Any, Dict, List, Optional, Tuple

_FILE = "cvss.dll" if os.name == "nt" else "libcvss.so.2"


class Number(ctypes.Structure):
    """The struct CvssNumber of cvss.h: so many 10^-12, and so many 10^-24."""

    _fields_ = [("trillionths", ctypes.c_int64), ("rest", ctypes.c_int64)]


class Numbers(ctypes.Structure):
    """The struct CvssNumbers of cvss.h."""

    _fields_ = [
        ("size", ctypes.c_uint32),
        *((name, ctypes.c_int32) for name in ("base", "temporal", "environmental")),
        *((name, Number) for name in ("impact", "exploitability", "adjusted_impact")),
    ]


class Match(ctypes.Structure):
    """The struct CvssMatch of cvss.h."""

    _fields_ = [("size", ctypes.c_uint32), *((name, ctypes.c_size_t) for name in ("next", "offset", "length"))]


def _candidates() -> List[Path]:
    named = os.environ.get("CVSS_LIBRARY")
    if named is not None:
        return [Path(named)]
    here = Path(__file__).resolve().parent
    return [here / _FILE, here.parent.parent / "out" / _FILE]


def _loaded() -> ctypes.CDLL:
    candidates = _candidates()
    for path in candidates:
        if path.is_file():
            try:
                return ctypes.CDLL(str(path.resolve()))
            except OSError as error:
                raise ImportError(f"cannot load the CVSS library: {error}") from error
    searched = " or ".join(str(path) for path in candidates)
    raise ImportError(
        f"cannot find the CVSS library at {searched}: run bindings/build in a checkout, or set the variable CVSS_LIBRARY "
        "to the path of the library"
    )


_SIZE = ctypes.c_size_t
_TENTHS = ctypes.POINTER(ctypes.c_int32)

# The result and the arguments of each function. Where there is None, they are not declared: the texts are `bytes`, and the
# others what `from_param` and `byref` return, which ctypes passes on without a conversion.
_FUNCTIONS: Dict[str, Tuple[Any, Optional[List[Any]]]] = {
    "cvss_parse": (_SIZE, None),
    "cvss_score": (ctypes.c_int32, None),
    "cvss_values": (ctypes.c_bool, None),
    "cvss_with_metrics": (_SIZE, None),
    "cvss_from_metrics": (_SIZE, None),
    "cvss_without_not_defined": (_SIZE, None),
    "cvss_record": (_SIZE, None),
    "cvss_explain": (_SIZE, None),
    "cvss_score_line": (_SIZE, None),
    "cvss_score_lines": (_SIZE, None),
    "cvss_find": (ctypes.c_bool, None),
    "cvss_severity": (ctypes.c_int32, [ctypes.c_int32, ctypes.c_int32]),
    "cvss_numbers": (ctypes.c_bool, [ctypes.c_int32, ctypes.c_char_p, _SIZE, ctypes.POINTER(Numbers)]),
    "cvss_rounded": (ctypes.c_bool, [ctypes.c_int32, ctypes.POINTER(Number), _TENTHS]),
    "cvss_temporal_with_impact": (ctypes.c_bool, [ctypes.c_char_p, _SIZE, ctypes.POINTER(Number), _TENTHS]),
}


def _declared(loaded: ctypes.CDLL) -> ctypes.CDLL:
    for name, (result, arguments) in _FUNCTIONS.items():
        try:
            function = getattr(loaded, name)
        except AttributeError as error:
            raise ImportError(f"{loaded._name} is not version 2 of the CVSS library: {error}") from error
        function.restype, function.argtypes = result, arguments
    return loaded


library = _declared(_loaded())

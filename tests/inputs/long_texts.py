"""The longest text of each version: each metric with its longest spelling."""
import sys
from pathlib import Path

sys.path.insert(0, str(Path(__file__).resolve().parents[2] / "reference"))

import v2
import v3
import v4


def _whole(front, metrics):
    return "/".join(front + [f"{name}:{max(spellings, key=len)}" for name, (_, spellings) in metrics.items()])


WHOLE = {"v2": _whole([], v2.METRICS), "v3": _whole(["CVSS:3.1"], v3.METRICS), "v4": _whole(["CVSS:4.0"], v4.METRICS)}

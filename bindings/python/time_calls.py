"""Prints the nanoseconds that a call takes, over the lines of standard input that are accepted."""

import sys
import time
from typing import Callable, List, TypeVar

from cvss_proved import CvssError, Vector, score, score_line, score_lines

ROUNDS = 50

Item = TypeVar("Item")


def print_time(name: str, items: List[Item], call: Callable[[List[Item]], object]) -> None:
    """Of the rounds the fastest, which other programs on the machine have disturbed least."""

    def taken() -> int:
        start = time.perf_counter_ns()
        call(items)
        return time.perf_counter_ns() - start

    least = min(taken() for _ in range(ROUNDS))
    print(f"Python: {name} {least / len(items):.0f} ns ({len(items)} lines)")


def reject(texts: List[str]) -> None:
    """Parses texts that are rejected."""
    for text in texts:
        try:
            Vector(text)
        except CvssError:
            continue
        raise AssertionError(f"{text} is accepted")


if __name__ == "__main__":
    accepted = [line for line in sys.stdin.read().splitlines() if not score_line(line).startswith("error: ")]
    print_time("score", accepted, lambda lines: [score(line) for line in lines])
    print_time("Vector", accepted, lambda lines: [Vector(line) for line in lines])
    print_time("CvssError", [f"{line}?" for line in accepted], reject)
    vectors = [Vector(line) for line in accepted]
    print_time("metrics", vectors, lambda vectors: [vector.metrics for vector in vectors])
    print_time("without_not_defined", vectors, lambda vectors: [vector.without_not_defined() for vector in vectors])
    own = {"CR": "H", "AR": "L"}
    print_time("with_metrics", vectors, lambda vectors: [vector.with_metrics(own) for vector in vectors])
    print_time("record", vectors, lambda vectors: [vector.record() for vector in vectors])
    print_time("explain", vectors, lambda vectors: [vector.explain() for vector in vectors])
    print_time("score_line", accepted, lambda lines: [score_line(line) for line in lines])
    print_time("score_lines", accepted, score_lines)

"""Scores over all combinations of values: do they fall where values become more severe, and by how much?

A grid is a list of axes. An axis has the values of a metric from the least severe one up, or scores from the least one up.
The numbers of a grid are a list, in which the last axis changes fastest. The grids of `theorems.py` have each value of each
metric once that weighs differently, so every vector has its place in them.
"""
from itertools import product

# The number of a place that does not count.
NONE = float("-inf")


def rising(metric):
    """The spellings of a metric's values by rising weight, one for each weight."""
    spellings = {}
    for spelling, weight in metric[1].items():
        spellings.setdefault(weight, spelling)
    return [spellings[weight] for weight in sorted(spellings)]


def points(axes):
    """The places of a grid, each as a vector; a metric that is None there is absent."""
    for values in product(*axes.values()):
        yield {name: value for name, value in zip(axes, values) if value is not None}


def greatest_below(lengths, numbers):
    """For each place the greatest number of all places that are at most it on every axis.

    That is the greatest along the last axis, of these the greatest along the axis before it, and so on.
    """
    greatest = list(numbers)
    stride = 1
    for length in reversed(lengths):
        for first in range(stride, stride * length):
            here, below = (slice(place, None, stride * length) for place in (first, first - stride))
            greatest[here] = map(max, greatest[below], greatest[here])
        stride *= length
    return greatest


def fall(axes, numbers):
    """By how much the number falls at most from a place to one that is at least it on every axis; 0 if it never does."""
    numbers = list(numbers)
    greatest = greatest_below([len(axis) for axis in axes], numbers)
    return max(above - number for above, number in zip(greatest, numbers) if number != NONE)

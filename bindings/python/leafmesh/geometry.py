"""Calls over rectangles and rings."""

import enum
from typing import NamedTuple, Optional

import numpy as np

from ._library import call
from .limits import RING_POINTS
from .rows import RECT, number, numbers


class Side(enum.IntEnum):
    """The sides of a rectangle, anticlockwise from the south."""

    SOUTH = 0
    EAST = 1
    NORTH = 2
    WEST = 3


class Border(NamedTuple):
    """Which side of the first rectangle the second one lies on, and how long the edge is that they share, in ticks."""

    side: Side
    length: int


def contact(a, b) -> Optional[Border]:
    """The border that two rectangles (x0, y0, x1, y1) share, or None where they share no edge, as at a corner."""
    coordinates = [number(value, "a coordinate", "i8") for rect in (a, b) for value in rect]
    if len(coordinates) != 8:
        raise ValueError("a rectangle has four coordinates")
    outcome = call("leafmesh_contact", *coordinates)
    return Border(Side(outcome.side), outcome.length) if outcome.length else None


def strips(ring) -> np.ndarray:
    """The strips of a ring of points (x, y), as RECT, from the bottom, then left to right."""
    points = numbers(ring, "i8", "points", width=2)
    # Of more points than a ring may have none is cut.
    most = min(len(points), RING_POINTS)
    out = np.zeros(most // 2 * most, RECT)
    return out[: call("leafmesh_strips", points, out).value].copy()

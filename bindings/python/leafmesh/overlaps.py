"""Copper that is drawn twice: where polygons of one layer and component overlap."""

from bisect import bisect
from heapq import heappop, heappush
from typing import Optional

import numpy as np

from .board import Polygons
from .errors import Overlap
from .limits import NO_CELL


def first_overlap(cells: np.ndarray, polygons: Polygons) -> Optional[Overlap]:
    """Where copper is drawn twice: of the lowest layer, and there of the lowest component, that has such a place. Cells
    fill their base cells, so these alone are asked, and the answer stays as cells are split."""
    bases = cells[cells["parent"] == NO_CELL]
    layers, components = polygons.layers[bases["polygon"]], polygons.components[bases["polygon"]]
    order = np.lexsort((bases["x0"], bases["y0"], components, layers))
    bases, layers, components = bases[order], layers[order], components[order]
    is_other = (np.diff(layers) != 0) | (np.diff(components) != 0)
    for copper in np.split(bases, np.flatnonzero(is_other) + 1):
        height = _first_height(copper)
        if height is not None:
            return _overlap_at(copper, height)
    return None


def _first_height(bases: np.ndarray) -> Optional[int]:
    """The lowest height at which two of these overlap, which are sorted from the bottom, then from the left. A line goes
    up; while those that it crosses lie side by side, a new one need be held to its neighbours alone."""
    # Of those that the line crosses, from the left, where they begin and end; and where the line leaves them.
    starts, ends, tops = [], [], []
    for x0, y0, x1, y1 in zip(*(bases[name].tolist() for name in ("x0", "y0", "x1", "y1"))):
        while tops and tops[0][0] <= y0:
            gone = bisect(starts, heappop(tops)[1]) - 1
            del starts[gone], ends[gone]
        place = bisect(starts, x0)
        if (place > 0 and ends[place - 1] > x0) or (place < len(starts) and starts[place] < x1):
            return y0
        starts.insert(place, x0)
        ends.insert(place, x1)
        heappush(tops, (y1, x0))
    return None


def _overlap_at(bases: np.ndarray, height: int) -> Overlap:
    """The westmost one at a height that has some."""
    there = bases[(bases["y0"] <= height) & (height < bases["y1"])]
    there = there[np.argsort(there["x0"], kind="stable")]
    is_covered = there["x0"][1:] < np.maximum.accumulate(there["x1"])[:-1]
    place = int(there["x0"][1:][is_covered][0])
    first, second = np.unique(there["polygon"][(there["x0"] <= place) & (place < there["x1"])])[:2].tolist()
    return Overlap((first, second), (place, height))

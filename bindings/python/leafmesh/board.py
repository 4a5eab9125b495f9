"""Boards: copper outlines and what they are cut by, and the records of these."""

from dataclasses import dataclass, field
from typing import NamedTuple

import numpy as np

from . import limits
from ._library import call
from .rows import LAYER, POLYGON, entries, number, numbers


class Settings(NamedTuple):
    """The size wanted of a base cell in ticks, how often it can be split, and how many of them a strip has each way."""

    target: int
    max_level: int = limits.DEFAULT_LEVEL
    cap: int = limits.CAP

    def words(self) -> list:
        """As the calls take them."""
        return [number(self.max_level, "max_level"), number(self.cap, "cap"), number(self.target, "target")]


@dataclass(frozen=True, eq=False)
class Polygons:
    """Polygons by rows: layer, component, ohms a square and number of points of each, and the points of all, one
    polygon after another."""

    layers: np.ndarray
    components: np.ndarray
    sheets: np.ndarray
    counts: np.ndarray
    points: np.ndarray

    def __post_init__(self):
        for name, kind, width in (("layers", "u2", 1), ("components", "u4", 1), ("sheets", "f8", 1),
                                  ("counts", "u8", 1), ("points", "i8", 2)):
            # A copy, which nobody else changes.
            row = numbers(getattr(self, name), kind, name, width).copy()
            row.flags.writeable = False
            object.__setattr__(self, name, row)

    @classmethod
    def of(cls, polygons) -> "Polygons":
        """Of polygons one by one: (layer, component, ohms a square, ring of points (x, y))."""
        polygons = [(layer, component, sheet, list(ring)) for layer, component, sheet, ring in polygons]
        layers, components, sheets, rings = zip(*polygons) if polygons else ((), (), (), ())
        points = [point for ring in rings for point in ring]
        return cls(layers, components, sheets, [len(ring) for ring in rings], points)

    def __len__(self) -> int:
        return len(self.layers)

    def sheet_rows(self) -> list:
        """As network takes them."""
        return [self.layers, self.components, self.sheets]


@dataclass(frozen=True, eq=False)
class Board:
    """What a board record holds: settings, layers with a cell size of their own (LAYER), polygons, and the ids of the
    cells that are to be split, in order."""

    settings: Settings
    polygons: Polygons
    layers: np.ndarray = field(default=())
    splits: np.ndarray = field(default=())

    def __post_init__(self):
        object.__setattr__(self, "layers", entries(self.layers, LAYER, "layer"))
        object.__setattr__(self, "splits", numbers(self.splits, "u8", "splits"))


def read(record: bytes) -> Board:
    """The board of a record."""
    given = np.frombuffer(record, np.uint8)
    layers = np.zeros(limits.LAYER_ENTRIES, LAYER)
    polygons = np.zeros(limits.POLYGONS, POLYGON)
    sheets = np.zeros(limits.POLYGONS)
    points = np.zeros((len(given) // 16, 2), np.int64)
    splits = np.zeros(min(len(given) // 4, limits.SPLITS), np.uint64)
    found = call("leafmesh_read", given, layers, polygons, sheets, points, splits)
    polygons = polygons[: found.polygons]
    rows = Polygons(polygons["layer"], polygons["component"], sheets[: found.polygons], polygons["points"],
                    points[: found.points])
    settings = Settings(found.target, found.level, found.cap)
    return Board(settings, rows, layers[: found.layers].copy(), splits[: found.splits].copy())


def write(board: Board) -> bytes:
    """The record of a board. A value past its range is written by its low bytes, so read the record back where it may
    be."""
    rows = board.polygons
    polygons = np.zeros(len(rows), POLYGON)
    polygons["layer"], polygons["component"] = rows.layers, rows.components
    polygons["points"] = rows.counts
    length = limits.record_length(len(board.layers), len(polygons), len(rows.points), len(board.splits))
    out = np.zeros(length, np.uint8)
    written = call("leafmesh_write", *board.settings.words(), board.layers, polygons, rows.sheets, rows.points,
                   board.splits, out)
    return out[: written.value].tobytes()

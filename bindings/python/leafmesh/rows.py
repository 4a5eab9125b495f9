"""Rows as the library has them in memory, and what is given made into these: nothing is rounded or wrapped on the way.
"""

import operator

import numpy as np

from .limits import SLOT_NUMBERS

NODE = np.dtype([("layer", "u2"), ("component", "u4"), ("x", "i8"), ("y", "i8")], align=True)
EDGE = np.dtype([("from", "u8"), ("to", "u8"), ("conductance", "f8")], align=True)
CELL = np.dtype([("corners", "u8", (4,)), ("sheet", "f8")], align=True)
"""corners are nodes: SW, SE, NE, NW"""
RECT = np.dtype([("x0", "i8"), ("y0", "i8"), ("x1", "i8"), ("y1", "i8")], align=True)
SLOT = np.dtype(
    [(name, "i8") for name in ("x0", "y0", "x1", "y1", "level", "parent", "first_child", "polygon")], align=True)
LAYER = np.dtype([("layer", "u8"), ("cell", "u8")], align=True)
POLYGON = np.dtype([("layer", "u8"), ("component", "u8"), ("points", "u8")], align=True)
CONTACT = np.dtype([("from", "u8"), ("to", "u8")], align=True)
VIA = np.dtype(
    [("bottom", "u2"), ("top", "u2"), ("component", "u4"), ("x", "i8"), ("y", "i8"), ("half_width", "i8"),
     ("half_height", "i8"), ("resistance", "f8")], align=True)
CHANNEL = np.dtype(
    [("drain_component", "u4"), ("drain_x", "i8"), ("drain_y", "i8"), ("source_component", "u4"), ("source_x", "i8"),
     ("source_y", "i8"), ("resistance", "f8")], align=True)


def number(value, what: str, kind="u8") -> int:
    """A whole number that this type can hold. A bool is none: it stands for a choice."""
    if _is_bool(value):
        raise TypeError(f"{what}: a whole number, not {value}")
    value = operator.index(value)
    limits = np.iinfo(kind)
    if not limits.min <= value <= limits.max:
        raise OverflowError(f"{what}: {value} isn't from {limits.min} to {limits.max}")
    return value


def numbers(values, kind: str, what: str, width: int = 1) -> np.ndarray:
    """A row of numbers, or of so many in each entry."""
    given, kind = np.asarray(values), np.dtype(kind)
    if holds_bools(values):
        raise TypeError(f"{what}: numbers, and no bools")
    if given.size == 0:
        given = np.zeros((0, width) if width > 1 else 0, kind)
    if given.ndim != (2 if width > 1 else 1) or (width > 1 and given.shape[1] != width):
        raise ValueError(f"{what}: a row of {width if width > 1 else 'single'} numbers, not one of shape {given.shape}")
    if kind.kind == "f":
        if given.dtype.kind not in "iuf":
            raise TypeError(f"{what}: numbers, not {given.dtype}")
    elif given.dtype.kind not in "iu":
        raise TypeError(f"{what}: whole numbers, not {given.dtype}")
    elif given.size:
        number(given.min(), what, kind)
        number(given.max(), what, kind)
    return np.require(given, kind, ["C", "A"])


def entries(values, kind: np.dtype, what: str) -> np.ndarray:
    """A row of entries with fields, given as an array of this type or as tuples."""
    if isinstance(values, np.ndarray) and values.dtype == kind:
        return np.require(values, kind, ["C", "A"])
    values = [tuple(value) for value in values]
    row = np.zeros(len(values), kind)
    for at, value in enumerate(values):
        if len(value) != len(kind.names):
            raise ValueError(f"{what} {at}: {', '.join(kind.names)} are due")
        for name, given in zip(kind.names, value):
            row[at][name] = _field(given, kind[name], f"{name} of {what} {at}")
    return row


def _field(value, kind: np.dtype, what: str):
    if kind.kind in "iu":
        return number(value, what, kind)
    if _is_bool(value):
        raise TypeError(f"{what}: a number, not {value}")
    return float(value)


def _is_bool(value) -> bool:
    return isinstance(value, (bool, np.bool_)) or (isinstance(value, np.ndarray) and value.dtype == bool)


def holds_bools(values) -> bool:
    """Whether a bool is among them, which numpy would take for a number."""
    if isinstance(values, np.ndarray) and values.dtype != object:
        return values.dtype == bool
    return any(map(_is_bool, np.asarray(values, object).flat))


def mask(values, length: int) -> np.ndarray:
    """A row of so many bools, one a leaf."""
    given = np.asarray(values, object)
    if not all(map(_is_bool, given.flat)):
        raise TypeError("a row of ids has numbers alone, a mask has bools alone")
    if given.shape != (length,):
        raise ValueError(f"a mask has one bool a leaf, of {length} leaves, and not the shape {given.shape}")
    return given.astype(bool)


def lent_table(row) -> np.ndarray:
    """A row for a table, which the library writes where it stands."""
    if not (isinstance(row, np.ndarray) and row.dtype == np.int64 and row.ndim == 1):
        raise TypeError("a table's row is an array of int64")
    if not (row.flags.c_contiguous and row.flags.aligned and row.flags.writeable):
        raise ValueError("a table's row is one piece of memory that can be written")
    return row


def slots(row: np.ndarray, count: int) -> np.ndarray:
    """The first cells of a table's row, to be read."""
    seen = row[: SLOT_NUMBERS * min(count, len(row) // SLOT_NUMBERS)].view(SLOT)
    seen.flags.writeable = False
    return seen

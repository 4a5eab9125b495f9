"""The shared library: where it is, and its calls as include/leafmesh.h declares them."""

import ctypes
import os
from ctypes import c_int64, c_size_t, c_uint16, c_uint64, c_void_p

import numpy as np

from ._version import VERSION
from .errors import Refusal

MAJOR, MINOR = VERSION.split(".")[:2]
# As the loader knows it: as much of the version as callers depend on.
SONAME = f"libleafmesh.so.{MAJOR}.{MINOR}" if MAJOR == "0" else f"libleafmesh.so.{MAJOR}"


def _outcome(name, *fields):
    every = ("number", "place") + fields
    return type(name, (ctypes.Structure,), {"_fields_": [(field, c_uint64) for field in every]})


Outcome = _outcome("leafmesh_outcome", "value")
BorderOutcome = _outcome("leafmesh_border_outcome", "side", "length")
TableOutcome = _outcome("leafmesh_table_outcome", "splits", "count", "leaves", "max_level")
ReadOutcome = _outcome("leafmesh_read_outcome", "level", "cap", "target", "layers", "polygons", "points", "splits")
NetOutcome = _outcome("leafmesh_net_outcome", "nodes", "edges", "cells", "links")
CheckOutcome = _outcome("leafmesh_check_outcome", "broken", "node", "from", "to")

_ROW = [c_void_p, c_size_t]
_HEAD = [c_size_t, c_size_t, c_uint64]
_TABLE = _ROW + _HEAD
_SHEETS = 3 * _ROW  # layers, components, ohms a square
_LINKS = 2 * _ROW + [c_uint16] + _ROW  # contacts and vias, the channels' layer, channels
_NET = 3 * _ROW  # nodes, edges, cells
_BOARD = 5 * _ROW  # layers, polygons, ohms a square, points, splits

DECLARATIONS = {
    "leafmesh_contact": (BorderOutcome, 8 * [c_int64]),
    "leafmesh_strips": (Outcome, 2 * _ROW),
    "leafmesh_build": (TableOutcome, 3 * [c_uint64] + _ROW + _SHEETS + 2 * _ROW + _ROW),
    "leafmesh_leaf_count": (c_size_t, _HEAD),
    "leafmesh_leaves": (Outcome, _TABLE + _ROW),
    "leafmesh_leaf_order": (Outcome, _TABLE + _ROW),
    "leafmesh_refine": (TableOutcome, _TABLE + [c_size_t]),
    "leafmesh_balance": (TableOutcome, _TABLE),
    "leafmesh_conform": (TableOutcome, _TABLE),
    "leafmesh_network": (NetOutcome, _TABLE + _SHEETS + _LINKS + _NET + _ROW),
    "leafmesh_edge_rows": (Outcome, _TABLE + _SHEETS + _LINKS),
    "leafmesh_power": (Outcome, _NET + 2 * _ROW),
    "leafmesh_check_network_conforming": (CheckOutcome, _TABLE + _NET + _ROW),
    "leafmesh_check_by_layer": (CheckOutcome, _TABLE + _NET + 2 * _ROW + _ROW),
    "leafmesh_read": (ReadOutcome, _ROW + _BOARD),
    "leafmesh_write": (Outcome, 3 * [c_uint64] + _BOARD + _ROW),
}


def _place() -> str:
    named = os.environ.get("LEAFMESH_LIBRARY")
    if not named:
        return SONAME
    if os.path.isdir(named):
        named = os.path.join(named, SONAME)
    # The loader takes a name without a slash for one that it is to look for.
    return os.path.abspath(named) if os.path.exists(named) else named


def _loaded():
    place = _place()
    try:
        library = ctypes.CDLL(place)
    except OSError as why:
        raise ImportError(
            f"leafmesh: {why}; install.sh puts it under a prefix, bindings/linking/shared.sh into a folder, and "
            "LEAFMESH_LIBRARY names the folder") from why
    for name, (result, arguments) in DECLARATIONS.items():
        try:
            function = getattr(library, name)
        except AttributeError as why:
            raise ImportError(f"leafmesh: {place} has no {name}: it isn't leafmesh {VERSION}") from why
        function.restype, function.argtypes = result, arguments
    return library


_LIBRARY = _loaded()


def plain_call(name: str, *arguments):
    """What a call answers. An array stands for its pointer and its length."""
    flat = []
    for argument in arguments:
        flat += [argument.ctypes.data, len(argument)] if isinstance(argument, np.ndarray) else [argument]
    return getattr(_LIBRARY, name)(*flat)


def call(name: str, *arguments):
    """The outcome of an accepted call."""
    outcome = plain_call(name, *arguments)
    if outcome.number:
        raise Refusal(outcome.number, outcome.place)
    return outcome

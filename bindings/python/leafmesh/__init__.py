"""Calls of leafmesh, a proved quadtree mesher: from copper outlines to a net of conductances.

Coordinates are whole ticks of 2^-38 m (TICK), sheet resistance is in ohms a square, potential in volts, power in watts,
conductance in siemens. Rows are numpy arrays; NODE, EDGE, CELL and the other names of `rows` are their types. A call
that the library refuses raises Refusal and changes nothing that it was given.

    from leafmesh import Mesh

    mesh = Mesh.of_record(open("boards/neck.record", "rb").read())
    mesh.refine(mesh.leaves()[:4])
    mesh.balance()
    net = mesh.network()
    net.edges["conductance"]

The net's conductances are the original's, and not the copper's at a change of level, beside other copper of the layer,
and where two polygons of a component meet: see docs/CONDUCTANCES.md. `Mesh.network` refuses a board whose net would be
wrong, with copper that is drawn twice (Overlap) or a node that isn't joined (NotJoined); `Table.network`, which is the
library's own, doesn't.

The shared library is the one in the folder that LEAFMESH_LIBRARY names, or the file; without it the one that the loader
finds, where install.sh put it.
"""

try:
    import numpy as _numpy  # noqa: F401
except ImportError as missing:
    raise ImportError("leafmesh hands out its rows as numpy arrays: it needs numpy") from missing

from ._version import VERSION as __version__
from .board import Board, Polygons, Settings, read, write
from .errors import JoinsNothing, LeafmeshError, NotJoined, Overlap, Reason, Refusal
from .geometry import Border, Side, contact, strips
from .limits import CAP, COORDINATE, DEFAULT_LEVEL, MAX_LEVEL, NO_CELL, SLOTS, TICK
from .links import Links
from .mesh import Mesh
from .net import Net, power
from .rows import CELL, CHANNEL, CONTACT, EDGE, LAYER, NODE, POLYGON, RECT, SLOT, VIA
from .table import Hanging, Head, Table

__all__ = [
    "__version__",
    "Board", "Polygons", "Settings", "read", "write",
    "JoinsNothing", "LeafmeshError", "NotJoined", "Overlap", "Reason", "Refusal",
    "Border", "Side", "contact", "strips",
    "CAP", "COORDINATE", "DEFAULT_LEVEL", "MAX_LEVEL", "NO_CELL", "SLOTS", "TICK",
    "Links", "Mesh", "Net", "power",
    "CELL", "CHANNEL", "CONTACT", "EDGE", "LAYER", "NODE", "POLYGON", "RECT", "SLOT", "VIA",
    "Hanging", "Head", "Table",
]

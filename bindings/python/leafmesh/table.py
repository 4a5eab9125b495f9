"""A table of cells: a row and its head, which every call keeps together."""

from typing import NamedTuple, Optional

import numpy as np

from . import limits
from ._library import call, plain_call
from .board import Polygons, Settings
from .links import NO_LINKS, Links
from .net import Net
from .rows import CELL, EDGE, LAYER, NODE, entries, lent_table, number, slots


class Head(NamedTuple):
    """How many cells a table has, how many of them are leaves, and the deepest level that they may have."""

    count: int
    leaves: int
    max_level: int


class Hanging(NamedTuple):
    """A node that stands inside a leaf's side and isn't joined along it, and the nodes where the side starts and ends.
    """

    node: int
    start: int
    end: int


class Table:
    """A lent row of int64, eight a slot, and the head of the table in it. A call that is refused changes neither."""

    def __init__(self, row: np.ndarray, head: Head):
        self._row = lent_table(row)
        self._head = Head(*(number(value, name) for name, value in zip(Head._fields, head)))

    @classmethod
    def build(cls, settings: Settings, polygons: Polygons, layers=(), slots: int = limits.SLOTS) -> "Table":
        """The base cells of a board, in a row of its own. `layers` gives some layers a cell size of their own (LAYER),
        rising."""
        row = np.zeros(limits.SLOT_NUMBERS * slots, np.int64)
        own = entries(layers, LAYER, "layer")
        built = call("leafmesh_build", *settings.words(), own, *polygons.sheet_rows(), polygons.counts,
                     polygons.points, row)
        return cls(row, Head(built.count, built.leaves, built.max_level))

    @property
    def row(self) -> np.ndarray:
        """The lent row."""
        return self._row

    @property
    def head(self) -> Head:
        """The head, which calls alone set."""
        return self._head

    @property
    def cells(self) -> np.ndarray:
        """The cells (SLOT) by id, to be read; they show what later calls make of them."""
        return slots(self._row, self._head.count)

    def copy(self) -> "Table":
        """The same in a row of its own."""
        return Table(self._row.copy(), self._head)

    def leaf_count(self) -> int:
        """How many leaves the head says that there are."""
        return plain_call("leafmesh_leaf_count", *self._head)

    def leaves(self) -> np.ndarray:
        """The ids of the leaves, rising."""
        return self._ids("leafmesh_leaves")

    def leaf_order(self) -> np.ndarray:
        """The ids of the leaves by polygon, then id: cell i of the net is the i-th."""
        return self._ids("leafmesh_leaf_order")

    def refine(self, id: int) -> None:
        """Splits one leaf."""
        self._keep(call("leafmesh_refine", self._row, *self._head, number(id, "id")))

    def balance(self) -> int:
        """Splits until no two leaves that share an edge differ by more than one level: how many splits."""
        return self._keep(call("leafmesh_balance", self._row, *self._head))

    def conform(self) -> int:
        """Splits until no two leaves that share an edge differ in level: how many splits."""
        return self._keep(call("leafmesh_conform", self._row, *self._head))

    def edge_rows(self, polygons: Polygons, links: Links = NO_LINKS) -> int:
        """For how many edges network has to have room."""
        asked = call("leafmesh_edge_rows", self._row, *self._head, *polygons.sheet_rows(), *links.rows())
        return asked.value

    def network(self, polygons: Polygons, links: Links = NO_LINKS) -> Net:
        """The net of the leaves and of the links between them, whatever stands inside the leaves' sides."""
        # A head that isn't the row's is refused here.
        edges = np.zeros(self.edge_rows(polygons, links), EDGE)
        leaves = self._head.leaves
        nodes = np.zeros(limits.NODES_A_LEAF * leaves, NODE)
        cells = np.zeros(limits.CELLS_A_LEAF * leaves, CELL)
        work = np.zeros(limits.WORK_A_LEAF * leaves, np.uint64)
        made = call("leafmesh_network", self._row, *self._head, *polygons.sheet_rows(), *links.rows(), nodes, edges,
                    cells, work)
        # Without the room that was left over.
        return Net(nodes[: made.nodes].copy(), edges[: made.edges].copy(), cells[: made.cells].copy(), made.links)

    def check_network_conforming(self, net: Net) -> Optional[Hanging]:
        """The first node at the middle of a leaf's side that lacks a half; nodes by place alone."""
        return _hanging(call("leafmesh_check_network_conforming", self._row, *self._head, *net.rows(), _work(net)))

    def check_by_layer(self, net: Net, polygons: Polygons) -> Optional[Hanging]:
        """The first node between the ends of a leaf's side that lacks an edge to the point before or after it, among
        nodes of the leaf's own layer and component."""
        return _hanging(call("leafmesh_check_by_layer", self._row, *self._head, *net.rows(), polygons.layers,
                             polygons.components, _work(net)))

    def _keep(self, outcome) -> int:
        self._head = Head(outcome.count, outcome.leaves, outcome.max_level)
        return outcome.splits

    def _ids(self, name: str) -> np.ndarray:
        # No table has more leaves than slots, whatever its head says.
        ids = np.zeros(min(self._head.leaves, len(self._row) // limits.SLOT_NUMBERS), np.uint64)
        return ids[: call(name, self._row, *self._head, ids).value]


def _work(net: Net) -> np.ndarray:
    """Room with which a check takes n log n steps."""
    length = limits.CHECK_WORK_A_NODE * len(net.nodes) + limits.CHECK_WORK_AN_EDGE * len(net.edges)
    return np.zeros(length, np.uint64)


def _hanging(outcome) -> Optional[Hanging]:
    return Hanging(outcome.node, getattr(outcome, "from"), outcome.to) if outcome.broken else None

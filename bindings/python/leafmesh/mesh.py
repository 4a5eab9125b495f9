"""A board's mesh and net."""

from typing import Optional

import numpy as np

from .board import Board, Polygons, Settings, read
from .errors import JoinsNothing, NotJoined
from .links import NO_LINKS, Links
from .net import Net
from .overlaps import first_overlap
from .rows import holds_bools, mask
from .table import Hanging, Head, Table


class Mesh:
    """The table of a board in a row of its own, and the polygons that it was cut from."""

    def __init__(self, settings: Settings, polygons: Polygons, layers=()):
        """The base cells. `layers` gives some layers a cell size of their own (LAYER), rising."""
        self._table = Table.build(settings, polygons, layers)
        self.polygons = polygons

    @classmethod
    def of_board(cls, board: Board) -> "Mesh":
        """The base cells, split as the board says, balanced."""
        mesh = cls(board.settings, board.polygons, board.layers)
        mesh.refine(board.splits)
        mesh.balance()
        return mesh

    @classmethod
    def of_record(cls, record: bytes) -> "Mesh":
        """The same of a board record."""
        return cls.of_board(read(record))

    @property
    def head(self) -> Head:
        """How many cells there are, how many of them are leaves, and the deepest level that they may have."""
        return self._table.head

    @property
    def cells(self) -> np.ndarray:
        """All cells (SLOT) by id, to be read; those that are split have a first_child."""
        return self._table.cells

    @property
    def table(self) -> Table:
        """The table, for the library's own calls."""
        return self._table

    def refine(self, ids) -> None:
        """Splits one leaf, or several in turn: all of them, or none where one is refused. In place of ids it takes a
        mask, one bool a leaf in the order of the net's cells: refine(net.power(volts) > limit)."""
        table = self._table.copy()
        for id in self._asked(ids):
            table.refine(id)
        self._table = table

    def balance(self) -> int:
        """Splits until no two leaves that share an edge differ by more than one level: how many splits."""
        return self._table.balance()

    def conform(self) -> int:
        """Splits until no two leaves that share an edge differ in level: how many splits."""
        return self._table.conform()

    def leaves(self) -> np.ndarray:
        """The ids of the leaves, rising."""
        return self._table.leaves()

    def leaf_order(self) -> np.ndarray:
        """The ids of the leaves by polygon, then id: cell i of the net is the i-th."""
        return self._table.leaf_order()

    def network(self, links: Links = NO_LINKS) -> Net:
        """The net of the leaves and of the links between them. Raises Overlap where copper is drawn twice, NotJoined
        where the net would be wrong otherwise, and JoinsNothing for the first link that finds no node on one side."""
        overlap = first_overlap(self.cells, self.polygons)
        if overlap:
            raise overlap
        net = self._table.network(self.polygons, links)
        found = self.check(net)
        if found:
            raise NotJoined(_place(net, found.node), (_place(net, found.start), _place(net, found.end)))
        self._refuse_idle(links)
        return net

    def check(self, net: Net) -> Optional[Hanging]:
        """The first node inside a leaf's side that isn't joined along it, by layer and component."""
        return self._table.check_by_layer(net, self.polygons)

    def _asked(self, ids):
        """One id, or a row of them, or those of the leaves that a mask has."""
        if not np.iterable(ids):
            return [ids]
        ids = ids if isinstance(ids, np.ndarray) else list(ids)
        return self.leaf_order()[mask(ids, self.head.leaves)] if holds_bools(ids) else ids

    def _refuse_idle(self, links: Links) -> None:
        own = self._table.edge_rows(self.polygons)
        for kind, index, link in links.each():
            if self._table.edge_rows(self.polygons, link) == own:
                raise JoinsNothing(kind, index)


def _place(net: Net, node: int) -> tuple:
    return int(net.nodes[node]["x"]), int(net.nodes[node]["y"])

"""The net of a mesh."""

from dataclasses import dataclass

import numpy as np

from ._library import call
from .rows import CELL, EDGE, NODE, entries, numbers


@dataclass(frozen=True, eq=False)
class Net:
    """Nodes (NODE), edges (EDGE) and cells (CELL) of a net; the last `links` of the edges are its links. Cell i is the
    i-th leaf of the leaf order."""

    nodes: np.ndarray
    edges: np.ndarray
    cells: np.ndarray
    links: int = 0

    def __post_init__(self):
        for name, kind in (("nodes", NODE), ("edges", EDGE), ("cells", CELL)):
            object.__setattr__(self, name, entries(getattr(self, name), kind, name))

    def rows(self) -> list:
        """As the calls take them."""
        return [self.nodes, self.edges, self.cells]

    def power(self, volts) -> np.ndarray:
        """The power of each cell in watts, from the potential of each node in volts."""
        return power(self, volts)


def power(net: Net, volts) -> np.ndarray:
    """The power of each cell in watts, from the potential of each node in volts."""
    answers = np.zeros(len(net.cells))
    call("leafmesh_power", *net.rows(), numbers(volts, "f8", "volts"), answers)
    return answers

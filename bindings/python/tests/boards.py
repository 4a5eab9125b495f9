"""Boards for the tests."""

from leafmesh import Mesh, Polygons, Settings


def square(side: int) -> list:
    """A ring."""
    return [(0, 0), (side, 0), (side, side), (0, side)]


def one_square(max_level: int = 2) -> Mesh:
    """A base cell of 8 by 8 ticks, 1 ohm a square."""
    return Mesh(Settings(target=8, max_level=max_level), Polygons.of([(1, 0, 1.0, square(8))]))


def two_layers() -> Mesh:
    """Two base cells of 8 by 8 ticks over each other, on layers 1 and 2."""
    both = Polygons.of([(1, 0, 1.0, square(8)), (2, 0, 1.0, square(8))])
    return Mesh(Settings(target=8, max_level=1), both)


def of_ring(target: int, ring) -> Mesh:
    """One polygon whose base cells can't be split."""
    return Mesh(Settings(target=target, max_level=0), Polygons.of([(1, 0, 1.0, ring)]))

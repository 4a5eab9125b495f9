"""Copper drawn twice: polygons of one layer and component that lie over each other have no net."""

import pickle
import random
import unittest
from pathlib import Path

import leafmesh
from leafmesh import Mesh, Overlap, Polygons, Settings

BOARDS = Path(__file__).resolve().parents[3] / "boards"


def ring(x0, y0, x1, y1):
    return [(x0, y0), (x1, y0), (x1, y1), (x0, y1)]


def mesh_of(*polygons, target=2, max_level=0):
    """Polygons by layer, component and ring."""
    given = Polygons.of([(layer, component, 0.5e-3, ring) for layer, component, ring in polygons])
    return Mesh(Settings(target=target, max_level=max_level), given)


class Overlaps(unittest.TestCase):
    def overlap(self, mesh):
        with self.assertRaises(Overlap) as caught:
            mesh.network()
        return caught.exception.polygons, caught.exception.place

    def test_rectangles_that_overlap(self):
        # 4 by 2 mm, the second one 2 mm to the right, in ticks of which 200 stand for a millimetre.
        mesh = mesh_of((1, 0, ring(0, 0, 800, 400)), (1, 0, ring(400, 0, 1200, 400)), target=100)
        self.assertEqual(self.overlap(mesh), ((0, 1), (400, 0)))
        # All but its net can be had: what it looks like, and the library's own net.
        self.assertEqual((mesh.head.leaves, mesh.balance()), (64, 0))
        self.assertEqual(len(mesh.table.network(mesh.polygons).cells), 64)

    def test_its_words_are_those_of_the_rust_crate(self):
        why = Overlap((0, 1), (400, 0))
        self.assertEqual(str(why), "polygon 1 overlaps polygon 0 from (400, 0) on: copper of one layer and component is "
                                   "drawn once")
        self.assertEqual(str(pickle.loads(pickle.dumps(why))), str(why))

    def test_a_square_drawn_twice(self):
        mesh = mesh_of((1, 0, ring(0, 0, 8, 8)), (2, 0, ring(0, 0, 8, 8)), (1, 0, ring(0, 0, 8, 8)))
        self.assertEqual(self.overlap(mesh), ((0, 2), (0, 0)))

    def test_the_lowest_place_is_named_and_then_the_westmost(self):
        twice = [(1, 3, ring(0, 0, 20, 20)), (1, 3, ring(10, 2, 12, 4)), (1, 3, ring(4, 2, 6, 4)),
                 (1, 3, ring(0, 4, 2, 6))]
        self.assertEqual(self.overlap(mesh_of(*twice)), ((0, 2), (4, 2)))
        self.assertEqual(self.overlap(mesh_of(*reversed(twice))), ((1, 3), (4, 2)))
        # What begins at the same height can lie further west than the first neighbour that is found.
        twice = [(1, 0, ring(8, 0, 16, 8)), (1, 0, ring(0, 2, 10, 4)), (1, 0, ring(4, 2, 6, 4))]
        self.assertEqual(self.overlap(mesh_of(*twice, target=100)), ((1, 2), (4, 2)))

    def test_the_place_stays_as_cells_are_split(self):
        mesh = mesh_of((1, 0, ring(0, 0, 16, 16)), (1, 0, ring(8, 8, 24, 24)), target=8, max_level=2)
        self.assertEqual(self.overlap(mesh), ((0, 1), (8, 8)))
        mesh.refine(mesh.leaves())
        mesh.refine(mesh.leaves()[:7])
        self.assertEqual(self.overlap(mesh), ((0, 1), (8, 8)))

    def test_copper_that_touches_or_is_another_is_fine(self):
        own = (1, 0, ring(0, 0, 8, 8))
        for other in ((1, 0, ring(8, 0, 16, 8)), (1, 0, ring(0, 8, 8, 16)), (1, 0, ring(8, 8, 16, 16)),
                      (2, 0, ring(0, 0, 8, 8)), (1, 1, ring(4, 4, 12, 12))):
            self.assertEqual(len(mesh_of(own, other).network().cells), 32)
            mesh_of(other, own).network()
        # A ring that meets itself is one polygon, whose strips lie side by side.
        mesh_of((1, 0, [(0, 0), (8, 0), (8, 8), (4, 8), (4, 4), (4, 8), (0, 8)])).network()

    def test_the_sample_board(self):
        mesh = Mesh.of_record((BOARDS / "overlap.record").read_bytes())
        self.assertEqual(self.overlap(mesh), ((0, 1), (12, 4)))

    def test_against_every_place(self):
        draw = random.Random(7)
        found = 0
        for _ in range(400):
            polygons = []
            for _ in range(draw.randrange(2, 9)):
                x, y = (2 * draw.randrange(16) for _ in range(2))
                width, height = (2 * draw.randrange(1, 6) for _ in range(2))
                polygons.append((draw.randrange(1, 3), draw.randrange(2), ring(x, y, x + width, y + height)))
            wanted = place_by_place(polygons)
            try:
                mesh_of(*polygons, target=draw.choice((2, 100))).network()
                told = None
            except Overlap as why:
                told = why.polygons, why.place
            except leafmesh.NotJoined:
                told = None
            self.assertEqual(told, wanted, polygons)
            found += wanted is not None
        self.assertTrue(50 < found < 350, found)


def place_by_place(polygons):
    """The same by looking at every place of every layer and component."""
    for copper in sorted({polygon[:2] for polygon in polygons}):
        for y in range(0, 48, 2):
            for x in range(0, 48, 2):
                there = [at for at, (layer, component, ((west, south), _, (east, north), _)) in enumerate(polygons)
                         if (layer, component) == copper and west <= x < east and south <= y < north]
                if len(there) > 1:
                    return tuple(there[:2]), (x, y)
    return None


if __name__ == "__main__":
    unittest.main()

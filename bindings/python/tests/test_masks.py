"""Bools: a mask of the leaves is one, and no bool stands for an id or another number."""

import unittest

import numpy as np

import leafmesh
from leafmesh import Links, Mesh, Net, Polygons, Settings, Table

from .boards import one_square, square


def ids_of_splits(mesh):
    """The cells that are split."""
    return np.flatnonzero(mesh.cells["first_child"] != leafmesh.NO_CELL).tolist()


def four_leaves():
    """Cell 0 is split: leaves 1 to 4, and 0 and 1 are the ids that False and True would be."""
    mesh = one_square()
    mesh.refine(0)
    return mesh


def two_polygons():
    """Cell 0 of the first polygon is split, so that its leaves 2 to 5 stand before leaf 1 in the leaf order."""
    both = Polygons.of([(1, 0, 1.0, square(8)), (1, 0, 1.0, [(x + 8, y) for x, y in square(8)])])
    mesh = Mesh(Settings(target=8, max_level=2), both)
    mesh.refine(0)
    return mesh


class Masks(unittest.TestCase):
    def test_power_over_a_limit(self):
        mesh = four_leaves()
        net = mesh.network()
        # A potential along the east side alone: the two eastern leaves take all but nothing of the power.
        power = net.power(np.where(net.nodes["x"] == 8, 1.0, 0.0))
        self.assertEqual((power > 0.1).tolist(), [False, True, False, True])
        mesh.refine(power > 0.1)
        self.assertEqual(ids_of_splits(mesh), [0, 2, 4])

    def test_no_bool_is_an_id(self):
        # As ids False and True would be both leaves, which mustn't be split.
        mesh = Mesh(Settings(target=8, max_level=1), Polygons.of([(1, 0, 1.0, [(0, 0), (16, 0), (16, 8), (0, 8)])]))
        mesh.refine([False, True])
        self.assertEqual(ids_of_splits(mesh), [1])

    def test_a_mask_goes_by_the_cells_of_the_net(self):
        for as_given in (np.array, list, tuple, iter, lambda mask: [np.bool_(bool_) for bool_ in mask],
                         lambda mask: np.array(mask, object)):
            mesh = two_polygons()
            self.assertEqual(mesh.leaf_order().tolist(), [2, 3, 4, 5, 1])
            mesh.refine(as_given([False, True, False, False, True]))
            self.assertEqual(ids_of_splits(mesh), [0, 1, 3])

    def test_all_and_none(self):
        mesh = four_leaves()
        before = mesh.head
        mesh.refine([False] * 4)
        self.assertEqual(mesh.head, before)
        mesh.refine(np.ones(4, bool))
        self.assertEqual(ids_of_splits(mesh), [0, 1, 2, 3, 4])

    def test_masks_of_another_length_are_refused(self):
        mesh = four_leaves()
        before = mesh.cells.tolist()
        for wrong in ([True], [True] * 3, [False] * 5, np.ones(5, bool), np.zeros(0, bool), np.ones((2, 2), bool),
                      np.ones((4, 1), bool), [[True, False, True, False]], (bool_ for bool_ in [True])):
            with self.assertRaisesRegex(ValueError, "a mask has one bool a leaf, of 4 leaves"):
                mesh.refine(wrong)
        self.assertEqual(mesh.cells.tolist(), before)

    def test_single_bools_and_bools_among_ids_are_refused(self):
        for mesh in (four_leaves(), one_square()):
            before = mesh.cells.tolist()
            for wrong in (True, False, np.True_, np.array(True)):
                with self.assertRaisesRegex(TypeError, "id: a whole number, not (True|False)"):
                    mesh.refine(wrong)
            for wrong in ([True, 2], [1, False, 3, 4], [1, np.True_, 3, 4], np.array([1, True], object)):
                with self.assertRaisesRegex(TypeError, "a row of ids has numbers alone, a mask has bools alone"):
                    mesh.refine(wrong)
            self.assertEqual(mesh.cells.tolist(), before)

    def test_a_mask_splits_all_or_none(self):
        mesh = one_square(max_level=1)
        mesh.refine(0)
        with self.assertRaises(leafmesh.Refusal) as caught:
            mesh.refine([True, False, False, False])
        self.assertEqual((caught.exception.number, caught.exception.place), (10, 1))
        self.assertEqual(mesh.head, (5, 4, 1))


class NoNumbers(unittest.TestCase):
    def test_no_bool_is_a_number(self):
        mesh = four_leaves()
        row, head = mesh.table.row, mesh.head
        board = (Settings(8), Polygons.of([]))
        corners = [(0, 0), (1, 0), (1, 1), (0, 1)]
        for wrong in (
            lambda: mesh.table.refine(True),
            lambda: mesh.table.refine(np.True_),
            lambda: Table(row, (True, 1, 0)),
            lambda: Settings(True).words(),
            lambda: leafmesh.Board(*board, splits=[True, False]),
            lambda: leafmesh.Board(*board, splits=[True, 2]),
            lambda: leafmesh.Board(*board, splits=np.array([True])),
            lambda: leafmesh.Board(*board, layers=[(True, 8)]),
            lambda: Polygons.of([(True, 0, 1.0, corners)]),
            lambda: Polygons.of([(1, True, 1.0, corners)]),
            lambda: Polygons.of([(1, 0, True, corners)]),
            lambda: Polygons.of([(1, 0, 1.0, [(0, 0), (1, 0), (1, True), (0, 1)])]),
            lambda: Polygons.of([(1, 0, 1.0, corners), (2, True, 1.0, corners)]),
            lambda: Links(contacts=[(0, True)]),
            lambda: Links(vias=[(1, 2, 0, 8, 4, 1, 4, True)]),
            lambda: Links(channel_layer=True),
            lambda: leafmesh.contact((0, 0, 1, 1), (1, 0, 2, True)),
            lambda: leafmesh.strips([(0, 0), (True, 0), (True, 1), (0, 1)]),
            lambda: leafmesh.power(mesh.network(), [True] * 9),
            lambda: leafmesh.power(mesh.network(), [True] + [0.5] * 8),
            lambda: Net([(1, 0, 0, 0)], [(0, False, 1.0)], []),
        ):
            with self.assertRaises(TypeError):
                wrong()
        self.assertEqual(mesh.head, head)


if __name__ == "__main__":
    unittest.main()

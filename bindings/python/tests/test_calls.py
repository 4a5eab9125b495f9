"""Every call, against answers of the C and Rust examples and of docs/RULES.md."""

import pickle
import random
import unittest

import numpy as np

import leafmesh
from leafmesh import Links, Mesh, Polygons, Refusal, Settings, Side, Table

from .boards import of_ring, one_square, square, two_layers


class Refused(unittest.TestCase):
    """With what a refusal has to be."""

    def refused(self, number, place, call, *arguments):
        with self.assertRaises(Refusal) as caught:
            call(*arguments)
        self.assertEqual((caught.exception.number, caught.exception.place), (number, place))
        return caught.exception


class OneSquare(Refused):
    """bindings/c/outline_to_net.c and the example of the Rust crate's first page."""

    def setUp(self):
        self.mesh = one_square()
        self.mesh.refine(0)
        self.assertEqual(self.mesh.balance(), 0)

    def test_cells_and_leaves(self):
        self.assertEqual(self.mesh.head, (5, 4, 2))
        self.assertEqual(self.mesh.table.leaf_count(), 4)
        self.assertEqual(self.mesh.leaves().tolist(), [1, 2, 3, 4])
        self.assertEqual(self.mesh.leaf_order().tolist(), [1, 2, 3, 4])
        root, last = self.mesh.cells[0], self.mesh.cells[4]
        self.assertEqual(root.tolist(), (0, 0, 8, 8, 0, leafmesh.NO_CELL, 1, 0))
        self.assertEqual(last.tolist(), (4, 4, 8, 8, 1, 0, leafmesh.NO_CELL, 0))

    def test_the_net(self):
        net = self.mesh.network()
        edges = [(0, 1, 0.5), (3, 2, 1), (0, 3, 0.5), (1, 2, 1), (1, 4, 0.5), (2, 5, 1), (4, 5, 0.5), (7, 6, 0.5),
                 (3, 7, 0.5), (2, 6, 1), (6, 8, 0.5), (5, 8, 0.5)]
        self.assertEqual(net.edges.tolist(), edges)
        self.assertEqual(net.nodes[2].tolist(), (1, 0, 4, 4))
        self.assertEqual(net.cells["corners"][0].tolist(), [0, 1, 2, 3])
        self.assertEqual(net.cells["sheet"].tolist(), [1.0] * 4)
        self.assertEqual((len(net.nodes), len(net.cells), net.links), (9, 4, 0))
        self.assertEqual(self.mesh.table.edge_rows(self.mesh.polygons), 32)

    def test_power(self):
        net = self.mesh.network()
        self.assertEqual(net.power(net.nodes["x"] / 8).tolist(), [0.25] * 4)
        self.refused(3, 0, net.power, net.nodes["x"][1:])
        self.refused(3, 0, net.power, [2.0**21] * 9)

    def test_refusals(self):
        why = self.refused(8, 99, self.mesh.refine, 99)
        self.assertEqual(str(why), "refused 8 99: there is no cell with this id")
        self.assertEqual(str(pickle.loads(pickle.dumps(why))), str(why))
        self.refused(9, 0, self.mesh.refine, 0)
        row, (count, leaves, level) = self.mesh.table.row, self.mesh.head
        self.refused(7, 0, Table(row, (count, leaves + 1, level)).refine, 1)
        for call in ("leaves", "leaf_order", "balance", "conform"):
            self.refused(7, 0, getattr(Table(row, (2**60, 2**60, level)), call))
        self.refused(7, 0, Table(row, (2**60, 2**60, level)).network, self.mesh.polygons)
        self.assertEqual(Table(row, (count, 7, level)).leaf_count(), 7)

    def test_several_are_split_or_none(self):
        before = self.mesh.cells.tolist()
        self.refused(8, 99, self.mesh.refine, [1, 2, 99])
        self.assertEqual((self.mesh.head, self.mesh.cells.tolist()), ((5, 4, 2), before))
        self.mesh.refine([1, 2])
        self.assertEqual(self.mesh.head, (13, 10, 2))
        self.refused(10, 5, self.mesh.refine, 5)

    def test_cells_are_to_be_read(self):
        with self.assertRaises(ValueError):
            self.mesh.cells["level"][0] = 3


class Evening(unittest.TestCase):
    def test_balance_and_conform(self):
        mesh = Mesh(Settings(target=8, max_level=2), Polygons.of([(1, 0, 1.0, [(0, 0), (16, 0), (16, 8), (0, 8)])]))
        mesh.refine(0)
        mesh.refine(3)  # its south-east quarter, beside cell 1
        self.assertEqual(mesh.head, (10, 8, 2))
        even = mesh.table.copy()
        self.assertEqual((mesh.balance(), mesh.head), (1, (14, 11, 2)))
        self.assertEqual(even.head, (10, 8, 2))
        self.assertGreater(even.conform(), 1)
        self.assertEqual(set(even.cells["level"][even.leaves()].tolist()), {2})

    def test_what_refine_takes(self):
        whole = one_square()
        whole.refine(np.array([0], np.uint64))
        whole.refine([])
        self.assertEqual(whole.head.count, 5)
        with self.assertRaises(TypeError):
            whole.refine(1.0)
        with self.assertRaises(OverflowError):
            whole.refine(-1)


class Rings(Refused):
    def test_strips_of_a_comb(self):
        # bindings/c/ring.c, of 12 teeth.
        ring = [(0, 0), (184, 0)]
        for west in range(176, -1, -16):
            ring += [(west + 8, 16), (west, 16)] + ([(west, 8), (west - 8, 8)] if west else [])
        cut = leafmesh.strips(ring)
        self.assertEqual((len(ring), len(cut), cut[0].tolist()), (48, 13, (0, 0, 184, 8)))
        borders = [leafmesh.contact(cut[0].tolist(), tooth.tolist()) for tooth in cut[1:]]
        self.assertEqual({border.side for border in borders}, {Side.NORTH})
        self.assertEqual(sum(border.length for border in borders), 96)
        board = leafmesh.Board(Settings(8, 0), Polygons.of([(1, 0, 0.0005, ring)]), layers=[(1, 4)])
        record = leafmesh.write(board)
        self.assertEqual((len(record), Mesh.of_record(record).head.count), (816, 140))

    def test_contact(self):
        self.assertEqual(leafmesh.contact((0, 0, 4, 4), (4, 3, 8, 8)), (Side.EAST, 1))
        self.assertIsNone(leafmesh.contact((0, 0, 4, 4), (4, 4, 8, 8)))
        self.refused(3, 0, leafmesh.contact, (0, 0, 0, 4), (4, 3, 8, 8))

    def test_refused_rings(self):
        self.refused(4, 0, leafmesh.strips, [(0, 0), (4, 4), (0, 4)])
        self.refused(3, 0, leafmesh.strips, np.zeros((10**6, 2), np.int64))
        self.refused(5, 1, Mesh, Settings(16, 3), Polygons.of([(1, 0, 1.0, square(16)), (1, 0, 1.0, square(8))]))
        self.refused(3, 1, Mesh, Settings(8, 2), Polygons.of([(1, 0, 1.0, square(8)), (1, 0, 0.0, square(8))]))
        rows = Polygons([1], [0], [1.0, 1.0], [4], square(8))
        self.refused(7, 0, Mesh, Settings(8, 2), rows)
        self.refused(6, 0, Table.build, Settings(8, 2), Polygons.of([(1, 0, 1.0, square(16))]), (), 3)

    def test_no_polygons_have_no_cells(self):
        mesh = Mesh(Settings(8), Polygons.of([]))
        self.assertEqual((mesh.head, mesh.balance(), len(mesh.network().nodes)), ((0, 0, 4), 0, 0))

    def test_nets_that_would_be_wrong(self):
        # The three rings of docs/RULES.md, "The checks".
        named = of_ring(6, [(0, 0), (6, 0), (6, 2), (4, 2), (4, 4), (0, 4)])
        with self.assertRaises(leafmesh.NotJoined) as caught:
            named.network()
        self.assertEqual(str(caught.exception), "a node at (4, 2) stands inside a leaf's side, from (6, 2) to (0, 2), "
                                                "and isn't joined along it")
        net = named.table.network(named.polygons)
        self.assertEqual(named.check(net), (4, 2, 3))
        self.assertIsNone(named.table.check_network_conforming(net))
        of_ring(6, [(0, 0), (6, 0), (6, 2), (8, 2), (8, 4), (0, 4)]).network()
        with self.assertRaises(leafmesh.NotJoined) as caught:
            of_ring(12, [(0, 0), (12, 0), (12, 2), (8, 2), (8, 4), (4, 4), (4, 2), (0, 2)]).network()
        self.assertEqual((caught.exception.place, caught.exception.side), ((8, 2), ((12, 2), (0, 2))))

    def test_the_check_of_middles(self):
        mesh = two_layers()
        mesh.refine(0)
        net = mesh.network()
        self.assertEqual(mesh.table.check_network_conforming(net), (1, 9, 10))


class Linked(Refused):
    """The two layers of bindings/c/outline_to_net.c, and links that join nothing."""

    def setUp(self):
        self.mesh = two_layers()

    def test_a_via(self):
        via = Links(vias=[(1, 2, 0, 8, 4, 1, 4, 2.0)])
        self.assertEqual(self.mesh.table.edge_rows(self.mesh.polygons, via), 20)
        net = self.mesh.network(via)
        self.assertEqual((len(net.edges), net.links), (12, 4))
        self.assertEqual(net.edges[-4:].tolist(), [(1, 5, 0.125), (1, 6, 0.125), (2, 5, 0.125), (2, 6, 0.125)])
        self.assertEqual(net.nodes["layer"][[1, 5]].tolist(), [1, 2])

    def test_a_contact_and_a_channel(self):
        halves = Polygons.of([(1, 0, 1.0, square(8)), (1, 1, 1.0, [(x + 16, y) for x, y in square(8)])])
        mesh = Mesh(Settings(target=8, max_level=1), halves)
        net = mesh.network(Links(contacts=[(0, 1)], channels=[(0, 8, 0, 1, 16, 0, 4.0)], channel_layer=1))
        self.assertEqual(net.edges[-net.links :].tolist(), [(0, 4, 1.0), (1, 4, 0.25)])

    def test_what_joins_nothing(self):
        links = Links(vias=[(1, 2, 0, 8, 4, 1, 4, 2.0), (1, 3, 0, 8, 4, 1, 4, 2.0)])
        with self.assertRaises(leafmesh.JoinsNothing) as caught:
            self.mesh.network(links)
        self.assertEqual((caught.exception.kind, caught.exception.index), ("via", 1))
        self.assertEqual(self.mesh.table.network(self.mesh.polygons, links).links, 4)
        self.refused(3, 0, self.mesh.network, Links(vias=[(1, 2, 0, 8, 4, 1, 4, 0.0)]))


class Given(unittest.TestCase):
    """What no row can hold is told, and never rounded or wrapped."""

    def test_numbers(self):
        for wrong, error in (
            (lambda: leafmesh.contact((0, 0, 1, 1), (1, 0, 2, 1.5)), TypeError),
            (lambda: leafmesh.contact((0, 0, 1, 1), (1, 0, 2)), ValueError),
            (lambda: leafmesh.contact((0, 0, 1, 1), (1, 0, 2, 2**63)), OverflowError),
            (lambda: leafmesh.strips([(0.5, 0), (1, 0)]), TypeError),
            (lambda: leafmesh.strips([(0, 0, 0)]), ValueError),
            (lambda: Settings(-1).words(), OverflowError),
            (lambda: Polygons.of([(2**16, 0, 1.0, square(8))]), OverflowError),
            (lambda: Polygons.of([(1, -1, 1.0, square(8))]), OverflowError),
            (lambda: Polygons.of([(1, 0, "1", square(8))]), TypeError),
            (lambda: Links(vias=[(1, 2, 0, 8, 4, 1, 4)]), ValueError),
            (lambda: Links(vias=[(1, 70000, 0, 8, 4, 1, 4, 2.0)]), OverflowError),
            (lambda: Links(contacts=[(0, 1.5)]), TypeError),
            (lambda: Links(channel_layer=-1), OverflowError),
            (lambda: Table(np.zeros(8, np.int32), (1, 1, 0)), TypeError),
            (lambda: Table(np.zeros(16, np.int64)[::2], (1, 1, 0)), ValueError),
        ):
            with self.assertRaises(error):
                wrong()

    def test_a_row_that_the_caller_has_is_written_in_place(self):
        mesh = one_square()
        row = mesh.table.row.copy()
        table = Table(row, mesh.head)
        table.refine(0)
        self.assertEqual((table.head, row[8:12].tolist()), ((5, 4, 2), [0, 0, 4, 4]))
        self.assertEqual(mesh.head, (1, 1, 2))

    def test_any_bytes_are_read_or_refused(self):
        draw = random.Random(1)
        whole = leafmesh.write(leafmesh.Board(Settings(8, 2), Polygons.of([(1, 0, 1.0, square(8))]), splits=[0]))
        accepted = refused = 0
        for _ in range(2000):
            record = bytearray(whole[: draw.choice((len(whole), draw.randrange(len(whole) + 1)))])
            for _ in range(draw.randrange(3)):
                if record:
                    record[draw.randrange(len(record))] = draw.randrange(256)
            try:
                Mesh.of_record(bytes(record)).network()
                accepted += 1
            except leafmesh.LeafmeshError:
                refused += 1
        self.assertTrue(accepted > 100 and refused > 100, (accepted, refused))


if __name__ == "__main__":
    unittest.main()

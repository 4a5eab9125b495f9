"""The sample boards: their net is what leafnet prints of their records, bit for bit, and past its 64 slots what
`board net` prints. LEAFMESH_PROGRAM names leafnet, LEAFMESH_BOARD the tool board."""

import os
import subprocess
import unittest
from pathlib import Path

import leafmesh
from leafmesh import Mesh

BOARDS = Path(__file__).resolve().parents[3] / "boards"
RECORDS = sorted(BOARDS.glob("*.record"))
PROGRAM = os.environ.get("LEAFMESH_PROGRAM")
BOARD = os.environ.get("LEAFMESH_BOARD")
TOO_LARGE = "refused 6 0\n"


def text_of(record, is_drawn_twice=False):
    """What leafnet prints. Copper that is drawn twice has the library's own net, as there."""
    board = leafmesh.read(record)
    mesh, base = Mesh.of_board(board), Mesh(board.settings, board.polygons, board.layers)
    net = mesh.table.network(mesh.polygons) if is_drawn_twice else mesh.network()
    order = mesh.leaf_order()
    splits = (mesh.head.count - base.head.count) // 4 - len(board.splits)
    lines = [f"cells {mesh.head.count} leaves {len(order)} nodes {len(net.nodes)} edges {len(net.edges)} "
             f"splits {splits}"]
    for id in order:
        cell = mesh.cells[id]
        lines.append("leaf {} {} {} {} {} {} {}".format(
            id, *cell[["polygon", "level", "x0", "y0", "x1", "y1"]].tolist()))
    for number, node in enumerate(net.nodes.tolist()):
        lines.append("node {} {} {} {} {}".format(number, *node))
    bits = net.edges["conductance"].view("u8").tolist()
    for (start, end, _), conductance in zip(net.edges.tolist(), bits):
        lines.append(f"edge {start} {end} {conductance:016x}")
    return "\n".join(lines) + "\n"


def printed(words, record):
    return subprocess.run(words, input=record, capture_output=True).stdout.decode()


class Samples(unittest.TestCase):
    @unittest.skipUnless(PROGRAM, "leafnet isn't named in LEAFMESH_PROGRAM")
    def test_what_leafnet_prints(self):
        told = {path.stem: printed([PROGRAM], path.read_bytes()) for path in RECORDS}
        small = [path for path in RECORDS if told[path.stem] != TOO_LARGE]
        self.assertGreaterEqual(len(small), 4)
        for path in small:
            with self.subTest(board=path.stem):
                self.assertEqual(text_of(path.read_bytes(), path.stem == "overlap"), told[path.stem])

    @unittest.skipUnless(BOARD, "the tool board isn't named in LEAFMESH_BOARD")
    def test_what_board_net_prints(self):
        leaves = []
        # Of copper that is drawn twice the tool makes no net.
        for path in RECORDS:
            if path.stem == "overlap":
                continue
            with self.subTest(board=path.stem):
                text = text_of(path.read_bytes())
                self.assertEqual(text, printed([BOARD, "net"], path.read_bytes()))
                leaves.append(text.count("\nleaf "))
        self.assertGreaterEqual(max(leaves), 2000)

    def test_records_there_and_back(self):
        self.assertGreaterEqual(len(RECORDS), 7)
        for path in RECORDS:
            record = bytearray(path.read_bytes())
            # What stands for the default is read as that.
            record[5] = leafmesh.DEFAULT_LEVEL if record[5] == 255 else record[5]
            with self.subTest(board=path.stem):
                self.assertEqual(leafmesh.write(leafmesh.read(path.read_bytes())), bytes(record))


if __name__ == "__main__":
    unittest.main()

"""Ranges and room, as include/leafmesh.h has them."""

COORDINATE = 2**36  # coordinates lie from minus this to this
MAX_LEVEL = 12
DEFAULT_LEVEL = 4  # of a board record without a level
CAP = 256  # the most base cells that a strip has each way
LAYER_ENTRIES = 64
POLYGONS = 256
RING_POINTS = 1024
SPLITS = 65535  # of a record
SLOTS = 16384
TICK = 2.0**-38  # metres
NO_CELL = 4294967295  # no parent, no child

SLOT_NUMBERS = 8
NODES_A_LEAF = 4
CELLS_A_LEAF = 1
WORK_A_LEAF = 64
CHECK_WORK_A_NODE = 9
CHECK_WORK_AN_EDGE = 3


def record_length(layers: int, polygons: int, points: int, splits: int) -> int:
    """Bytes of a record; exact."""
    return 22 + 10 * layers + 16 * polygons + 16 * points + 4 * splits

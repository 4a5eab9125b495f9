"""What calls raise."""

import enum


class LeafmeshError(Exception):
    """What this package raises of a board; of values that no row can hold it raises Python's own errors."""


class Reason(enum.IntEnum):
    """A refusal's number; later libraries may have more."""

    WRONG_VERSION = 1
    WRONG_LENGTH = 2
    OUT_OF_RANGE = 3
    SLANTED = 4
    UNEVEN_CELL = 5
    NO_ROOM = 6
    BAD_TABLE = 7
    NO_SUCH_CELL = 8
    ALREADY_SPLIT = 9
    FINEST_LEVEL = 10


_WORDS = {
    Reason.WRONG_VERSION: "the record is not of version 1",
    Reason.WRONG_LENGTH: "the record is cut short, too long, or gives a wrong length",
    Reason.OUT_OF_RANGE: "a value is out of range",
    Reason.SLANTED: "two neighbouring points of a ring differ in both x and y",
    Reason.UNEVEN_CELL: "a base cell's side is no multiple of 2^(max_level+1) ticks",
    Reason.NO_ROOM: "a lent row is too short",
    Reason.BAD_TABLE: "the table or net is not well formed, or rows of polygons do not fit together",
    Reason.NO_SUCH_CELL: "there is no cell with this id",
    Reason.ALREADY_SPLIT: "the cell is split already",
    Reason.FINEST_LEVEL: "the cell is at the finest level",
}


class Refusal(LeafmeshError):
    """A refused call. `number` says why (Reason), `words` says it in words; `place` is a byte's offset for a record, a
    polygon's index for its values and rings, a cell's id for the cell that was asked for, and 0 otherwise."""

    def __init__(self, number: int, place: int):
        super().__init__(number, place)
        self.number = number
        self.place = place
        self.words = _WORDS.get(number, "a refusal of a later version")

    def __str__(self) -> str:
        return f"refused {self.number} {self.place}: {self.words}"


class Overlap(LeafmeshError):
    """Copper that is drawn twice, and would conduct twice. `place` (x, y in ticks) is the lowest place, of these the
    westmost one, of all that two or more polygons of one layer and component enclose; `polygons` are the two of the
    lowest numbers that enclose what lies north-east of it, next to it."""

    def __init__(self, polygons: tuple, place: tuple):
        super().__init__(polygons, place)
        self.polygons = polygons
        self.place = place

    def __str__(self) -> str:
        first, second = self.polygons
        return (f"polygon {second} overlaps polygon {first} from {self.place} on: copper of one layer and component is "
                "drawn once")


class NotJoined(LeafmeshError):
    """A net that would be wrong: the node at `place` stands inside a leaf's side, from `side[0]` to `side[1]`, and
    isn't joined along it. All three are x and y in ticks."""

    def __init__(self, place: tuple, side: tuple):
        super().__init__(place, side)
        self.place = place
        self.side = side

    def __str__(self) -> str:
        start, end = self.side
        return f"a node at {self.place} stands inside a leaf's side, from {start} to {end}, and isn't joined along it"


class JoinsNothing(LeafmeshError):
    """A link that finds no node on one side: `kind` is "contact", "via" or "channel", `index` its place in its row."""

    def __init__(self, kind: str, index: int):
        super().__init__(kind, index)
        self.kind = kind
        self.index = index

    def __str__(self) -> str:
        return f"{self.kind} {self.index} joins nothing"

#!/usr/bin/env python3
"""Puts one fault at a time into a copy of the crates, or of the oracle, and sees it caught.

    faults.py [WORD...]    only the faults whose line has one of the words

Each fault is an edit of one file. For one of the crates `rt try` runs the replay program that is named, with no proof,
and what it writes compiled with checks is held to the stored answers. Printed is the first stored case that differs, by
its name and its line in `stdout`, or where the checks stopped the program, which has written nothing then. For one of
the oracle `compare.sh` runs the group of calls that is named, with the library as it is; printed is the first line with
a difference, or where the comparison stopped. Exit status 1 if a fault survives or an edit no longer fits. Not in the
gate: each takes half a minute.

Of each program only the cases at the limits are run, which stand in front; of a group, a few random inputs.
"""

import argparse
import os
import re
import shutil
import subprocess
import sys
import tempfile

ORACLE = os.path.dirname(os.path.abspath(__file__))
ROOT = os.path.dirname(ORACLE)

TABLE, NET, BOARDS, OUTLINE = "replay_table", "replay_net", "replay_boards", "replay_outline"
FORMED = "table/src/formed.rt"
SLOTS = "table/src/slots.rt"
HEAD = "table/src/lib.rt"
LIMITS = "refusals/src/limits.rt"
RECORD_LIMITS = "record/src/board.rt"
PARTS = "record/src/parts.rt"
WALK = "record/src/walk.rt"
ROOMS = "leafnet_text/src/rooms.rt"
RANGES = "build/src/ranges.rt"
OUTLINES = "build/src/outlines.rt"
GRID = "build/src/grid.rt"
RING = "strips/src/ring.rt"
JUDGE = "network/src/judge.rt"
POLYGONS = "net_rows/src/polygons.rt"
NETWORK = "network/src/lib.rt"
CELL = "cell/src/lib.rt"
BORDER = "cell/src/border.rt"
RECTANGLES = "cell/src/rectangles.rt"

# The group of calls that is held to faults of its own, and on how many inputs.
LATER, INPUTS = "later", "200"
LENT = "compare/src/later/lent.rs"
FACTS = "compare/src/later/facts.rs"
NAMES = "calls/src/coarsest.rs"
DRAWN = "inputs/src/later.rs"

SHEETS = """    if let Some(p) = first_bad(sheets) {
        return Err(Refusal::OutOfRange(p));
    }
"""
POLYGON_COUNT = """    if limits::POLYGONS < polygons.layers.len() {
        return Err(Refusal::OutOfRange(0));
    }
"""
JUDGED = "    let table = judge(row, head, polygons, sheets, links)?;\n    let room"
ROOM_FIRST = "    if work.len() < 128 {\n        return Err(Refusal::NoRoom);\n    }\n" + JUDGED
LEAVES = "leaves_of(t, n, m) == Some(head.leaves)"
AT_MOST = "match leaves_of(t, n, m) { Some(leaves) => head.leaves <= leaves, None => false }"
GROWN = "            head: grown,\n"
STALE = """            head: Head {
                count: grown.count,
                leaves: head.leaves,
                max_level: head.max_level,
            },
"""
SEEN = "a.as_cell().border(b.as_cell())"
COMMON = "b.min(d).saturating_sub(a.max(c))"
HEIGHT = "common(self.y0, self.y1, other.y0, other.y1)"
WIDTH = "common(self.x0, self.x1, other.x0, other.x1)"
EAST = "if (self.x1 == other.x0) & (0 < height)"
WEST = "if (other.x1 == self.x0) & (0 < height)"
NORTH = "if (self.y1 == other.y0) & (0 < width)"
SOUTH = "if (other.y1 == self.y0) & (0 < width)"
PASSED_OVER = """            Err(Refusal { number: SPLIT_ALREADY, .. }) => self.went_on(self.head, 0),
"""
IN_PARTS = "        self.at_once(names, allowed)\n"
LIST_ALONE = "        names.iter().try_for_each(|&name| self.split(name))\n"
IS_SPLIT = "if splitting.splits(name)"
IS_PAIR = "splitting_of(self.more).contains(&splitting_of(self.few))"

# What is wrong, the program that shall see it, the file, what stands there and what is put in its place.
FAULTS = [
    ("contact: the side of the second", TABLE, RECTANGLES, SEEN, "b.as_cell().border(a.as_cell())"),
    ("contact: west for east", TABLE, CELL, "(Side::East, height)", "(Side::West, height)"),
    ("contact: east for west", TABLE, CELL, "(Side::West, height)", "(Side::East, height)"),
    ("contact: south for north", TABLE, CELL, "(Side::North, width)", "(Side::South, width)"),
    ("contact: north for south", TABLE, CELL, "(Side::South, width)", "(Side::North, width)"),
    ("contact: sides clockwise", TABLE, BORDER, "self as usize", "(4 - self as usize) % 4"),
    ("contact: sides from the east on", TABLE, BORDER, "self as usize", "(self as usize + 3) % 4"),
    ("contact: the x ranges for a height", TABLE, CELL, HEIGHT, WIDTH),
    ("contact: the y ranges for a width", TABLE, CELL, WIDTH, HEIGHT),
    ("contact: a width on the east side", TABLE, CELL, "(Side::East, height)", "(Side::East, width)"),
    ("contact: a width on the west side", TABLE, CELL, "(Side::West, height)", "(Side::West, width)"),
    ("contact: a height on the north side", TABLE, CELL, "(Side::North, width)", "(Side::North, height)"),
    ("contact: a height on the south side", TABLE, CELL, "(Side::South, width)", "(Side::South, height)"),
    ("contact: no height asked in the east", TABLE, CELL, EAST, EAST.replace("0 < height", "0 <= height")),
    ("contact: no height asked in the west", TABLE, CELL, WEST, WEST.replace("0 < height", "0 <= height")),
    ("contact: no width asked in the north", TABLE, CELL, NORTH, NORTH.replace("0 < width", "0 <= width")),
    ("contact: no width asked in the south", TABLE, CELL, SOUTH, SOUTH.replace("0 < width", "0 <= width")),
    ("contact: no border of one tick in the east", TABLE, CELL, EAST, EAST.replace("0 < height", "1 < height")),
    ("contact: no border of one tick in the south", TABLE, CELL, SOUTH, SOUTH.replace("0 < width", "1 < width")),
    ("contact: a gap of a tick in the east", TABLE, CELL, EAST, EAST.replace("self.x1 ==", "self.x1 + 1 ==")),
    ("contact: a gap of a tick in the south", TABLE, CELL, SOUTH, SOUTH.replace("other.y1 ==", "other.y1 + 1 ==")),
    ("contact: an overlap of a tick in the west", TABLE, CELL, WEST, WEST.replace("== self.x0", "== self.x0 + 1")),
    ("contact: an overlap of a tick in the north", TABLE, CELL, NORTH, NORTH.replace("== other.y0", "== other.y0 + 1")),
    ("contact: east beside east", TABLE, CELL, EAST, EAST.replace("other.x0", "other.x1")),
    ("contact: north beside north", TABLE, CELL, NORTH, NORTH.replace("other.y0", "other.y1")),
    ("contact: what both cover", TABLE, CELL, COMMON, "b.max(d).saturating_sub(a.min(c))"),
    ("contact: the first's whole side", TABLE, CELL, COMMON, "if a.max(c) < b.min(d) { b - a } else { 0 }"),
    ("contact: the second's whole side", TABLE, CELL, COMMON, "if a.max(c) < b.min(d) { d - c } else { 0 }"),
    ("contact: a tick too long", TABLE, CELL, COMMON, "if a.max(c) < b.min(d) { b.min(d) - a.max(c) + 1 } else { 0 }"),
    ("contact: a tick too short", TABLE, CELL, COMMON, COMMON + ".saturating_sub(1)"),
    ("contact: a corner of a tick", TABLE, CELL, COMMON, "(b.min(d) + 1).saturating_sub(a.max(c))"),
    ("contact: 32 bits of a length", TABLE, CELL, COMMON, COMMON + " % 4294967296"),
    ("contact: the first not judged", TABLE, RECTANGLES, "!(a.is_sound() & b.is_sound())", "!b.is_sound()"),
    ("contact: the second not judged", TABLE, RECTANGLES, "!(a.is_sound() & b.is_sound())", "!a.is_sound()"),
    ("contact: one of two judged", TABLE, RECTANGLES, "a.is_sound() & b", "a.is_sound() | b"),
    ("contact: x0 of any range", TABLE, RECTANGLES, "in_range(self.x0)\n            & ", ""),
    ("contact: y0 of any range", TABLE, RECTANGLES, "\n            & in_range(self.y0)", ""),
    ("contact: x1 of any range", TABLE, RECTANGLES, "\n            & in_range(self.x1)", ""),
    ("contact: y1 of any range", TABLE, RECTANGLES, "\n            & in_range(self.y1)", ""),
    ("contact: any width", TABLE, RECTANGLES, "\n            & (self.x0 < self.x1)", ""),
    ("contact: any height", TABLE, RECTANGLES, "\n            & (self.y0 < self.y1)", ""),
    ("contact: no width", TABLE, RECTANGLES, "self.x0 < self.x1", "self.x0 <= self.x1"),
    ("contact: no height", TABLE, RECTANGLES, "self.y0 < self.y1", "self.y0 <= self.y1"),
    ("level range dropped", TABLE, FORMED, "(m <= Cell::WIDEST_LEVEL) & ", ""),
    ("level 13 in a table", TABLE, FORMED, "m <= Cell::WIDEST_LEVEL", "m <= Cell::WIDEST_LEVEL + 1"),
    ("length of whole slots dropped", TABLE, FORMED, "(size % 8 == 0) & ", ""),
    ("16,385 slots", TABLE, FORMED, " & (size / 8 <= limits::SLOTS)", ""),
    ("count past the slots", TABLE, FORMED, " & (n <= size / 8)", ""),
    ("spare slots not looked at", TABLE, FORMED, " && rest_zero(t, n) && leaves_of", " && leaves_of"),
    ("a spare slot's last number not looked at", TABLE, FORMED, "\n        & is_at(t, b + 7, 0)", ""),
    ("root of any level", TABLE, FORMED, "(c.level == 0) & side_ok(step, c.x0", "side_ok(step, c.x0"),
    ("root of any width", TABLE, FORMED, " & side_ok(step, c.x0, c.x1)", ""),
    ("root of any height", TABLE, FORMED, " & side_ok(step, c.y0, c.y1)", ""),
    ("root of no width", TABLE, FORMED, "a < b && ", "a <= b && "),
    ("step 2^m in a table", TABLE, FORMED, "2 << max_level", "1 << max_level"),
    ("root's numbers of any range", TABLE, FORMED, "if !in_slot(self.row, i) {", "if self.count < i {"),
    ("root's x0 of any range", TABLE, SLOTS, "in_range_at(t, b)\n        & ", ""),
    ("root's y0 of any range", TABLE, SLOTS, "\n        & in_range_at(t, b + 1)", ""),
    ("root's x1 of any range", TABLE, SLOTS, "\n        & in_range_at(t, b + 2)", ""),
    ("root's y1 of any range", TABLE, SLOTS, "\n        & in_range_at(t, b + 3)", ""),
    ("negative level", TABLE, SLOTS, "\n        & natural_at(t, b + 4)", ""),
    ("negative polygon", TABLE, SLOTS, "\n        & natural_at(t, b + 7)", ""),
    ("polygon of any number", TABLE, FORMED, "(c.poly < limits::POLYGONS as u64) & root_ok", "root_ok"),
    ("polygon 256", TABLE, FORMED, "c.poly < limits", "c.poly <= limits"),
    ("level past the table's", TABLE, FORMED, "if m <= c.level {", "if m < c.level {"),
    ("child's x0 not looked at", TABLE, FORMED, "is_at(t, b, ticks(kid.x0))\n        & ", ""),
    ("child's y0 not looked at", TABLE, FORMED, "\n        & is_at(t, b + 1, ticks(kid.y0))", ""),
    ("child's x1 not looked at", TABLE, FORMED, "\n        & is_at(t, b + 2, ticks(kid.x1))", ""),
    ("child's y1 not looked at", TABLE, FORMED, "\n        & is_at(t, b + 3, ticks(kid.y1))", ""),
    ("child's level not looked at", TABLE, FORMED, "\n        & is_at(t, b + 4, kid.level as i64)", ""),
    ("child's parent not looked at", TABLE, FORMED, "\n        & is_at(t, b + 5, p as i64)", ""),
    ("child's polygon not looked at", TABLE, FORMED, "\n        & is_at(t, b + 7, poly)", ""),
    ("first child of another parent", TABLE, FORMED, "((i < g) & is_at(self.row, g * 8 + 5, i as i64))", "(i < g)"),
    ("a child's children not looked at", TABLE, FORMED, "self.led(i) & self.led(i + 1) & ", "self.led(i + 1) & "),
    ("fewer than four children", TABLE, FORMED, "if self.count - i < 4 || ", "if self.count < i || "),
    ("parent not before its children", TABLE, FORMED, " || i as u64 <= p {", " || p == Cell::NO_CELL {"),
    ("not one of its parent's four", TABLE, FORMED, "is_at(self.row, q * 8 + 6, i as i64) & kids_ok", "kids_ok"),
    ("the head's leaves not asked", TABLE, FORMED, LEAVES, "leaves_of(t, n, m).is_some()"),
    ("the head's leaves not asked by a net", NET, FORMED, LEAVES, "leaves_of(t, n, m).is_some()"),
    ("fewer leaves than there are", TABLE, FORMED, LEAVES, AT_MOST),
    ("more leaves than there are", TABLE, FORMED, LEAVES, AT_MOST.replace("<=", ">=")),
    ("half of the leaves' bits", TABLE, FORMED, "Some(head.leaves)", "Some(head.leaves % 4294967296)"),
    ("a leaf for each cell", TABLE, FORMED, "Some(n - (n - roots) / 4)", "Some(n)"),
    ("roots not counted", TABLE, FORMED, "roots += 1;", "roots += 0;"),
    ("leaf count: the cells", TABLE, "table/src/leaves.rt", "    head.leaves\n", "    head.count\n"),
    ("refine: four leaves more", TABLE, HEAD, "leaves: self.leaves + 3,", "leaves: self.leaves + 4,"),
    ("refine: the leaves of before", TABLE, HEAD, "leaves: self.leaves + 3,", "leaves: self.leaves,"),
    ("balance and conform: the leaves of before", TABLE, "even/src/lib.rt", GROWN, STALE),
    ("build: no leaves", OUTLINE, HEAD, "leaves: count,", "leaves: 0,"),
    ("level 13", BOARDS, LIMITS, "MAX_LEVEL: u64 = 12;", "MAX_LEVEL: u64 = 13;"),
    ("level 11", BOARDS, LIMITS, "MAX_LEVEL: u64 = 12;", "MAX_LEVEL: u64 = 11;"),
    ("257 polygons", BOARDS, RECORD_LIMITS, "polygons: POLYGONS as u16", "polygons: POLYGONS as u16 + 1"),
    ("255 polygons", BOARDS, RECORD_LIMITS, "polygons: POLYGONS as u16", "polygons: POLYGONS as u16 - 1"),
    ("step 2^m", BOARDS, FORMED, "2 << max_level", "1 << max_level"),
    ("255 means 3", BOARDS, LIMITS, "DEFAULT_LEVEL: u64 = 4;", "DEFAULT_LEVEL: u64 = 3;"),
    ("255 means 5", BOARDS, LIMITS, "DEFAULT_LEVEL: u64 = 4;", "DEFAULT_LEVEL: u64 = 5;"),
    ("254 means 4", BOARDS, PARTS, "255 => DEFAULT_LEVEL", "level if level >= 254 => DEFAULT_LEVEL"),
    ("equal layers", BOARDS, PARTS, "last < layer", "last <= layer"),
    ("r_sheet above 2^40", BOARDS, LIMITS, "0x4270_0000_0000_0000", "0x4270_0000_0000_0001"),
    ("r_sheet 2^40 refused", BOARDS, LIMITS, "0x4270_0000_0000_0000", "0x426f_ffff_ffff_ffff"),
    ("r_sheet below 2^-40", BOARDS, LIMITS, "0x3d70_0000_0000_0000", "0x3d6f_ffff_ffff_ffff"),
    ("1,024 points too many", BOARDS, RECORD_LIMITS, "RING_POINTS as u16", "RING_POINTS as u16 - 1"),
    ("1,025 points", BOARDS, RECORD_LIMITS, "RING_POINTS as u16", "RING_POINTS as u16 + 1"),
    ("too little room for 1,021 points", BOARDS, ROOMS, "POINTS: usize = 1024;", "POINTS: usize = 1020;"),
    ("63 layer entries", BOARDS, LIMITS, "LAYERS: usize = 64;", "LAYERS: usize = 63;"),
    ("65 layer entries", BOARDS, RECORD_LIMITS, "LAYERS as u16", "LAYERS as u16 + 1"),
    ("cap 257", BOARDS, RECORD_LIMITS, "CAP as u16", "CAP as u16 + 1"),
    ("cap 0", BOARDS, WALK, "within(1, limits.cap)", "within(0, limits.cap)"),
    ("target past 2^36", BOARDS, WALK, "within(1, limits.cell)", "within(1, limits.cell + 1)"),
    ("a layer's cell past 2^36", BOARDS, WALK, "within(0, limits.cell)", "within(0, limits.cell + 1)"),
    ("a coordinate past 2^36", BOARDS, LIMITS, "COORDINATE: i64 = 1 << 36;", "COORDINATE: i64 = (1 << 36) + 1;"),
    ("build: level 13", OUTLINE, RANGES, "s.max_level <= limits::MAX_LEVEL", "s.max_level <= limits::MAX_LEVEL + 1"),
    ("build: level 12 refused", OUTLINE, RANGES, "s.max_level <= limits::MAX_LEVEL", "s.max_level < limits::MAX_LEVEL"),
    ("build: 257 polygons", OUTLINE, RANGES, "polygons <= limits::POLYGONS", "polygons <= limits::POLYGONS + 1"),
    ("build: 256 polygons refused", OUTLINE, RANGES, "polygons <= limits::POLYGONS", "polygons < limits::POLYGONS"),
    ("build: cap 0", OUTLINE, RANGES, "(1 <= s.cap) & ", ""),
    ("build: cap 257", OUTLINE, RANGES, "s.cap <= limits::CAP", "s.cap <= limits::CAP + 1"),
    ("build: cap 256 refused", OUTLINE, RANGES, "s.cap <= limits::CAP", "s.cap < limits::CAP"),
    ("build: cap not held", OUTLINE, GRID, "n.clamp(1, self.cap)", "n.max(1)"),
    ("build: a target past 2^36", OUTLINE, RANGES, "s.target <= limits::CELL", "s.target <= limits::CELL + 1"),
    ("build: a target of 2^36 refused", OUTLINE, RANGES, "s.target <= limits::CELL", "s.target < limits::CELL"),
    ("build: a target of 1 refused", OUTLINE, RANGES, "1 <= s.target", "1 < s.target"),
    ("build: 65 layer entries", OUTLINE, RANGES, "list.len() <= limits::LAYERS", "list.len() <= limits::LAYERS + 1"),
    ("build: 64 layer entries refused", OUTLINE, RANGES, "list.len() <= limits::LAYERS", "list.len() < limits::LAYERS"),
    ("build: layer 65,536", OUTLINE, RANGES, "entry[0] < 65536", "entry[0] <= 65536"),
    ("build: layer 65,535 refused", OUTLINE, RANGES, "entry[0] < 65536", "entry[0] < 65535"),
    ("build: equal layers", OUTLINE, RANGES, "a[0] < b[0]", "a[0] <= b[0]"),
    ("build: a layer's cell past 2^36", OUTLINE, RANGES, "entry[1] <= limits::CELL", "entry[1] <= limits::CELL + 1"),
    ("build: a layer's cell of 2^36 refused", OUTLINE, RANGES, "entry[1] <= limits::CELL", "entry[1] < limits::CELL"),
    ("build: 1,025 points", OUTLINE, RING, "points.len() <= RING_POINTS", "points.len() <= RING_POINTS + 1"),
    ("build: 1,024 points refused", OUTLINE, RING, "points.len() <= RING_POINTS", "points.len() < RING_POINTS"),
    ("build: x of any range", OUTLINE, RING, "ticks::in_range(p[0]) & ", ""),
    ("build: y of any range", OUTLINE, RING, " & ticks::in_range(p[1])", ""),
    ("build: no sheet judged", OUTLINE, OUTLINES, "if !floats::sheet_in_range(sheet) {", "if sheet > 1.0e300 {"),
    ("build: 16,385 slots", OUTLINE, FORMED, "size / 8 <= limits::SLOTS", "size / 8 <= limits::SLOTS + 1"),
    ("build: 16,384 slots refused", OUTLINE, FORMED, "size / 8 <= limits::SLOTS", "size / 8 < limits::SLOTS"),
    ("build: slots that aren't whole", OUTLINE, FORMED, "(size % 8 == 0) & ", ""),
    ("build: layers of another length", OUTLINE, OUTLINES, "(self.layers.len() == n) & ", ""),
    ("build: components of another length", OUTLINE, OUTLINES, "(self.components.len() == n) & ", ""),
    ("build: sheets of another length", OUTLINE, OUTLINES, " & (self.sheets.len() == n)", ""),
    ("build: counts that don't add up", OUTLINE, OUTLINES, "    left == 0\n", "    left < 2\n"),
    ("network: bad table", NET, JUDGE, "ok_or(Refusal::BadTable)?", "ok_or(Refusal::NoRoom)?"),
    ("network: index at the count", NET, POLYGONS, "polygon(id) < count", "polygon(id) <= count"),
    ("network: components of another length", NET, POLYGONS, "self.layers.len() == self.components.len() && ", ""),
    ("network: sheets of another length", NET, JUDGE, " || sheets.len() != polygons.layers.len()", ""),
    ("network: 257 polygons", NET, JUDGE, "limits::POLYGONS < polygons", "limits::POLYGONS + 1 < polygons"),
    ("network: 256 polygons refused", NET, JUDGE, "limits::POLYGONS < polygons", "limits::POLYGONS <= polygons"),
    ("network: no sheet judged", NET, JUDGE, SHEETS, ""),
    ("network: the last bad sheet", NET, JUDGE, "OutOfRange(p)", "OutOfRange(sheets.len() - 1)"),
    ("network: a sheet above 2^40", NET, LIMITS, "1099511627776.0", "1099511627776.001"),
    ("network: a node short", NET, JUDGE, "self.nodes / NODES", "(self.nodes + 1) / NODES"),
    ("network: an edge short", NET, NETWORK, "links, room.edges)", "links, room.edges + 1)"),
    ("network: a cell short", NET, JUDGE, "self.cells)", "self.cells + 1)"),
    ("network: a work number short", NET, JUDGE, "self.work / WORK", "(self.work + 1) / WORK"),
    ("network: no room looked at", NET, NETWORK, "if !room.holds(", "if room.holds(9000 + "),
    ("network: the room before the sheet", NET, NETWORK, JUDGED, ROOM_FIRST),
    ("network: the sheet before the polygon count", NET, JUDGE, POLYGON_COUNT + SHEETS, SHEETS + POLYGON_COUNT),
    ("later: a split cell not passed over", LATER, LENT, PASSED_OVER, ""),
    ("later: no evening behind the list, in parts", LATER, LENT, IN_PARTS, LIST_ALONE),
    ("later: conform behind the list, in parts", LATER, LENT, IN_PARTS, IN_PARTS.replace("allowed", "Allowed::None")),
    ("later: leaves by id", LATER, NAMES, "zip(names(table, count))", "zip((0..count).map(Name::root))"),
    ("later: any two tables for a pair", LATER, FACTS, IS_PAIR, "true"),
    ("later: the few finer than more", LATER, FACTS, "if more.contains(&few) {", "if few.contains(&more) {"),
    ("later: more without a split of the few", LATER, DRAWN, IS_SPLIT, IS_SPLIT + " && !random.one_in(50)"),
]


def read(path):
    with open(path, "rb") as file:
        return file.read()


def write(path, data):
    with open(path, "wb") as file:
        file.write(data)


def names_of(program):
    """The stored cases by the line at which each begins."""
    lines = read(os.path.join(ORACLE, "names", program)).decode().splitlines()
    return [(int(line.split(" ", 1)[0]), line.split(" ", 1)[1]) for line in lines]


def at_the_limits(names):
    """How many cases stand in front, and the line behind them."""
    for place, (line, name) in enumerate(names):
        if name.startswith("a drawn") or name.endswith("that shows one thing"):
            return place, line
    raise SystemExit("no case ends the limits")


def number(value):
    """A number as the streams have it."""
    width = (value.bit_length() + 7) // 8
    return bytes([width]) + value.to_bytes(width, "big")


def cut(folder, program):
    """Leaves only the cases at the limits in a program's streams."""
    cases, line = at_the_limits(names_of(program))
    crate = os.path.join(folder, "crates", program)
    stdin = read(os.path.join(crate, "stdin"))
    if program == BOARDS:
        end = 0
        for _ in range(cases):
            end += 4 + int.from_bytes(stdin[end : end + 4], "big")
        stdin = stdin[:end]
    else:
        stdin = number(cases) + stdin[1 + stdin[0] :]
    write(os.path.join(crate, "stdin"), stdin)
    lines = read(os.path.join(crate, "stdout")).splitlines(keepends=True)
    write(os.path.join(crate, "stdout"), b"".join(lines[: line - 1]))


def tried(folder, program):
    """None if the program writes all as stored, else the byte where it differs (-1: it was stopped) and what rt says.

    The interpreter wouldn't come to a stream's end, so it gets one step.
    """
    crate = os.path.join(folder, "crates", program)
    with open(os.path.join(crate, "stdin"), "rb") as stdin:
        run = subprocess.run(["rt", "try", "--steps", "1"], cwd=crate, stdin=stdin, capture_output=True)
    said = run.stderr.decode(errors="replace")
    stopped = re.search(r"^checked: (fault.*?)(?: at=.*)?$", said, re.M)
    if stopped:
        return -1, stopped.group(1)
    ended = re.search(r"^run=ended status=.*$", said, re.M)
    if not ended:
        raise ValueError(said)
    stored = read(os.path.join(crate, "stdout"))
    if run.returncode == 0 and run.stdout == stored:
        return None
    return len(os.path.commonprefix([run.stdout, stored])), ended.group(0)


def case_at(folder, program, byte):
    """The stored case of that byte: its name, its line and what is stored there."""
    text = read(os.path.join(folder, "crates", program, "stdout"))
    line = text[:byte].count(b"\n") + 1
    name = [name for begin, name in names_of(program) if begin <= line][-1]
    stored = text.split(b"\n")[line - 1].decode()[:60]
    return f"{program}, {name} (line {line}: {stored})"


def caught_by(folder, program):
    """None if nothing differs, else what does, in words. Of a program: the stored case."""
    if program == LATER:
        return compared(folder, program)
    differs = tried(folder, program)
    if differs is None:
        return None
    byte, said = differs
    return case_at(folder, program, byte) if byte >= 0 else f"{program}: {said}"


def compared(folder, group):
    """None if the comparison ends without a difference, else its first line with one, or where it stopped."""
    run = subprocess.run(["./compare.sh", group, INPUTS], cwd=os.path.join(folder, "oracle"), capture_output=True)
    said, stopped = run.stdout.decode(), re.search(r"panicked at [^\n]*\n[^\n]*", run.stderr.decode())
    differing = re.search(r"^.*, [1-9][0-9]* differ$", said, re.M)
    if run.returncode == 0:
        return None
    if not differing and not stopped:
        raise ValueError(run.stderr.decode())
    return (differing or stopped).group(0).replace("\n", " ")


def copied_oracle(folder):
    """The oracle in the folder, beside the bindings, which find library and original where this repository does."""
    for part in ("oracle", "bindings/rust"):
        no_work = shutil.ignore_patterns("target")
        shutil.copytree(os.path.join(ROOT, part), os.path.join(folder, part), ignore=no_work)
    for read in ("usage.sh", "places.sh"):
        shutil.copy(os.path.join(ROOT, "bindings", read), os.path.join(folder, "bindings"))
    if "LEAFMESH_LIBRARY" not in os.environ:
        subprocess.run([os.path.join(ROOT, "bindings", "library.sh")], check=True)
    library = os.environ.get("LEAFMESH_LIBRARY", os.path.join(ROOT, "crates", "leafmesh", "out"))
    os.environ["LEAFMESH_LIBRARY"] = os.path.abspath(library)
    os.environ.setdefault("LEAFMESH_ORIGINAL", os.path.join(ROOT, "..", "shared", "docs", "src"))
    # The group runs no program, so it isn't made.
    os.environ.setdefault("LEAFMESH_PROGRAM", "leafnet")


def result_of(folder, fault):
    """What is said of a fault, and whether it was caught."""
    _, program, file, old, new = fault
    path = os.path.join(folder, "oracle" if program == LATER else "crates", file)
    before = read(path)
    if before.count(old.encode()) != 1:
        return f"NO SUCH TEXT, or more than once: {old!r}", False
    write(path, before.replace(old.encode(), new.encode()))
    try:
        caught = caught_by(folder, program)
    except ValueError as why:
        return f"NOT COMPILED, or no answer: {str(why)[:300]}", False
    finally:
        write(path, before)
    return ("SURVIVED", False) if caught is None else (f"caught by {caught}", True)


def chosen_faults():
    """Those that the words name; a word that names none is refused."""
    parser = argparse.ArgumentParser(description=__doc__, formatter_class=argparse.RawDescriptionHelpFormatter,
                                     usage="faults.py [WORD...]", add_help=False)
    parser.add_argument("--help", action="help")
    parser.add_argument("words", metavar="WORD", nargs="*")
    words = parser.parse_args().words
    lines = [" ".join(fault[:3]) for fault in FAULTS]
    for word in words:
        if not any(word in line for line in lines):
            parser.error(f"no fault has {word!r} in its line")
    return [fault for fault, line in zip(FAULTS, lines) if not words or any(word in line for word in words)]


def main():
    faults = chosen_faults()
    folder = tempfile.mkdtemp()
    try:
        kept_work = shutil.ignore_patterns("out")
        shutil.copytree(os.path.join(ROOT, "crates"), os.path.join(folder, "crates"), ignore=kept_work)
        shutil.copy(os.path.join(ROOT, "crates.txt"), folder)
        for program in (TABLE, NET, BOARDS, OUTLINE):
            cut(folder, program)
        programs = sorted({fault[1] for fault in faults})
        if LATER in programs:
            copied_oracle(folder)
        for program in programs:
            differs = caught_by(folder, program)
            if differs is not None:
                raise SystemExit(f"{program} differs without a fault: {differs}")
        missed = 0
        for fault in faults:
            said, caught = result_of(folder, fault)
            missed += not caught
            print(f"{fault[0]}: {said}", flush=True)
        print(f"{len(faults) - missed} of {len(faults)} faults caught")
        return 1 if missed else 0
    finally:
        shutil.rmtree(folder)


if __name__ == "__main__":
    sys.exit(main())

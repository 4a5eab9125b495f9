#!/usr/bin/env python3
"""What other programs' readers make of a file of a mesh: how many leaves and links, and the watts of all of them.

    files.py vtk FILE        by VTK's own reader, ParaView's
    files.py meshio FILE     by meshio, of a file for ParaView or for Gmsh
    files.py csv FILE        by Python's csv

With no FILE it says nothing and ends with 0 if the reader is installed, with 1 if it isn't.
"""

import contextlib
import io
import sys


def by_vtk(file):
    from vtkmodules.vtkIOLegacy import vtkUnstructuredGridReader

    if file is None:
        return None
    reader = vtkUnstructuredGridReader()
    reader.ReadAllScalarsOn()
    reader.ReadAllVectorsOn()
    reader.SetFileName(file)
    reader.Update()
    grid = reader.GetOutput()
    kinds = [grid.GetCellType(at) for at in range(grid.GetNumberOfCells())]
    watts = grid.GetCellData().GetArray("watts")
    values = [watts.GetValue(at) for at in range(watts.GetNumberOfTuples())]
    assert grid.GetCellData().GetArray("current_A_per_mm").GetNumberOfComponents() == 3
    assert grid.GetPointData().GetArray("volts").GetNumberOfTuples() == grid.GetNumberOfPoints()
    return kinds.count(9), kinds.count(3), sum(values)


def by_meshio(file):
    import meshio

    if file is None:
        return None
    mesh = meshio.read(file)
    count = {"quad": 0, "line": 0}
    for block in mesh.cells:
        count[block.type] += len(block.data)
    watts = sum(float(values.sum()) for values in mesh.cell_data["watts"])
    return count["quad"], count["line"], watts


def by_csv(file):
    import csv

    if file is None:
        return None
    with open(file, newline="") as lines:
        rows = list(csv.DictReader(lines, strict=True))
    assert all(None not in row and None not in row.values() for row in rows)
    return len(rows), 0, sum(float(row["power_W"]) for row in rows)


READERS = {"vtk": by_vtk, "meshio": by_meshio, "csv": by_csv}


def main(words):
    if words == ["--help"]:
        print(__doc__.strip())
        return 0
    if len(words) not in (1, 2) or words[0] not in READERS:
        print("usage: files.py vtk|meshio|csv [FILE]", file=sys.stderr)
        return 2
    try:
        # What a reader itself says is no answer.
        with contextlib.redirect_stdout(io.StringIO()):
            found = READERS[words[0]](*words[1:2] or [None])
    except ImportError:
        return 1
    if found:
        print("{} {} {:.9g}".format(*found))
    return 0


if __name__ == "__main__":
    sys.exit(main(sys.argv[1:]))

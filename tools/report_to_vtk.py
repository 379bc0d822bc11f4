#!/usr/bin/env python3
"""Turns a report from standard input into VTK files, for ParaView and other programs that read VTK. Needs no package.

    bin/peano < examples/diffusing_pulse.toml | tools/report_to_vtk.py /tmp/pulse

writes /tmp/pulse_0.vtu, /tmp/pulse_20.vtu and so on, one for each printed step, and /tmp/pulse.pvd, which lists them by step.
Each is an unstructured grid of the leaves, in the unit square or cube, with the cell data `level`, `value` and, of a wave,
`speed`.
"""
import argparse
import itertools
import os
import sys

from draw_field import Unreadable, axes_of, read

# VTK's numbers of the kinds of cells: a pixel is an axis-parallel square, a voxel such a cube.
KIND = {2: 8, 3: 11}


def points_of(leaves, axes):
    """The corners of the leaves, each once, and for each leaf the numbers of its corners, the first axis the fastest."""
    finest = max(leaf[0] for leaf in leaves)
    numbers, corners = {}, []
    for leaf in leaves:
        width = 3 ** (finest - leaf[0])
        for bits in itertools.product((0, 1), repeat=axes):
            point = tuple((leaf[1 + axis] + bits[axes - 1 - axis]) * width for axis in range(axes))
            corners.append(numbers.setdefault(point, len(numbers)))
    return [[at / 3**finest for at in point] + [0.0] * (3 - axes) for point in numbers], corners


def array(kind, name, numbers, components=1):
    """A list of numbers as VTK writes it."""
    parts = f' NumberOfComponents="{components}"' if components > 1 else ""
    return f'<DataArray type="{kind}" Name="{name}"{parts} format="ascii">{" ".join(map(str, numbers))}</DataArray>'


def grid_of(leaves, axes):
    """The text of a file of one step."""
    points, corners = points_of(leaves, axes)
    names = ["level", "value", "speed"]
    columns = [[leaf[0] for leaf in leaves]] + [[leaf[n] for leaf in leaves] for n in range(1 + axes, len(leaves[0]))]
    return "\n".join(
        [
            '<VTKFile type="UnstructuredGrid" version="1.0" byte_order="LittleEndian" header_type="UInt64">',
            f'<UnstructuredGrid><Piece NumberOfPoints="{len(points)}" NumberOfCells="{len(leaves)}">',
            "<Points>",
            array("Float64", "points", itertools.chain(*points), 3),
            "</Points>",
            "<Cells>",
            array("Int64", "connectivity", corners),
            array("Int64", "offsets", range(2**axes, 2**axes * len(leaves) + 1, 2**axes)),
            array("UInt8", "types", [KIND[axes]] * len(leaves)),
            "</Cells>",
            '<CellData Scalars="value">',
            *(array("Int64", name, column) for name, column in zip(names, columns)),
            "</CellData>",
            "</Piece></UnstructuredGrid></VTKFile>",
            "",
        ]
    )


def list_of(name, steps):
    """The text of the file that lists the steps."""
    files = [f'<DataSet timestep="{step}" file="{os.path.basename(name)}_{step}.vtu"/>' for step, _ in steps]
    return "\n".join(['<VTKFile type="Collection" version="1.0">', "<Collection>", *files, "</Collection></VTKFile>", ""])


def main():
    lines = __doc__.split("\n\n")
    parser = argparse.ArgumentParser(
        description=lines[0], epilog="\n\n".join(lines[1:]), formatter_class=argparse.RawDescriptionHelpFormatter
    )
    parser.add_argument("name", metavar="NAME", help="the files are NAME_STEP.vtu and NAME.pvd")
    parser.add_argument("--axes", type=int, choices=(2, 3), help="the number of axes, where the report does not tell it")
    options = parser.parse_args()
    steps = read(sys.stdin)
    axes = options.axes or next((axes for axes in (axes_of(leaves) for _, leaves in steps) if axes), None)
    if axes is None:
        raise Unreadable("the report does not tell the number of axes: say --axes 2 or --axes 3")
    for step, leaves in steps:
        with open(f"{options.name}_{step}.vtu", "w", encoding="utf-8") as file:
            file.write(grid_of(leaves, axes))
    with open(f"{options.name}.pvd", "w", encoding="utf-8") as file:
        file.write(list_of(options.name, steps))


if __name__ == "__main__":
    try:
        main()
    except Unreadable as fault:
        sys.exit(f"report_to_vtk: {fault}")

#!/usr/bin/env python3
"""Writes the leaves of a refined mesh as a legacy VTK text file.

usage: tools/to_vtk.py mesh.txt refined.txt > mesh.vtk

mesh.txt is the program's input: its V lines give the initial points.
refined.txt is what the program printed: P lines give the midpoints, L lines the leaves.
A leaf's four points stand in the order of its row, whatever its orientation in space.
"""

import struct
import sys

VTK_TETRA = 10


class Unusable(Exception):
    """What is wrong with the two files, for the user."""


def number(field):
    if not field.isascii() or not field.isdecimal():
        raise Unusable(f"not a number: {field!r}")
    return int(field)


def point(fields):
    """Three f64, each as the 16 hex digits of its bits."""
    try:
        return [struct.unpack(">d", bytes.fromhex(field))[0] for field in fields]
    except (ValueError, struct.error):
        raise Unusable(f"not a coordinate: {' '.join(fields)}") from None


def records(path):
    """The lines of a file as lists of fields."""
    try:
        with open(path, encoding="ascii", newline="\n") as file:
            lines = file.read().split("\n")
    except (OSError, UnicodeDecodeError) as error:
        raise Unusable(f"{path}: {error}") from None
    return [line.split("\t") for line in lines if line]


def of_kind(lines, kind, fields):
    """The fields after the kind, of all lines of that kind."""
    found = [line[1:] for line in lines if line[0] == kind]
    if any(len(line) != fields for line in found):
        raise Unusable(f"a {kind} line does not have {fields} fields after its {kind}")
    return found


def read(mesh, refined):
    """Points by vertex number, and the leaves' numbers in the order they are listed."""
    printed = records(refined)
    if not printed or printed[0][0] != "C" or len(printed[0]) != 5:
        raise Unusable(f"{refined}: the first line is not a C line")
    refusal, vertices, rows = (number(field) for field in printed[0][1:4])
    if refusal != 0:
        raise Unusable(f"{refined}: the mesh was refused, number {refusal}, place {vertices}")
    points = [point(fields) for fields in of_kind(records(mesh), "V", 3)]
    for fields in of_kind(printed, "P", 6):
        if number(fields[0]) != len(points):
            raise Unusable(f"vertex {fields[0]} does not follow the V lines of {mesh}")
        points.append(point(fields[3:]))
    leaves = [[number(field) for field in line] for line in of_kind(printed, "L", 9)]
    if len(points) != vertices or any(v >= vertices for leaf in leaves for v in leaf[5:]):
        raise Unusable(f"{mesh} and {refined} do not belong together")
    if not leaves or any(leaf[0] >= rows for leaf in leaves):
        raise Unusable(f"{refined}: the L lines do not fit the C line")
    return points, leaves


def vtk(points, leaves):
    """The lines of the file."""
    yield "# vtk DataFile Version 3.0"
    yield "leaves of a refined tetrahedral mesh"
    yield "ASCII"
    yield "DATASET UNSTRUCTURED_GRID"
    yield f"POINTS {len(points)} double"
    for coordinates in points:
        yield " ".join(repr(c) for c in coordinates)
    yield f"CELLS {len(leaves)} {5 * len(leaves)}"
    for leaf in leaves:
        yield " ".join(str(n) for n in [4] + leaf[5:])
    yield f"CELL_TYPES {len(leaves)}"
    for _ in leaves:
        yield str(VTK_TETRA)
    yield f"CELL_DATA {len(leaves)}"
    # An L line is row, root, depth, level, tag, v0 to v3.
    for name, field in (("level", 3), ("tag", 4), ("root", 1)):
        yield f"SCALARS {name} int 1"
        yield "LOOKUP_TABLE default"
        for leaf in leaves:
            yield str(leaf[field])


def main(arguments):
    if len(arguments) != 2:
        print("usage: to_vtk.py mesh.txt refined.txt > mesh.vtk", file=sys.stderr)
        return 2
    try:
        points, leaves = read(*arguments)
    except Unusable as error:
        print(f"to_vtk.py: {error}", file=sys.stderr)
        return 1
    sys.stdout.write("".join(line + "\n" for line in vtk(points, leaves)))
    return 0


if __name__ == "__main__":
    sys.exit(main(sys.argv[1:]))

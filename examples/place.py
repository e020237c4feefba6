#!/usr/bin/env python3
"""Puts a mesh of isobench into the space of the volume that it was made from.

    python3 place.py HEADER [--ras] < mesh.ply > placed.ply

isobench writes positions in voxels: (0, 0, 0) is the centre of the first sample, and one unit is the distance to the next
one. HEADER is the NRRD file (or detached header) with the fields `space directions` and `space origin`, or `spacings`. A
position (x, y, z) becomes origin + x d0 + y d1 + z d2, in the units of the header, usually millimetres, with nine
significant digits. If the three directions form a left-handed system, the triangles are reversed, so that they face the
same side as before.

PLY, OBJ, OFF and legacy VTK meshes of isobench are placed. A header with neither directions nor spacings is refused. With
--ras the mesh is put into right-anterior-superior space, from the space that the header names: left-posterior-superior,
right-anterior-superior or left-anterior-superior.
"""
import itertools
import re
import sys

# What the coordinates of each space are multiplied by to give those of right-anterior-superior.
TO_RAS = {
    "right-anterior-superior": (1, 1, 1), "ras": (1, 1, 1),
    "left-anterior-superior": (-1, 1, 1), "las": (-1, 1, 1),
    "left-posterior-superior": (-1, -1, 1), "lps": (-1, -1, 1),
}


def fields_of(path):
    """The fields of an NRRD header, by lower-case name."""
    fields = {}
    with open(path, "rb") as file:
        if not file.readline().startswith(b"NRRD"):
            sys.exit(f"{path} is no NRRD file")
        for line in file:
            text = line.decode("ascii", "replace").strip()
            if not text:
                break
            name, found, value = text.partition(": ")
            if found and not text.startswith("#"):
                fields[name.lower()] = value
    return fields


def vectors_of(text):
    """The vectors of a value such as `(1,0,0) (0,1,0) (0,0,1)`."""
    return [tuple(float(number) for number in group.split(",")) for group in re.findall(r"\(([^)]*)\)", text)]


def frame_of(fields):
    """The three directions and the origin."""
    directions, origin = vectors_of(fields.get("space directions", "")), vectors_of(fields.get("space origin", ""))
    if not directions and "spacings" not in fields:
        sys.exit("the header has neither `space directions` nor `spacings`, so a voxel has no size: add a line such as "
                 "`spacings: 0.5 0.5 2` to it")
    if not directions:
        steps = [float(word) for word in fields["spacings"].split()]
        directions = [tuple(step if i == axis else 0.0 for i in range(3)) for axis, step in enumerate(steps)]
    if len(directions) != 3 or any(len(direction) != 3 for direction in directions):
        sys.exit("the header does not give three directions of three numbers")
    return directions, origin[0] if origin else (0.0, 0.0, 0.0)


def is_left_handed(directions):
    (a, b, c), (d, e, f), (g, h, i) = directions
    return a * (e * i - f * h) - b * (d * i - f * g) + c * (d * h - e * g) < 0


def signs_of(fields):
    """What the header's coordinates are multiplied by for right-anterior-superior."""
    space = fields.get("space", "left-posterior-superior").lower()
    if space not in TO_RAS:
        sys.exit(f"the header's space is {space}, which --ras cannot change: leave --ras out")
    return TO_RAS[space]


class Frame:
    """Where the positions of a mesh go, and which way its triangles are then run."""

    def __init__(self, fields, to_ras):
        self.directions, self.origin = frame_of(fields)
        self.signs = signs_of(fields) if to_ras else (1, 1, 1)
        self.turned = is_left_handed(self.directions)

    def placed(self, numbers):
        at = [float(number) for number in numbers]
        moved = (self.origin[k] + sum(at[i] * self.directions[i][k] for i in range(3)) for k in range(3))
        return " ".join("%.9g" % (sign * value + 0.0) for sign, value in zip(self.signs, moved))  # + 0.0: no -0

    def corners(self, numbers):
        first, second, third = numbers
        return f"{first} {third} {second}" if self.turned else f"{first} {second} {third}"


def put_lists(frame, lines, write, vertices, between):
    """Vertices, then the lines up to the triangles, then the triangles, each with its 3."""
    for _ in range(vertices):
        write(frame.placed(next(lines).split()) + "\n")
    for _ in range(between):
        write(next(lines) + "\n")
    for line in lines:
        write("3 " + frame.corners(line.split()[1:]) + "\n")


def put_ply(frame, lines, write):
    vertices = 0
    for line in lines:
        write(line + "\n")
        if line.startswith("element vertex"):
            vertices = int(line.split()[2])
        if line == "end_header":
            break
    put_lists(frame, lines, write, vertices, 0)


def put_off(frame, lines, write):
    counts = next(lines)
    write(counts + "\n")
    put_lists(frame, lines, write, int(counts.split()[0]), 0)


def put_vtk(frame, lines, write):
    for line in lines:
        write(line + "\n")
        if line.startswith("POINTS"):
            put_lists(frame, lines, write, int(line.split()[1]), 1)


def put_obj(frame, lines, write):
    for line in lines:
        word, *numbers = line.split() or [""]
        write(f"v {frame.placed(numbers)}\n" if word == "v" else f"f {frame.corners(numbers)}\n" if word == "f" else line + "\n")


def main():
    words = [word for word in sys.argv[1:] if word != "--ras"]
    if len(words) != 1 or words[0].startswith("-"):
        sys.exit(__doc__)
    frame = Frame(fields_of(words[0]), "--ras" in sys.argv)
    lines = (line.rstrip("\n") for line in sys.stdin)
    first = next(lines, None)
    if first is None:
        return
    put = {"ply": put_ply, "OFF": put_off}.get(first, put_vtk if first.startswith("# vtk") else None)
    if put is None and first.split()[:1] not in ([], ["v"], ["f"]):
        sys.exit(f"a mesh that begins with {first[:40]!r} is not PLY, OBJ, OFF or legacy VTK as isobench writes them")
    if put is None:
        put_obj(frame, itertools.chain([first], lines), sys.stdout.write)
        return
    sys.stdout.write(first + "\n")
    put(frame, lines, sys.stdout.write)


if __name__ == "__main__":
    main()

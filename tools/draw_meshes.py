#!/usr/bin/env python3
"""Draws the pictures of docs/ with F3D (Debian: f3d, xvfb), from the volumes in examples/ and meshes that isobench writes.

    python3 tools/draw_meshes.py ISOBENCH FOLDER    writes the pictures to FOLDER; look at them before they replace those in docs/

Around the saddle's meshes stand the edges of its cell, those of the face that the decider decides in green, and its corners, red
above the level and blue below. The head is drawn as it is placed in millimetres, cut open through its middle.
"""
import math
import pathlib
import subprocess
import sys
import tempfile

EXAMPLES = pathlib.Path(__file__).resolve().parent.parent / "examples"
COLOURS = {"mesh": "0.85 0.6 0.35", "frame": "0.35 0.35 0.35", "above": "0.8 0.1 0.1", "below": "0.1 0.25 0.8", "decided": "0.2 0.6 0.25"}
SADDLE = (2, -1, -4, 2, -1, -1, -1, -1)  # the samples of saddle.nrrd, x fastest


class Scene:
    """A scene as OBJ with its colours: vertices, and faces in groups of one colour."""

    def __init__(self):
        self.points, self.groups = [], {}

    def add(self, colour, points, faces):
        first = len(self.points) + 1
        self.points += points
        self.groups.setdefault(colour, []).extend([first + corner for corner in face] for face in faces)

    def add_mesh(self, text):
        lines = [line.split() for line in text.splitlines()]
        points = [tuple(map(float, line[1:])) for line in lines if line[0] == "v"]
        self.add("mesh", points, [[int(word) - 1 for word in line[1:]] for line in lines if line[0] == "f"])

    def add_ball(self, colour, centre, radius, steps=12):
        points = [tuple(c + radius * d for c, d in zip(centre, (math.sin(a) * math.cos(b), math.sin(a) * math.sin(b), math.cos(a))))
                  for a in (math.pi * i / steps for i in range(steps + 1)) for b in (2 * math.pi * j / steps for j in range(steps))]
        faces = [[i * steps + j, (i + 1) * steps + j, (i + 1) * steps + (j + 1) % steps, i * steps + (j + 1) % steps]
                 for i in range(steps) for j in range(steps)]
        self.add(colour, points, faces)

    def add_bar(self, colour, start, end, width):
        low, high = [min(a, b) - width for a, b in zip(start, end)], [max(a, b) + width for a, b in zip(start, end)]
        points = [tuple((low, high)[bit >> k & 1][k] for k in range(3)) for bit in range(8)]
        self.add(colour, points, [[0, 2, 3, 1], [4, 5, 7, 6], [0, 1, 5, 4], [2, 6, 7, 3], [0, 4, 6, 2], [1, 3, 7, 5]])

    def write(self, file):
        with open(file.with_suffix(".mtl"), "w", encoding="utf-8") as colours:
            for name, colour in COLOURS.items():
                colours.write(f"newmtl {name}\nKd {colour}\nKa 0 0 0\nKs 0 0 0\n")
        with open(file, "w", encoding="utf-8") as scene:
            scene.write(f"mtllib {file.stem}.mtl\n" + "".join("v %g %g %g\n" % point for point in self.points))
            for colour, faces in self.groups.items():
                scene.write(f"usemtl {colour}\n" + "".join("f " + " ".join(map(str, face)) + "\n" for face in faces))


def saddle(text, samples):
    """A mesh of the saddle in its cell."""
    scene = Scene()
    scene.add_mesh(text)
    corners = [(n & 1, n >> 1 & 1, n >> 2) for n in range(8)]
    for n, corner in enumerate(corners):
        scene.add_ball("above" if samples[n] >= 0 else "below", corner, 0.045)
        for axis in range(3):
            if not n >> axis & 1:
                is_decided = corner[2] == 0 and axis < 2
                scene.add_bar("decided" if is_decided else "frame", corner, corners[n | 1 << axis], 0.02 if is_decided else 0.01)
    return scene


def run(program, folder, script, *words):
    subprocess.run([program, "session", *words], input=script, cwd=folder, check=True, text=True, stdout=subprocess.DEVNULL)


def draw(mesh, picture, size, *options):
    subprocess.run(["xvfb-run", "-a", "f3d", "--quiet", "--output", str(picture), "--resolution", size, "--bg-color", "1,1,1",
                    *options, str(mesh)], check=True)


def main():
    if len(sys.argv) != 3:
        sys.exit(__doc__)
    program, folder = str(pathlib.Path(sys.argv[1]).resolve()), pathlib.Path(sys.argv[2])
    view = ["--camera-azimuth-angle", "35", "--camera-elevation-angle", "25"]
    tan = ["--color", "0.95,0.7,0.42", "--roughness", "0.9"]
    with tempfile.TemporaryDirectory() as room:
        room = pathlib.Path(room)
        for file in EXAMPLES.glob("*.nrrd"):
            (room / file.name).write_bytes(file.read_bytes())
        run(program, room, "obj joined.obj\nset 0 0 0 1\nobj apart.obj\n", "--level=0", "saddle.nrrd")
        run(program, room, "ply ties_at.ply\nlevel 4.5\nply ties_off.ply\n", "--level=4", "--pad=0", "ties.nrrd")
        run(program, room, "ply knot.ply\n", "--level=100.5", "knot.nrrd")
        for name in ("joined", "apart"):
            samples = [1, *SADDLE[1:]] if name == "apart" else SADDLE
            saddle((room / f"{name}.obj").read_text(encoding="utf-8"), samples).write(room / f"saddle_{name}.obj")
            draw(room / f"saddle_{name}.obj", folder / f"saddle_{name}.png", "560,420", "--camera-azimuth-angle=205",
                 "--camera-elevation-angle=20", "--camera-view-angle=29")
        for name in ("ties_at", "ties_off"):
            draw(room / f"{name}.ply", folder / f"{name}.png", "560,420", "--edges", *tan, *view, "--camera-view-angle=21")
        draw(room / "knot.ply", folder / "knot.png", "900,700", *tan, "--camera-view-angle=22")
        subprocess.run(["teem-unu", "crop", "-min", "0", "0", "0", "-max", "31", "M", "M", "-i", "head.nrrd", "-o", "half.nrrd"], cwd=room, check=True)
        run(program, room, "ply half.ply\n", "--level=100.5", "half.nrrd")
        placed = subprocess.run([sys.executable, EXAMPLES / "place.py", "half.nrrd"], cwd=room, stdin=open(room / "half.ply", "rb"), stdout=subprocess.PIPE, check=True)
        (room / "head.ply").write_bytes(placed.stdout)
        draw(room / "head.ply", folder / "head.png", "900,700", "--up=+Z", *tan, "--camera-azimuth-angle=50",
             "--camera-elevation-angle=10", "--camera-view-angle=22")


main()

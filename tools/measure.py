#!/usr/bin/env python3
"""Measures isobench, and beside it VTK and scikit-image where they are installed, on volumes that it makes itself.

    python3 tools/measure.py [--program PATH] [--size N] [--rounds R] [--instructions] [--write]

prints the tables of docs/performance.md; with --write it puts them there, and three rows into README.md. PATH is a built isobench, without the option the
one of this checkout; N the points along each axis (128); of R rounds (5) the best counts. Peak memory wants Debian's package
`time`; --instructions counts those of `extract` by valgrind, which takes minutes. VTK and scikit-image are asked for by the
system's python3 (Debian: python3-vtk9, python3-skimage), each in a process of its own that reads the same file, extracts
and, VTK, writes ASCII PLY; the time of importing them is taken off. Measure on a quiet machine.
"""
import argparse
import array
import os
import pathlib
import shutil
import subprocess
import sys
import tempfile
import time

TOP = pathlib.Path(__file__).resolve().parent.parent
sys.path.insert(0, str(TOP / "examples"))
from session import Session  # noqa: E402

PAGE, README = TOP / "docs" / "performance.md", TOP / "README.md"
# What is shown in README.md too, and its name there.
IN_README = {"sphere, uint8": "sphere, uint8", "blocks of `gen 7`": "blocks", "noise, uint8": "noise"}
BEGIN, END = "<!-- written by tools/measure.py -->", "<!-- end of what is written -->"

READ = """
import sys, time, numpy
def volume(path):
    text = open(path, "rb").read()
    head, _, samples = text.partition(b"\\n\\n")
    sizes = [int(w) for w in head.split(b"sizes: ")[1].split(b"\\n")[0].split()]
    return sizes, numpy.frombuffer(samples, "int16" if b"int16" in head else "uint8", sizes[0] * sizes[1] * sizes[2]).reshape(sizes[::-1])
"""
OTHERS = {
    "VTK flying edges": ("import vtk\nfrom vtk.util import numpy_support\n", """
start = time.perf_counter()
sizes, samples = volume(sys.argv[1])
image = vtk.vtkImageData()
image.SetDimensions(*sizes)
image.GetPointData().SetScalars(numpy_support.numpy_to_vtk(samples.ravel()))
edges = vtk.vtkFlyingEdges3D()
edges.SetInputData(image)
edges.SetValue(0, float(sys.argv[2]))
edges.ComputeNormalsOff()
edges.Update()
extracted = time.perf_counter()
writer = vtk.vtkPLYWriter()
writer.SetFileName(sys.argv[3])
writer.SetFileTypeToASCII()
writer.SetInputConnection(edges.GetOutputPort())
writer.Write()
print(extracted - start, time.perf_counter() - start, edges.GetOutput().GetNumberOfPolys())
"""),
    "scikit-image": ("from skimage import measure\n", """
start = time.perf_counter()
sizes, samples = volume(sys.argv[1])
vertices, faces, _, _ = measure.marching_cubes(samples, float(sys.argv[2]))
extracted = time.perf_counter()
print(extracted - start, float("nan"), len(faces))
"""),
}


def head(kind, size):
    order = "" if kind == "uint8" else "endian: little\n"
    return f"NRRD0004\ntype: {kind}\ndimension: 3\nsizes: {size} {size} {size}\n{order}encoding: raw\n\n".encode()


def sphere(size):
    """Samples that fall with the squared distance from the middle."""
    middle, radius = size - 1, (0.8 * size) ** 2
    samples = bytearray()
    for z in range(size):
        for y in range(size):
            rest = radius - (2 * y - middle) ** 2 - (2 * z - middle) ** 2
            samples += bytes(max(0, min(255, int(128 + (rest - (2 * x - middle) ** 2) / (2.0 * size)))) for x in range(size))
    return bytes(samples)


def noise(size, state=7):
    samples = bytearray(size ** 3)
    for i in range(len(samples)):
        state = (6364136223846793005 * state + 1442695040888963407) & (2 ** 64 - 1)
        samples[i] = state >> 56
    return bytes(samples)


def volumes(program, size):
    """Name, level, options, and the bytes of the file."""
    smooth = sphere(size)
    wide = array.array("h", (100 * sample - 12800 for sample in smooth))
    if sys.byteorder == "big":
        wide.byteswap()
    blocks = subprocess.run([program, "gen", "7", *3 * [str(size)]], stdout=subprocess.PIPE, check=True).stdout
    return [
        ("sphere, uint8", "128.5", [], head("uint8", size) + smooth),
        ("sphere, uint8, padded", "128.5", ["--pad=0"], head("uint8", size) + smooth),
        ("sphere, int16", "0.5", [], head("int16", size) + wide.tobytes()),
        ("sphere, int16, padded", "0.5", ["--pad=-32768"], head("int16", size) + wide.tobytes()),
        ("blocks of `gen 7`", "128.5", [], blocks),
        ("noise, uint8", "128.5", [], head("uint8", size) + noise(size)),
    ]


def seconds_of(words, folder, given):
    """Seconds of a run, whose output goes to a new file."""
    output = folder / "output"
    output.unlink(missing_ok=True)
    with open(given, "rb") as stdin, open(output, "wb") as stdout:
        start = time.perf_counter()
        subprocess.run(words, cwd=folder, stdin=stdin, stdout=stdout, check=True)
        return time.perf_counter() - start


def session_seconds(program, folder, options):
    """Seconds until a session is open and answers, and of each of its steps, into new files."""
    for name in "ab":
        (folder / name).unlink(missing_ok=True)
    took, start = [], time.perf_counter()
    with Session(program, "volume", *options, folder=folder) as session:
        for lines in (["work 0"], ["ply a"], ["set 9 9 9 1", "ply b"], ["report"], ["measure"]):
            for line in lines:
                session.ask(line)
            took.append(time.perf_counter() - start)
            start = time.perf_counter()
    return took


def peak_of(words, folder, given):
    """Peak memory of a run in MB, if it can be told."""
    if not os.path.exists("/usr/bin/time"):
        return float("nan")
    with open(given, "rb") as stdin:
        subprocess.run(["/usr/bin/time", "-f", "%M", "-o", folder / "peak", *words], cwd=folder, stdin=stdin, stdout=subprocess.DEVNULL, check=True)
    return int((folder / "peak").read_text()) / 1024


def instructions_of(words, folder, given):
    with open(given, "rb") as stdin:
        ran = subprocess.run(["valgrind", "--tool=callgrind", "--callgrind-out-file=/dev/null", *words], cwd=folder, stdin=stdin,
                             stdout=subprocess.DEVNULL, stderr=subprocess.PIPE)
    counted = [line for line in ran.stderr.decode().splitlines() if "Collected" in line]
    return int(counted[0].split(":")[1]) / 1e6 if counted else float("nan")


def others(name, folder, level, rounds):
    """Seconds to extract and to write too, and triangles, of another program; None where it is not installed."""
    imports, body = OTHERS[name]
    python = "/usr/bin/python3" if os.path.exists("/usr/bin/python3") else sys.executable
    found = []
    for _ in range(rounds):
        ran = subprocess.run([python, "-c", imports + READ + body, "volume", level, "other.ply"], cwd=folder, stdout=subprocess.PIPE, stderr=subprocess.DEVNULL)
        if ran.returncode:
            return None
        found.append([float(word) for word in ran.stdout.split()])
    return [min(column) for column in zip(*found)]


def shown(number, digits=3):
    return "" if number != number else f"{number:.{digits}f}"


def tables(program, size, rounds, counts):
    """The lines of both tables."""
    first = ["| volume | `extract` s | peak MB |" + (" million instructions |" if counts else "") + " triangles | VTK: extract s | and write s | triangles | scikit-image: extract s | triangles |"]
    first.append("|---" * (first[0].count("|") - 1) + "|")
    second = ["| volume | open s | first `ply` s | `set` and `ply` s | `report` s | `measure` s | peak MB |", "|---|---|---|---|---|---|---|"]
    with tempfile.TemporaryDirectory() as room:
        folder = pathlib.Path(room)
        for name, level, options, text in volumes(program, size):
            given = folder / "volume"
            given.write_bytes(text)
            words = [program, "extract", f"--level={level}", *options]
            row = [name, shown(min(seconds_of(words, folder, given) for _ in range(rounds))), shown(peak_of(words, folder, given), 1)]
            faces = next(line for line in (folder / "output").open("rb") if line.startswith(b"element face")) if seconds_of(words, folder, given) else b""
            row += [shown(instructions_of(words, folder, given), 0)] if counts else []
            row.append(faces.split()[2].decode())
            for other, cells in (("VTK flying edges", 3), ("scikit-image", 2)):
                told = None if options else others(other, folder, level, rounds)
                row += [""] * cells if told is None else [shown(told[0])] + [shown(told[1])] * (cells - 2) + [str(int(told[2]))]
            first.append("| " + " | ".join(row) + " |")
            took = zip(*(session_seconds(program, folder, [f"--level={level}", *options]) for _ in range(rounds)))
            (folder / "script").write_text("ply a\n")
            peak = peak_of([program, "session", f"--level={level}", *options, "volume"], folder, folder / "script")
            second.append("| " + " | ".join([name, *(shown(min(seconds)) for seconds in took), shown(peak, 1)]) + " |")
    return first, second


def rows_in_readme(first):
    """The lines of the table in README.md, of isobench and of VTK with its writer; none where there is no VTK."""
    lines = ["| volume | isobench | VTK and its ASCII writer | triangles of each |", "|---|---|---|---|"]
    for line in first[2:]:
        cells = [cell.strip() for cell in line.strip("|").split("|")]
        if cells[0] in IN_README:
            ours, written, theirs = cells[-6], cells[-4], cells[-3]
            if not theirs:
                return []
            lines.append(f"| {IN_README[cells[0]]} | {cells[1]} | {written} | {int(ours):,} and {int(theirs):,} |")
    return lines


def put(page, lines):
    """Write lines between the two marks of a page."""
    before, rest = page.read_text(encoding="utf-8").split(BEGIN)
    page.write_text(before + "\n".join([BEGIN, *lines, END]) + rest.split(END)[1], encoding="utf-8")


def main():
    parser = argparse.ArgumentParser(description=__doc__, formatter_class=argparse.RawDescriptionHelpFormatter)
    parser.add_argument("--program", default=str(TOP / "crates" / "isobench" / "out" / "isobench"))
    parser.add_argument("--size", type=int, default=128)
    parser.add_argument("--rounds", type=int, default=5)
    parser.add_argument("--instructions", action="store_true")
    parser.add_argument("--write", action="store_true")
    args = parser.parse_args()
    program = os.path.abspath(args.program)
    counts = args.instructions and bool(shutil.which("valgrind"))
    first, second = tables(program, args.size, args.rounds, counts)
    said = [f"Volumes of {args.size} points along each axis; best of {args.rounds}.", "", *first, "", *second]
    if not args.write:
        print("\n".join(said))
        return
    put(PAGE, ["", *said, ""])
    few = rows_in_readme(first)
    if few and args.size == 128:
        put(README, few)
    else:
        print("README.md is as it was: its rows want VTK and 128 points", file=sys.stderr)


if __name__ == "__main__":
    main()

#!/usr/bin/env python3
"""Measures how long it takes from an array to the arrays of its surface, beside scikit-image and VTK where these are installed.

    python3 python/bench/arrays.py [--size N] [--rounds R] [--only NAME] [--write]

prints the tables *Into arrays* of docs/performance.md; with --write it puts them there. It wants numpy and the built
program, and the C reader (`python3 -m isobench.build`). N is the number of points along each axis (128); of R rounds (9),
in each of which everything is measured once in turn, the best counts. Measure on a quiet machine.
"""
import argparse
import importlib.util
import pathlib
import sys
import time

import numpy as np

TOP = pathlib.Path(__file__).resolve().parents[2]
sys.path[:0] = [str(TOP / "python"), str(TOP / "tools")]
import isobench  # noqa: E402
import measure  # noqa: E402
from isobench import _ply, _program, _samples  # noqa: E402

PAGE = TOP / "docs" / "performance.md"
BEGIN, END = "<!-- written by python/bench/arrays.py -->", "<!-- end of what python/bench/arrays.py writes -->"


def volumes(size):
    """Name, level and samples; those of tools/measure.py, and a periodic surface through the whole volume."""
    sphere = np.frombuffer(measure.sphere(size), np.uint8).reshape(size, size, size)
    wave = np.abs(np.arange(size + 11) % 32 - 16) * 125 - 1000
    waves = wave[:size] + wave[5:size + 5, None] + wave[11:, None, None]
    noise = np.frombuffer(measure.noise(size), np.uint8).reshape(size, size, size)
    return [
        ("sphere, uint8", 128.5, sphere),
        ("sphere, int16", 0.5, (100 * sphere.astype(np.int32) - 12800).astype(np.int16)),
        ("sphere, float32", 0.1, np.sqrt(sphere, dtype=np.float32) - np.float32(11.2)),
        ("waves, int16", 0.0, waves.astype(np.int16)),
        ("noise, uint8", 128.5, noise),
    ]


def by_numpy(call):
    """The call with the reader by numpy alone."""

    def other():
        chosen, _ply._c_reader = _ply._c_reader, lambda: None
        try:
            return call()
        finally:
            _ply._c_reader = chosen

    return other


def by_one_thread(call):
    def other():
        chosen, _ply.MOST_THREADS = _ply.MOST_THREADS, 1
        try:
            return call()
        finally:
            _ply.MOST_THREADS = chosen

    return other


def by_scikit_image(volume, level):
    if not importlib.util.find_spec("skimage"):
        return None
    from skimage.measure import marching_cubes

    return lambda: marching_cubes(volume, level)[:2]


def by_vtk(volume, level):
    if not importlib.util.find_spec("vtk"):
        return None
    import vtk
    from vtk.util import numpy_support

    def call():
        image = vtk.vtkImageData()
        image.SetDimensions(*reversed(volume.shape))
        image.GetPointData().SetScalars(numpy_support.numpy_to_vtk(volume.ravel()))
        edges = vtk.vtkFlyingEdges3D()
        edges.SetInputData(image)
        edges.SetValue(0, level)
        edges.ComputeNormalsOff()
        edges.Update()
        found = edges.GetOutput()
        places = numpy_support.vtk_to_numpy(found.GetPoints().GetData())
        return places.copy(), numpy_support.vtk_to_numpy(found.GetPolys().GetConnectivityArray()).reshape(-1, 3).copy()

    return call


def calls_of(volume, level):
    """What is measured, by name."""
    samples = _samples.samples_of(volume, level)
    words = samples.words(level, None)
    text = _program.extract_text(samples.pieces(), words)
    session = isobench.Session(volume, level)
    values = [volume[9, 9, 9], volume[9, 9, 10]]

    def edit():
        values.reverse()
        session[9, 9, 9] = values[0]
        return session.mesh()

    edit()
    return text, {
        "program": lambda: _program.extract_text(samples.pieces(), words),
        "C": lambda: isobench.marching_cubes(volume, level),
        "numpy": by_numpy(lambda: isobench.marching_cubes(volume, level)),
        "scikit-image": by_scikit_image(volume, level),
        "VTK": by_vtk(volume, level),
        "session": edit,
        "parse C": by_one_thread(lambda: _ply.read_mesh(text)),
        "parse numpy": by_numpy(by_one_thread(lambda: _ply.read_mesh(text))),
    }


def best_of(calls, rounds):
    """For each call its best time in seconds, and the number of triangles."""
    best, triangles = {}, {}
    for _ in range(rounds):
        for name, call in calls.items():
            if call is None:
                continue
            start = time.perf_counter()
            found = call()
            took = time.perf_counter() - start
            best[name] = min(took, best.get(name, took))
            triangles[name] = len(found[1]) if isinstance(found, tuple) else 0
    return best, triangles


def shown(best, name):
    return f"{1000 * best[name]:.{0 if best[name] > 0.1 else 1}f}" if name in best else ""


def ratio(best, name):
    return f"{best[name] / best['scikit-image']:.2f}" if "scikit-image" in best else ""


def tables(size, rounds, only):
    first = ["| volume | triangles | `extract` alone, ms | `marching_cubes`, C reader, ms | to scikit-image | numpy alone, ms | to scikit-image "
             "| scikit-image, ms | triangles | VTK, ms | triangles |"]
    second = ["| volume | text, MB | C reader, MB/s | numpy, MB/s | an edit and `Session.mesh`, ms |", "|---|---|---|---|---|"]
    first.append("|---" * (first[0].count("|") - 1) + "|")
    for name, level, volume in volumes(size):
        if only and only not in name:
            continue
        text, calls = calls_of(volume, level)
        best, triangles = best_of(calls, max(2, rounds // 4) if "noise" in name else rounds)
        row = [name, str(triangles["C"]), shown(best, "program"), shown(best, "C"), ratio(best, "C"), shown(best, "numpy"), ratio(best, "numpy"),
               shown(best, "scikit-image"), str(triangles.get("scikit-image", "")), shown(best, "VTK"), str(triangles.get("VTK", ""))]
        first.append("| " + " | ".join(row) + " |")
        size_of_text = len(text) / 1e6
        speeds = [f"{size_of_text / best[f'parse {reader}']:.0f}" for reader in ("C", "numpy")]
        second.append("| " + " | ".join([name, f"{size_of_text:.1f}", *speeds, shown(best, "session")]) + " |")
    return [*first, "", *second]


def main():
    parser = argparse.ArgumentParser(description=__doc__, formatter_class=argparse.RawDescriptionHelpFormatter)
    parser.add_argument("--size", type=int, default=128)
    parser.add_argument("--rounds", type=int, default=9)
    parser.add_argument("--only", default="")
    parser.add_argument("--write", action="store_true")
    asked = parser.parse_args()
    if _ply._c_reader() is None:
        sys.exit("the C reader is not built: python3 -m isobench.build, in python/")
    said = [f"Arrays of {asked.size} points along each axis; best of {asked.rounds} rounds.", "", *tables(asked.size, asked.rounds, asked.only)]
    if not asked.write:
        print("\n".join(said))
        return
    before, rest = PAGE.read_text(encoding="utf-8").split(BEGIN)
    PAGE.write_text(before + "\n".join([BEGIN, "", *said, "", END]) + rest.split(END)[1], encoding="utf-8")


if __name__ == "__main__":
    main()

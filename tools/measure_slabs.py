#!/usr/bin/env python3
"""Measures volumes that are meshed by slabs, and compares the meshes with those of the whole, on volumes that it makes itself.

    python3 tools/measure_slabs.py [--only WORD] [--rounds R] [--processes N] [--larger PROGRAM] [--folder DIR] [--write]

prints the table of docs/large.md; with --write it puts it there. It wants numpy, the built programs (those of this checkout, or
ISOBENCH and ISOSLAB), and up to 6 GB in DIR (the system's folder for temporary files). Of R rounds (5), in each of which everything
of a part is run once in turn, the best counts: of one slab the time of the processor, of several processes that by the clock. Peak
memory wants Debian's package `time`. PROGRAM is another one with the command `extract`, without limits on the samples: with it
the mesh of a volume beyond the limits is compared, too. Measure on a quiet machine.
"""
import argparse
import filecmp
import os
import pathlib
import subprocess
import sys
import tempfile
import time

import numpy as np

TOP = pathlib.Path(__file__).resolve().parent.parent
sys.path[:0] = [str(TOP / "python"), str(TOP / "tools")]
import isobench  # noqa: E402
import measure  # noqa: E402
from isobench import _program, _samples  # noqa: E402

PAGE = TOP / "docs" / "large.md"
BEGIN, END = "<!-- written by tools/measure_slabs.py -->", "<!-- end of what is written -->"


def balls(path, sizes, kind):
    """A ball with waves in it, and a block of noise, written slice by slice."""
    nx, ny, nz = sizes
    x, y, z = np.linspace(-1, 1, nx), np.linspace(-1, 1, ny)[:, None], np.linspace(-1, 1, nz)
    flat = x * x + y * y
    waves = 40 * np.sin(9 * x) + 40 * np.cos(7 * y)
    chance = np.random.default_rng(3)
    with open(path, "wb") as file:
        file.write(_samples.header_of(np.dtype(kind), (nz, ny, nx)))
        for k in range(nz):
            found = np.clip(250 - 190 * (flat + z[k] ** 2) + waves + 30 * np.sin(11 * z[k]), 0, 255).astype(np.uint8)
            if abs(k - nz // 2) < 20:
                found[ny // 2 - 30:ny // 2 + 30, nx // 2 - 30:nx // 2 + 30] = chance.integers(120, 136, (60, 60), np.uint8)
            file.write(found if kind == "uint8" else found.astype(np.int16) * 100 - 12800)


def small_volumes(size):
    """Name, header and samples, level and options; as tools/measure.py makes them."""
    sphere, noise = measure.sphere(size), measure.noise(size)
    wave = np.abs(np.arange(size + 11) % 32 - 16) * 125 - 1000
    waves = (wave[:size] + wave[5:size + 5, None] + wave[11:, None, None]).astype(np.int16)
    shape = (size,) * 3
    return [
        ("sphere, uint8", _samples.header_of(np.dtype(np.uint8), shape) + sphere, ["--level=128"]),
        ("sphere, uint8, padded", _samples.header_of(np.dtype(np.uint8), shape) + sphere, ["--level=128", "--pad=0"]),
        ("waves, int16", _samples.header_of(waves.dtype, shape) + waves.tobytes(), ["--level=0"]),
        ("noise, uint8", _samples.header_of(np.dtype(np.uint8), shape) + noise, ["--level=128"]),
    ]


def run(command, given, target, folder):
    """Run a program; the seconds that its processor took."""
    with open(given, "rb") as source, open(target, "wb") as output:
        process = subprocess.Popen(list(map(str, command)), stdin=source, stdout=output, cwd=folder)
        _, status, usage = os.wait4(process.pid, 0)
    if status:
        sys.exit(f"{' '.join(map(str, command))}: status {os.waitstatus_to_exitcode(status)}")
    return usage.ru_utime + usage.ru_stime


def peak_of(command, given, folder):
    """The most memory of a run, as text."""
    if not os.path.exists("/usr/bin/time"):
        return "not measured"
    with open(given, "rb") as source:
        done = subprocess.run(["/usr/bin/time", "-f", "%M", *map(str, command)], stdin=source, cwd=folder, stdout=subprocess.DEVNULL,
                              stderr=subprocess.PIPE, check=True)
    return f"{int(done.stderr) / 1024:.0f} MB"


def best(calls, rounds):
    """The least of the seconds of each call, run in turns."""
    found = {name: float("inf") for name in calls}
    for _ in range(rounds):
        for name, call in calls.items():
            found[name] = min(found[name], call())
    return found


def timed(call, *words, **how):
    """The seconds that a call took by the clock."""
    start = time.perf_counter()
    call(*words, **how)
    return time.perf_counter() - start


def one_slab(given, room):
    """What counting and writing a slab takes beside an extraction of it: rows of a table."""
    yield "| slab of 128 points along each axis | `extract` | `count` | `write` | memory of `extract` | of `write` |"
    yield "|---|---|---|---|---|---|"
    for name, text, options in small_volumes(128):
        (room / "slab.nrrd").write_bytes(text)
        slab = [*options, "--from=0", "--last"]
        calls = {
            "extract": [_program.program(), "extract", *options],
            "count": [_program.program("isoslab"), "count", *slab],
            "write": [_program.program("isoslab"), "write", *slab, "--edges=0", "--centres=0", "part"],
        }
        runs = {what: lambda words=words: run(words, room / "slab.nrrd", room / "output", room) for what, words in calls.items()}
        found = best(runs, given.rounds)
        whole = found["extract"]
        peaks = [peak_of(calls[what], room / "slab.nrrd", room) for what in ("extract", "write")]
        yield f"| {name} | {1000 * whole:.0f} ms | {found['count'] / whole:.2f} | {found['write'] / whole:.2f} | {peaks[0]} | {peaks[1]} |"


def one_machine(given, room):
    """A volume within the limits, by one process and by several: rows of a table."""
    volume, whole, mesh = room / "volume.nrrd", room / "whole.ply", room / "mesh.ply"
    balls(volume, (1026, 1026, 151), "int16")
    script = ["sh", TOP / "tools" / "slabs.sh", "--level=0", f"--jobs={given.processes}", volume, mesh]
    environment = {**os.environ, "ISOSLAB": _program.program("isoslab")}
    found = best({
        "`extract`, one process": lambda: timed(run, [_program.program(), "extract", "--level=0"], volume, whole, room),
        "`tools/slabs.sh`": lambda: timed(subprocess.run, script, check=True, env=environment),
        "`isobench.write_slabs`": lambda: timed(isobench.write_slabs, volume, mesh, 0, processes=given.processes),
        "`isobench.extract`, into arrays": lambda: timed(isobench.extract, isobench.read_volume(volume), 0),
        "`isobench.extract_slabs`, into arrays": lambda: timed(isobench.extract_slabs, volume, 0, processes=given.processes),
    }, given.rounds)
    if not filecmp.cmp(whole, mesh, shallow=False):
        sys.exit("1026 x 1026 x 151: the slabs are not the whole")
    first = found["`extract`, one process"]
    yield f"| 1,026 x 1,026 x 151, int16; {whole.stat().st_size / 1e6:.0f} MB of text; {given.processes} processes | seconds | to one `extract` |"
    yield "|---|---|---|"
    for name, seconds in found.items():
        yield f"| {name} | {seconds:.2f} | {seconds / first:.2f} |"


def same_bytes(given, room):
    """Volumes whose meshes by slabs are compared with those of one process: rows of a table."""
    yield "| volume | triangles | slabs | seconds | the same bytes as |"
    yield "|---|---|---|---|---|"
    volume, whole, mesh = room / "volume.nrrd", room / "whole.ply", room / "mesh.ply"
    rows = [("464 x 464 x 464, uint8", (464, 464, 464), "uint8", "128", 4, _program.program(), "`isobench extract`")]
    if given.larger:
        rows.append(("1,000 x 1,000 x 700, int16", (1000, 1000, 700), "int16", "0", 8, given.larger, "a plain program without limits"))
    for name, sizes, kind, level, slabs, program, what in rows:
        balls(volume, sizes, kind)
        seconds = timed(isobench.write_slabs, volume, mesh, float(level), processes=given.processes, slabs=slabs)
        run([program, "extract", f"--level={level}"], volume, whole, room)
        if not filecmp.cmp(whole, mesh, shallow=False):
            sys.exit(f"{name}: the slabs are not the whole")
        with open(mesh, "rb") as file:
            triangles = int(file.read(300).partition(b"element face ")[2].split()[0])
        yield f"| {name} | {triangles:,} | {slabs} | {seconds:.1f} | {what} |"
        whole.unlink()
        mesh.unlink()


def deep(given, room):
    """A deep volume from Python, padded: its mesh is closed, and has a vertex on each crossing edge: rows of a table."""
    volume = room / "volume.nrrd"
    balls(volume, (500, 500, 2000), "int16")
    start = time.perf_counter()
    mesh = isobench.extract_slabs(volume, 0, pad=-20000, processes=given.processes)
    seconds = time.perf_counter() - start
    check_closed(mesh.faces)
    above = np.pad(isobench.read_volume(volume).array >= 0, 1)
    edges = sum(int(np.count_nonzero(np.diff(above, axis=axis))) for axis in range(3))
    centres = count_centres(mesh.faces)
    if edges + centres != len(mesh.thousandths):
        sys.exit(f"500 x 500 x 2000: {edges} crossing edges and {centres} centres, and {len(mesh.thousandths)} vertices")
    coarse = np.ascontiguousarray(isobench.read_volume(volume).array[::2, ::2, ::2])
    isobench.write_slabs(coarse, room / "mesh.ply", 0, pad=-20000, processes=given.processes)
    with open(room / "mesh.ply", "rb") as file:
        said = subprocess.run([_program.program(), "check", "ply"], stdin=file, stdout=subprocess.PIPE).stdout.decode().strip()
    if said != "closed":
        sys.exit(f"250 x 250 x 1000: {said}")
    yield "| 500 x 500 x 2,000, int16, padded, into arrays | |"
    yield "|---|---|"
    yield f"| `isobench.extract_slabs`, {given.processes} processes | {seconds:.1f} s |"
    yield f"| vertices, triangles | {len(mesh.thousandths):,}, {len(mesh.faces):,} |"
    yield "| each triangle's side has its opposite in one other triangle | yes |"
    yield "| crossing edges, counted by numpy, and centres | as many as vertices |"
    yield "| `isobench check` of every second sample along each axis, by slabs | closed |"


def check_closed(faces):
    """Each directed edge of a triangle is that of one alone, and its opposite is there."""
    first, second = faces.ravel().astype(np.int64), np.roll(faces, -1, axis=1).ravel().astype(np.int64)
    forth, back = np.sort(first << 32 | second), np.sort(second << 32 | first)
    if (forth[1:] == forth[:-1]).any() or not np.array_equal(forth, back):
        sys.exit("the mesh of the slabs is not closed")


def count_centres(faces):
    """How many vertices are centres: these are the third corner of four triangles or more, one behind the other."""
    third = faces[:, 2]
    runs = (third[3:] == third[:-3]) & (third[2:-1] == third[:-3]) & (third[1:-2] == third[:-3])
    return len(np.unique(third[3:][runs]))


PARTS = {"slab": one_slab, "machine": one_machine, "bytes": same_bytes, "deep": deep}


def main():
    parser = argparse.ArgumentParser(description=__doc__.split("\n")[0])
    parser.add_argument("--only", choices=sorted(PARTS), help="one part of the table alone")
    parser.add_argument("--rounds", type=int, default=5)
    parser.add_argument("--processes", type=int, default=4)
    parser.add_argument("--larger", metavar="PROGRAM")
    parser.add_argument("--folder")
    parser.add_argument("--write", action="store_true")
    given = parser.parse_args()
    lines = []
    for name, part in PARTS.items():
        if given.only in (None, name):
            with tempfile.TemporaryDirectory(dir=given.folder) as room:
                for line in part(given, pathlib.Path(room)):
                    print(line, flush=True)
                    lines.append(line)
            print()
            lines.append("")
    if given.write and given.only:
        sys.exit("--write wants the whole table")
    if given.write:
        text = PAGE.read_text(encoding="utf-8")
        before, _, rest = text.partition(BEGIN)
        _, _, behind = rest.partition(END)
        PAGE.write_text(f"{before}{BEGIN}\n" + "\n".join(lines).rstrip() + f"\n{END}{behind}", encoding="utf-8")


if __name__ == "__main__":
    main()

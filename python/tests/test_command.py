"""The command `isomesh`, as a process: files, messages, statuses."""
import os
import pty
import re
import resource
import shutil
import signal
import subprocess
import sys
import time

import isobench
import numpy as np
import pytest
from conftest import EXAMPLES
from isobench import _summary, read_volume, write_mesh

HEAD = EXAMPLES / "head.nrrd"


@pytest.mark.parametrize("ending", ["stl", "ply", "obj", "3mf"])
def test_a_scan_becomes_a_mesh_in_its_space(run_isomesh, tmp_path, ending):
    ran = run_isomesh(HEAD, "--level", "100.5", "-o", tmp_path / f"head.{ending}")
    assert (ran.returncode, ran.stdout, ran.stderr) == (0, f"{tmp_path}/head.{ending}: 22262 vertices, 44512 triangles\n", "")
    volume = read_volume(HEAD)
    write_mesh(tmp_path / f"other.{ending}", *isobench.extract(volume, 100.5, pad="auto").placed(volume.directions, volume.origin))
    if ending != "3mf":
        assert (tmp_path / f"head.{ending}").read_bytes() == (tmp_path / f"other.{ending}").read_bytes()


def test_it_is_placed_as_the_example_script_places_it(run_isomesh, tmp_path):
    run_isomesh(HEAD, "--level", "100.5", "--pad=-1", "-o", tmp_path / "ours.obj")
    array = read_volume(HEAD).array
    header = "NRRD0004\ntype: int16\ndimension: 3\nsizes: 64 64 48\nendian: little\nencoding: raw\n\n".encode()
    (tmp_path / "raw.nrrd").write_bytes(header + array.tobytes())
    with open(tmp_path / "raw.nrrd", "rb") as samples, open(tmp_path / "voxel.obj", "wb") as mesh:
        subprocess.run([isobench._program.program(), "extract", "--level=100.5", "--pad=-1", "--format=obj"], stdin=samples, stdout=mesh, check=True)
    with open(tmp_path / "voxel.obj") as mesh:
        placed = subprocess.run([sys.executable, EXAMPLES / "place.py", HEAD], stdin=mesh, capture_output=True, text=True, check=True).stdout
    ours = [line.split() for line in (tmp_path / "ours.obj").read_text().splitlines()]
    theirs = [line.split() for line in placed.splitlines()]
    assert [line for line in ours if line[0] == "f"] == [line for line in theirs if line[0] == "f"]
    places = [np.array([line[1:] for line in lines if line[0] == "v"], float) for lines in (ours, theirs)]
    assert np.abs(places[0] - places[1]).max() < 1e-4


def test_spaces(run_isomesh, tmp_path):
    for space in ("file", "lps", "ras", "voxel"):
        assert run_isomesh(HEAD, "--level", "100.5", "--space", space, "-q", "-o", tmp_path / f"{space}.ply").returncode == 0
    meshes = {space: (tmp_path / f"{space}.ply").read_bytes() for space in ("file", "lps", "ras", "voxel")}
    assert meshes["file"] == meshes["lps"] and len(set(meshes.values())) == 3
    ran = run_isomesh(EXAMPLES / "knot.nrrd", "--level", "100.5", "--space", "ras", "-o", tmp_path / "a.ply")
    assert ran.returncode == 1 and "does not say which space" in ran.stderr and not (tmp_path / "a.ply").exists()


def test_paddings(run_isomesh, tmp_path):
    slab = np.full((4, 5, 6), 200, np.uint8)
    np.save(tmp_path / "slab.npy", slab)
    for pad, triangles in (("auto", True), ("-3.0", True), ("none", False)):
        ran = run_isomesh(tmp_path / "slab.npy", "--level", "100.5", f"--pad={pad}", "-o", tmp_path / "a.ply")
        assert ran.returncode == 0 and (" 0 triangles" in ran.stdout) != triangles
    assert "the mesh is empty: no sample is below the level" in ran.stderr


def test_warnings(run_isomesh, tmp_path):
    volume = np.zeros((4, 4, 4), np.uint8)
    volume[1:3, 1:3, 1:3] = 5
    np.save(tmp_path / "ties.npy", volume)
    ran = run_isomesh(tmp_path / "ties.npy", "--level", "5", "-o", tmp_path / "a.stl")
    assert ran.returncode == 0 and "vertices lie where others do" in ran.stderr
    assert run_isomesh(tmp_path / "ties.npy", "--level", "5", "-o", tmp_path / "a.ply").stderr == ""
    np.save(tmp_path / "floats.npy", volume * 0.3)
    ran = run_isomesh(tmp_path / "floats.npy", "--level", "0.7", "-o", tmp_path / "a.stl")
    assert re.search("each is within .*e-10 of its value", ran.stderr)


REFUSED = {
    "no level": ([HEAD, "-o", "a.stl"], 2, "--level"),
    "no output": ([HEAD, "--level", "5"], 2, "-o MESH"),
    "no number": ([HEAD, "--level", "five", "-o", "a.stl"], 2, "invalid float"),
    "another padding": ([HEAD, "--level", "5", "--pad", "some", "-o", "a.stl"], 2, "--pad"),
    "another option": ([HEAD, "--level", "5", "--smooth", "-o", "a.stl"], 2, "--smooth"),
    "no file": (["none.nrrd", "--level", "5", "-o", "a.stl"], 1, "none.nrrd"),
    "a mesh as volume": (["head.stl", "--level", "5", "-o", "a.stl"], 1, "its ending is none of"),
    "the level NaN": ([HEAD, "--level", "nan", "-o", "a.stl"], 1, "the level is nan"),
    "a high padding": ([HEAD, "--level", "5", "--pad", "9", "-o", "a.stl"], 1, "below the level"),
    "no folder": ([HEAD, "--level", "5", "-o", "/none/a.stl"], 1, "no such folder"),
    "another format": ([HEAD, "--level", "5", "-o", "a.nonsense"], 1, "hoose one of"),
    "no rows": (["info", HEAD, "--rows", "0"], 2, "--rows"),
    "info of no file": (["info", "none.npy"], 1, "none.npy"),
}


@pytest.mark.parametrize("name", REFUSED)
def test_refusals(tmp_path, name):
    words, status, text = REFUSED[name]
    environment = {**os.environ, "PYTHONPATH": os.path.dirname(os.path.dirname(isobench.__file__))}
    command = [sys.executable, "-m", "isobench", *map(str, words)]
    ran = subprocess.run(command, cwd=tmp_path, env=environment, capture_output=True, text=True)
    assert ran.returncode == status and text in ran.stderr and "Traceback" not in ran.stderr
    assert not list(tmp_path.iterdir())


@pytest.mark.parametrize("most, text", [(300_000, "File too large"), (1_000_000, "ulimit -f"), (2_000_000, "File too large")])
def test_a_full_disk_leaves_no_half_file(run_isomesh, tmp_path, most, text):
    """First the volume, then the program's mesh, then the file of the mesh is longer than any file may be."""
    ran = run_isomesh(HEAD, "--level", "100.5", "-o", tmp_path / "a.stl", preexec_fn=lambda: resource.setrlimit(resource.RLIMIT_FSIZE, (most, most)))
    assert ran.returncode == 1 and text in ran.stderr and "Traceback" not in ran.stderr
    assert not list(tmp_path.iterdir())


def test_standard_output_that_takes_nothing(run_isomesh):
    with open("/dev/full", "wb") as full:
        words = [sys.executable, "-m", "isobench", "info", HEAD]
        ran = subprocess.run(words, cwd=os.path.dirname(os.path.dirname(isobench.__file__)), stdout=full, stderr=subprocess.PIPE, text=True)
    assert (ran.returncode, ran.stderr) == (1, "isomesh: [Errno 28] No space left on device\n")


def test_an_interrupt_leaves_nothing(tmp_path):
    """While the program runs, which waits here."""
    folder = tmp_path / "folder"
    folder.mkdir()
    waiting = tmp_path / "isobench"
    waiting.write_text(f"#!/bin/sh\nif [ $1 = --version ]; then echo isobench 1.1.0; exit; fi\ntouch {tmp_path}/begun\nexec sleep 60\n")
    waiting.chmod(0o755)
    command = [sys.executable, "-m", "isobench", HEAD, "--level", "100.5", "-o", folder / "a.stl"]
    environment = {**os.environ, "ISOBENCH": str(waiting)}
    # (whoever runs the tests in the background has them ignore interrupts)
    how = {"preexec_fn": lambda: signal.signal(signal.SIGINT, signal.SIG_DFL), "stderr": subprocess.PIPE, "text": True}
    with subprocess.Popen(command, cwd=os.path.dirname(os.path.dirname(isobench.__file__)), env=environment, **how) as process:
        for _ in range(5000):
            if (tmp_path / "begun").exists():
                break
            time.sleep(0.02)
        process.send_signal(signal.SIGINT)
        assert process.communicate(timeout=600)[1] == "isomesh: interrupted\n"
    assert process.returncode == 1 and not list(folder.iterdir())


def test_negative_levels_and_paddings(run_isomesh, tmp_path):
    np.save(tmp_path / "a.npy", np.random.default_rng(0).integers(-1000, 1000, (5, 5, 5)).astype(np.int16))
    ran = run_isomesh(tmp_path / "a.npy", "--level", "-500.5", "--pad", "-1024", "-o", tmp_path / "a.ply")
    assert ran.returncode == 0, ran.stderr


def test_no_program(run_isomesh, tmp_path):
    ran = run_isomesh(HEAD, "--level", "5", "-o", tmp_path / "a.stl", env={**os.environ, "ISOBENCH": "/none"})
    assert ran.returncode == 1 and ran.stderr.startswith("isomesh: the variable ISOBENCH says /none")


def test_help(run_isomesh):
    for words, text in ((["--help"], "isomesh info VOLUME"), (["info", "--help"], "--rows")):
        ran = run_isomesh(*words)
        assert ran.returncode == 0 and text in ran.stdout


def test_info(run_isomesh):
    lines = run_isomesh("info", HEAD).stdout.splitlines()
    assert lines[:6] == ["points     64 x 64 x 48 (x y z)", "spacing    3 x 3 x 4", "origin     -94.5 -94.5 -94",
                         "space      left-posterior-superior", "type       int16", "range      0 to 656"]
    counts = [int(line.split()[2]) for line in lines if line.endswith("#")]
    assert len(counts) == 24 and sum(counts) == 64 * 64 * 48 and lines[-1] == "a level to begin with: 133.5 (Otsu's method)"


def test_summaries():
    random = np.random.default_rng(0)
    few = isobench.Volume(random.integers(0, 3, (5, 5, 5)).astype(np.uint8), np.diag([1, 1, -1.0]))
    text = _summary.summary_of(few)
    assert "left-handed" in text and [line.split()[:2] for line in text.splitlines()[8:11]] == [["-0.5", "0.5"], ["0.5", "1.5"], ["1.5", "2.5"]]
    floats = random.random((5, 5, 5))
    floats[0, 0, 0], floats[0, 0, 1] = np.nan, np.inf
    assert "2 samples are NaN or infinite" in _summary.summary_of(isobench.Volume(floats))
    for flat in (np.zeros((2, 2, 2), complex), np.zeros((2, 2, 2), "u1,u1,u1"), np.full((2, 2, 2), np.nan), np.ones((2, 2, 2)), np.ones((2, 2, 2), bool)):
        assert "to begin with" not in _summary.summary_of(isobench.Volume(flat))
    two = np.r_[np.full(500, 10), np.full(500, 90)].reshape(10, 10, 10).astype(np.int16)
    assert 10 < _summary.level_of(two) < 90 and _summary.level_of(two) % 1 == 0.5
    assert "to begin with" in _summary.summary_of(isobench.Volume(two == 90))


def test_a_progress_bar_on_a_terminal(tmp_path):
    """Standard error is a terminal; the volume is one whose extraction takes a while."""
    np.save(tmp_path / "noise.npy", np.random.default_rng(0).integers(0, 255, (70, 70, 70)).astype(np.uint8))
    ours, theirs = pty.openpty()
    folder = os.path.dirname(os.path.dirname(isobench.__file__))
    command = [sys.executable, "-m", "isobench", tmp_path / "noise.npy", "--level", "100.5", "-o", tmp_path / "a.ply"]
    with subprocess.Popen(command, cwd=folder, stdout=subprocess.PIPE, stderr=theirs) as process:
        os.close(theirs)
        said = b""
        try:
            while piece := os.read(ours, 1 << 16):
                said += piece
        except OSError:
            pass
        assert process.wait() == 0
    os.close(ours)
    assert b"reading" in said and b"extracting" in said and b"writing" in said and said.endswith(b"\r\x1b[K")


def test_the_bar_shows_parts(capsys, monkeypatch, tmp_path):
    from isobench import _progress

    monkeypatch.setattr(sys.stderr, "isatty", lambda: True, raising=False)
    text = b"ply\nformat ascii 1.0\nelement vertex 10\nproperty float x\nproperty float y\nproperty float z\nelement face 10\n"
    text += b"property list uchar int vertex_indices\nend_header\n" + b"1.000 1.000 1.000\n" * 10
    progress = _progress.Progress()
    for name, wanted in ((text, "%"), (b"ply\n", "extracting")):
        (tmp_path / "a").write_bytes(name)
        with open(tmp_path / "a", "rb") as file:
            progress.watch_mesh(file.fileno())
        assert wanted in capsys.readouterr().err


def test_pictures(run_isomesh, tmp_path):
    pytest.importorskip("vtk")
    if not os.environ.get("DISPLAY") and not shutil.which("xvfb-run"):
        ran = run_isomesh(HEAD, "--level", "100.5", "--picture", tmp_path / "a.png")
        assert ran.returncode == 0 or "xvfb-run" in ran.stderr
        pytest.skip("no display and no xvfb-run (Debian: xvfb)")
    command = [sys.executable, "-m", "isobench", HEAD, "--level", "100.5", "--picture", tmp_path / "a.png"]
    prefix = [] if os.environ.get("DISPLAY") else ["xvfb-run", "-a"]
    folder = os.path.dirname(os.path.dirname(isobench.__file__))
    ran = subprocess.run([*prefix, *command], cwd=folder, capture_output=True, text=True, timeout=600)
    assert ran.returncode == 0, ran.stderr
    assert (tmp_path / "a.png").read_bytes().startswith(b"\x89PNG") and (tmp_path / "a.png").stat().st_size > 5000

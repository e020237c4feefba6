"""What the tests share. They run over the real program."""
import pathlib
import shutil
import subprocess
import sys

import numpy as np
import pytest

sys.path.insert(0, str(pathlib.Path(__file__).resolve().parents[1]))
import isobench  # noqa: E402
from isobench import _ply, _program  # noqa: E402
from isobench._build_reader import build_reader  # noqa: E402

EXAMPLES = pathlib.Path(__file__).resolve().parents[2] / "examples"


def pytest_configure(config):
    try:
        _program.program()
    except isobench.ProgramNotFound as fault:
        pytest.exit(f"the tests run over the program: {fault}", 1)


@pytest.fixture(scope="session")
def c_reader(tmp_path_factory):
    """The C reader, built anew."""
    if not any(map(shutil.which, ("cc", "gcc", "clang"))):
        pytest.skip("no C compiler")
    return _ply.load_reader(build_reader(tmp_path_factory.mktemp("reader")))


@pytest.fixture(params=["c", "numpy"])
def reader(request, monkeypatch):
    """Each of the readers in turn."""
    chosen = request.getfixturevalue("c_reader") if request.param == "c" else None
    monkeypatch.setattr(_ply, "_c_reader", lambda: chosen)
    return request.param


@pytest.fixture
def ellipsoid():
    """Whole numbers, 40 at an ellipsoid in the middle of the array, higher inside."""
    z, y, x = np.mgrid[:20, :24, :28]
    return np.rint(100 - ((z - 9.3) ** 2 * 1.4 + (y - 11.2) ** 2 + (x - 13.1) ** 2 * 0.8)).astype(np.int16)


@pytest.fixture
def waves():
    """A smooth function of three coordinates."""
    z, y, x = np.mgrid[:24, :26, :28] / 1.0
    return np.sin(x / 5) + np.cos(y / 4) + np.sin(z / 6)


@pytest.fixture
def run_isomesh():
    """Run the command as a process of its own; what it printed."""

    def run(*words, **how):
        command = [sys.executable, "-m", "isobench", *map(str, words)]
        folder = pathlib.Path(__file__).resolve().parents[1]
        return subprocess.run(command, cwd=folder, capture_output=True, text=True, timeout=600, **how)

    return run


def is_same(first, second):
    """Whether two results are arrays of the same numbers."""
    return all(map(np.array_equal, first, second))


def verdict_of(mesh):
    """What the proved program says of a mesh: `closed`, `border N`, or what is wrong with it."""
    lines = ["ply", "format ascii 1.0", f"element vertex {len(mesh.thousandths)}", "property float x", "property float y", "property float z",
             f"element face {len(mesh.faces)}", "property list uchar int vertex_indices", "end_header"]
    lines += ["%.3f %.3f %.3f" % tuple(row) for row in mesh.thousandths / 1000]
    lines += ["3 %d %d %d" % tuple(row) for row in mesh.faces]
    ran = subprocess.run([_program.program(), "check", "ply"], input="\n".join(lines) + "\n", capture_output=True, text=True)
    return ran.stdout.strip()


def volume_of(points, faces):
    """The volume that a closed mesh encloses, by its orientation."""
    first, second, third = (points[faces[:, corner]].astype(float) for corner in range(3))
    return np.einsum("ij,ij->i", first, np.cross(second, third)).sum() / 6

"""The package as pip installs it: with the C reader and the command."""
import importlib.util
import os
import pathlib
import shutil
import subprocess
import sys

import pytest
from isobench import _program

PYTHON = pathlib.Path(__file__).resolve().parents[1]
EXAMPLES = PYTHON.parent / "examples"


@pytest.mark.parametrize("compiler", ["cc", "none"])
def test_pip_installs_it(tmp_path, compiler):
    for name in ("pip", "setuptools", "wheel"):
        # An import of setuptools would change this process.
        if not importlib.util.find_spec(name):
            pytest.skip(f"{name} is not installed")
    if compiler == "cc" and not shutil.which("cc"):
        pytest.skip("no C compiler")
    skipped = shutil.ignore_patterns("*.so", "__pycache__", "tests", "build", "*.egg-info")
    shutil.copytree(PYTHON, tmp_path / "source", ignore=skipped)
    words = ["install", "--no-build-isolation", "--no-deps", "--no-index", "--target", tmp_path / "packages", tmp_path / "source"]
    environment = {**os.environ, "CC": str(tmp_path / "none") if compiler == "none" else "cc", "PIP_DISABLE_PIP_VERSION_CHECK": "1"}
    subprocess.run([sys.executable, "-m", "pip", *words], env=environment, check=True, capture_output=True)
    installed = tmp_path / "packages" / "isobench"
    assert (installed / "_ply_reader.so").exists() == (compiler == "cc")
    assert {path.name for path in installed.glob("*.py")} == {path.name for path in (PYTHON / "isobench").glob("*.py")}
    environment = {**os.environ, "PYTHONPATH": str(tmp_path / "packages"), "ISOBENCH": _program.program()}
    ran = subprocess.run([sys.executable, tmp_path / "packages" / "bin" / "isoslabs", "--help"], env=environment, capture_output=True, text=True)
    assert ran.returncode == 0 and "isoslabs plan scan.nrrd" in ran.stdout, ran.stderr
    command = [tmp_path / "packages" / "bin" / "isomesh", EXAMPLES / "knot.nrrd", "--level", "100.5", "-o", tmp_path / "knot.ply"]
    ran = subprocess.run([sys.executable, *command], cwd=tmp_path, env=environment, capture_output=True, text=True)
    assert ran.stdout == f"{tmp_path}/knot.ply: 18626 vertices, 37252 triangles\n", ran.stderr


def test_the_reader_is_built_by_a_command(tmp_path):
    if not shutil.which("cc"):
        pytest.skip("no C compiler")
    shutil.copytree(PYTHON / "isobench", tmp_path / "isobench", ignore=shutil.ignore_patterns("*.so", "__pycache__"))
    ran = subprocess.run([sys.executable, "-m", "isobench.build"], cwd=tmp_path, capture_output=True, text=True)
    assert (ran.returncode, ran.stderr) == (0, "") and (tmp_path / "isobench" / "_ply_reader.so").exists()
    environment = {**os.environ, "CC": str(tmp_path / "none")}
    ran = subprocess.run([sys.executable, "-m", "isobench.build"], cwd=tmp_path, env=environment, capture_output=True, text=True)
    assert ran.returncode == 1 and ran.stderr.startswith("isobench.build: ")

"""The pages do what they show: the Python of docs/python.md and README.md runs, the commands print what stands behind them."""
import os
import pathlib
import re
import shutil
import subprocess
import sys

import isobench
import numpy as np
import pytest
from isobench import _program

TOP = pathlib.Path(__file__).resolve().parents[2]
PAGE = TOP / "docs" / "python.md"
BLOCK = re.compile(r"^```(\w*)\n(.*?)^```$", re.MULTILINE | re.DOTALL)


@pytest.fixture
def examples(tmp_path, monkeypatch):
    shutil.copytree(TOP / "examples", tmp_path / "examples")
    monkeypatch.chdir(tmp_path / "examples")
    return tmp_path / "examples"


def blocks_of(page):
    return BLOCK.findall(page.read_text(encoding="utf-8"))


def test_the_python_of_the_page(examples):
    names = {}
    code = [text for mark, text in blocks_of(PAGE) if mark == "python"]
    assert len(code) == 5
    for text in code:
        if "_slabs" not in text or has_isoslab():
            exec(text, names)
    assert names["verts"].shape[1] == 3 and (examples / "head.stl").stat().st_size == 84 + 50 * 44512
    verts, faces = isobench.marching_cubes(names["volume"], 100.5, pad="auto")
    assert len(faces) == len(names["faces"])


def has_isoslab():
    try:
        return bool(_program.program("isoslab"))
    except isobench.ProgramNotFound:
        return False


@pytest.mark.skipif(not has_isoslab(), reason="isoslab is not built")
def test_the_python_of_the_page_on_large_volumes(examples):
    code = [text for mark, text in blocks_of(TOP / "docs" / "large.md") if mark == "python"]
    assert len(code) == 2 and "Client(" in code[1]
    names = {}
    exec(code[0], names)
    whole = isobench.extract(isobench.read_volume("knot.nrrd"), 100.5, pad=0)
    assert np.array_equal(names["mesh"].faces, whole.faces) and names["triangles"] == len(whole.faces)


def test_the_python_of_the_readme(examples):
    (code,) = [text for mark, text in blocks_of(TOP / "README.md") if mark == "python" and "isobench.marching_cubes" in text]
    volume = isobench.read_volume("head.nrrd")
    shutil.copy("head.nrrd", "scan.nrrd")
    names = {"volume": volume.array}
    exec(code, names)
    assert np.isfinite(names["verts"]).all()


def test_the_commands_of_the_page(examples):
    shim = examples / "isomesh"
    shim.write_text(f'#!/bin/sh\nexec {sys.executable} -m isobench "$@"\n')
    shim.chmod(0o755)
    folder = os.path.dirname(os.path.dirname(isobench.__file__))
    environment = {**os.environ, "PATH": f"{examples}:{os.environ['PATH']}", "PYTHONPATH": folder}
    blocks = blocks_of(PAGE)
    commands = [(text, following) for (mark, text), (_, following) in zip(blocks, blocks[1:]) if mark == "sh" and text.startswith("isomesh")]
    assert len(commands) == 2
    for text, wanted in commands:
        ran = subprocess.run(["bash", "-e", "-c", text], env=environment, capture_output=True, text=True)
        assert (ran.returncode, ran.stdout) == (0, wanted), ran.stderr


def test_the_exports_are_documented():
    page = PAGE.read_text(encoding="utf-8")
    for name in isobench.__all__:
        assert getattr(isobench, name).__doc__
        assert name in page or name == "coinciding_in_stl"

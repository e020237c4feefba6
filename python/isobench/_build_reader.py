"""Builds the C reader of meshes. It imports nothing of the package, so that an installer can use it before numpy is there."""
from __future__ import annotations

import os
import pathlib
import shutil
import subprocess

SOURCE = pathlib.Path(__file__).with_name("_ply_reader.c")
LIBRARY = "_ply_reader.so"


def build_reader(folder: str | os.PathLike) -> pathlib.Path:
    """Compile the reader.

    Parameters
    ----------
    folder : path
        Where the shared object is put.

    Returns
    -------
    pathlib.Path
        The shared object.

    Raises
    ------
    OSError
        If there is no C compiler, or it fails.
    """
    compiler = os.environ.get("CC") or shutil.which("cc") or shutil.which("gcc") or shutil.which("clang")
    if not compiler:
        raise FileNotFoundError("no C compiler is found: install one (Debian: apt install gcc), or set CC")
    target = pathlib.Path(folder) / LIBRARY
    beside = target.with_name(f"{LIBRARY}.{os.getpid()}")
    words = [*compiler.split(), "-O3", "-shared", "-fPIC", "-Wall", "-Wextra", "-o", str(beside), str(SOURCE)]
    try:
        ran = subprocess.run(words, stderr=subprocess.PIPE)
        if ran.returncode:
            raise OSError(f"{' '.join(words)} failed: {ran.stderr.decode('utf-8', 'replace').strip()}")
        # A process that has the old one loaded keeps it.
        os.replace(beside, target)
    finally:
        beside.unlink(missing_ok=True)
    return target

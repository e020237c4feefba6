"""Where the programs isobench and isoslab are, and one run of isobench."""
from __future__ import annotations

import functools
import mmap
import os
import pathlib
import re
import shutil
import subprocess
from collections.abc import Callable, Iterable

import numpy as np

from .errors import MeshTextError, ProgramFailed, ProgramNotFound, VolumeRefused

CHECKOUT = pathlib.Path(__file__).resolve().parents[2]
BUILD_IT = {
    "isobench": "build it (`./run-it extract --help` in the checkout) and put it on the path, or set the variable ISOBENCH to its path",
    "isoslab": "build it (`./run-it count --help` in the checkout) and put it on the path, or set the variable ISOSLAB to its path",
}


def program(name: str = "isobench") -> str:
    """Find a program.

    Parameters
    ----------
    name : {"isobench", "isoslab"}

    Returns
    -------
    str
        The path in the variable ``ISOBENCH``, or ``ISOSLAB``; else the program of the checkout that this package lies
        in, if it is built; else the one on the path.

    Raises
    ------
    ProgramNotFound
        If there is none.
    """
    variable = name.upper()
    named = os.environ.get(variable)
    built = CHECKOUT / "crates" / name / "out" / name
    found = shutil.which(named) if named else str(built) if os.access(built, os.X_OK) else shutil.which(name)
    if not found:
        what = f"the variable {variable} says {named}, which is no program" if named else f"no program {name} is found"
        raise ProgramNotFound(f"{what}: {BUILD_IT[name]}")
    return _checked(os.path.abspath(found), name)


@functools.lru_cache(maxsize=None)
def _checked(path: str, name: str) -> str:
    """The path, once that program has said that it is isobench 1, or isoslab 1."""
    try:
        ran = subprocess.run([path, "--version"], stdin=subprocess.DEVNULL, capture_output=True, timeout=60)
    except (OSError, subprocess.TimeoutExpired) as fault:
        raise ProgramNotFound(f"{path} does not run ({fault}): {BUILD_IT[name]}") from fault
    version = ran.stdout.decode("utf-8", "replace").strip()
    if not re.fullmatch(rf"{name} 1\.[0-9.]+", version):
        raise ProgramNotFound(f"{path} is not {name} 1: its `--version` prints {version[:80]!r}: {BUILD_IT[name]}")
    return path


def write_whole(descriptor: int, pieces: Iterable[bytes | np.ndarray]) -> None:
    """Write bytes and contiguous arrays to a file, one behind the other."""
    for piece in pieces:
        view = (piece.data if isinstance(piece, np.ndarray) else memoryview(piece)).cast("B")
        while view:
            # One write of Linux takes at most 2 GiB.
            view = view[os.write(descriptor, view[:1 << 30]):]


def text_of(descriptor: int) -> mmap.mmap:
    """A file, as it lies in memory."""
    if not os.fstat(descriptor).st_size:
        raise MeshTextError("the program isobench ended well and wrote nothing")
    return mmap.mmap(descriptor, 0, prot=mmap.PROT_READ)


def extract_text(pieces: Iterable[bytes | np.ndarray], words: list[str], watch: Callable[[int], None] | None = None) -> mmap.mmap:
    """Run ``isobench extract`` over the pieces of a volume file.

    Input and output are files in memory without a name. Nothing goes through a pipe, nothing is left behind by a
    process that is killed, and the text is read where the program wrote it.

    Parameters
    ----------
    pieces : iterable of bytes or arrays
        The volume file.
    words : list of str
        The options of `extract`.
    watch : callable, optional
        Called some times a second with the output's file descriptor.

    Returns
    -------
    mmap.mmap
        The mesh as PLY.

    Raises
    ------
    VolumeRefused
        If the program refuses the volume.
    ProgramFailed
        If it ends with any other status than 0.
    """
    path = program()
    source, target = os.memfd_create("volume"), os.memfd_create("mesh")
    try:
        write_whole(source, pieces)
        os.lseek(source, 0, os.SEEK_SET)
        with subprocess.Popen([path, "extract", *words], stdin=source, stdout=target, stderr=subprocess.PIPE) as process:
            message = _watched(process, target, watch).decode("utf-8", "replace")
        if process.returncode == 3:
            raise VolumeRefused(f"isobench refuses the volume: {message.strip().removeprefix('isobench: ')}")
        if process.returncode:
            raise ProgramFailed(process.returncode, message)
        return text_of(target)
    finally:
        os.close(source)
        os.close(target)


def _watched(process: subprocess.Popen, target: int, watch: Callable[[int], None] | None) -> bytes:
    """Wait for the end of a process; what it wrote to standard error."""
    try:
        while watch:
            try:
                return process.communicate(timeout=0.1)[1]
            except subprocess.TimeoutExpired:
                watch(target)
        return process.communicate()[1]
    except BaseException:
        process.kill()
        raise

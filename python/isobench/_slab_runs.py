"""Slabs of a volume, and the runs of `isoslab` that count and write one."""
from __future__ import annotations

import contextlib
import errno
import fcntl
import math
import os
import re
import secrets
import subprocess
from collections.abc import Iterable, Iterator, Sequence
from dataclasses import dataclass
from typing import Union

import numpy as np

from ._program import program, write_whole
from ._samples import LONGEST_AXIS, MOST_SAMPLES, header_of
from ._slab_sources import FileStretch, MappedFile, Source
from .errors import MeshTextError, ProgramFailed, VolumeRefused

# The files of a slab, in the order of the mesh.
PARTS = ("edges", "centres", "triangles")
MOST_NUMBERS = 2 ** 31 - 1
DEEPEST = 2 ** 31
FEWEST_SLICES = 2
SHARED_SLICES = 2
BLOCK_BYTES = 1 << 24
PIPE_BYTES = 1 << 20
# Why `os.sendfile` fails where the system, or the file's, cannot send to a pipe.
UNSUPPORTED = (errno.EINVAL, errno.ENOSYS, errno.ENOTSOCK, errno.EOPNOTSUPP)
# What a volume file is made of.
Piece = Union[bytes, np.ndarray, FileStretch]
LINE = re.compile(rb"slab slices (\d+) edges (\d+) centres (\d+) triangles (\d+)\n")


@dataclass(frozen=True)
class Surface:
    """What is extracted: the level as the program reads it, the padding, and the format, ``"ply"`` or ``"obj"``."""

    level: str
    pad: int | None = None
    format: str = "ply"


@dataclass(frozen=True)
class Slab:
    """The slices of a volume from one to before another. All slabs but the last share their two uppermost ones with the next."""

    number: int
    first: int
    stop: int
    is_last: bool

    def words(self, surface: Surface) -> list[str]:
        """The options of the program for it."""
        words = [f"--level={surface.level}", f"--from={self.first}"]
        if surface.pad is not None:
            words.append(f"--pad={surface.pad}")
        return [*words, "--last"] if self.is_last else words


@dataclass(frozen=True)
class Counts:
    """What a slab owns of the whole."""

    slices: int
    edges: int
    centres: int
    triangles: int

    def line(self) -> str:
        """As the program says it."""
        return f"slab slices {self.slices} edges {self.edges} centres {self.centres} triangles {self.triangles}\n"


@dataclass(frozen=True)
class Numbers:
    """The numbers of a slab's first vertex on an edge and of its first centre in the whole."""

    first_edge: int
    first_centre: int


def slabs_of(shape: Sequence[int], is_padded: bool, processes: int, wanted: int | None = None) -> list[Slab]:
    """The slabs of a volume: each within the limits of the program.

    Parameters
    ----------
    shape : three ints
    is_padded : bool
    processes : int
        There are as many slabs as processes, or a multiple of that where the limits want more.
    wanted : int, optional
        As many slabs as this instead, or more where the limits want more.

    Raises
    ------
    ValueError
        If the volume is too thin, or too large along other axes than the first.
    """
    depth, ring = shape[0], 2 * is_padded
    for axis, size in enumerate(shape):
        if size < FEWEST_SLICES:
            raise ValueError(f"axis {axis} of the volume has {size} points, and a surface needs two or more")
        if axis and size > LONGEST_AXIS - ring:
            raise ValueError(f"axis {axis} of the volume has {size} points, and {LONGEST_AXIS - ring} are the most"
                             f"{' with padding' if is_padded else ''}: slabs cut the first axis alone; take a part, or every second sample")
    if depth > DEEPEST:
        raise ValueError(f"the volume has {depth} slices, and {DEEPEST} are the most: take a part of it")
    for count, what in ((processes, "processes"), (wanted, "slabs")):
        if count is not None and count < 1:
            raise ValueError(f"there must be one or more {what}, not {count}")
    most = min(LONGEST_AXIS, MOST_SAMPLES // ((shape[1] + ring) * (shape[2] + ring)))
    # A slab has the slices that it owns, the shared ones, and the padding's.
    needed = math.ceil((depth - 1) / (most - SHARED_SLICES - ring))
    count = max(wanted, needed) if wanted else processes * math.ceil(needed / processes)
    count = min(count, depth - 1)
    cuts = [number * (depth - 1) // count for number in range(count)]
    stops = [*(cut + SHARED_SLICES for cut in cuts[1:]), depth]
    return [Slab(number, first, stop, number == count - 1) for number, (first, stop) in enumerate(zip(cuts, stops))]


def numbers_of(counts: Sequence[Counts]) -> list[Numbers]:
    """Where the numbers of each slab's vertices begin, by the counts of all.

    Raises
    ------
    ValueError
        If a file of a mesh has no room for so many.
    """
    edges, centres, triangles = (sum(getattr(count, part) for count in counts) for part in PARTS)
    if max(edges + centres, triangles) > MOST_NUMBERS:
        raise ValueError(f"the mesh would have {edges + centres:,} vertices and {triangles:,} triangles, and {MOST_NUMBERS:,} of each are the "
                         "most: extract parts of the volume, or every second sample")
    numbers, edge, centre = [], 0, edges
    for count in counts:
        numbers.append(Numbers(edge, centre))
        edge, centre = edge + count.edges, centre + count.centres
    return numbers


def _stored_type(source: Source) -> np.dtype:
    """The type that the header of a slab names: booleans are bytes of 0 and 1."""
    return np.dtype(np.uint8) if source.dtype == bool else source.dtype


def pieces_of(source: Source, slab: Slab) -> Iterator[bytes | np.ndarray]:
    """The volume file of a slab: its header, and its slices, some at a time."""
    dtype = _stored_type(source)
    _, height, width = source.shape
    yield header_of(dtype, (slab.stop - slab.first, height, width))
    step = max(1, BLOCK_BYTES // (height * width * dtype.itemsize))
    for first in range(slab.first, slab.stop, step):
        stop = min(first + step, slab.stop)
        found = source.slices(first, stop)
        # The byte order can have become the machine's on the way to another process.
        if found.shape != (stop - first, height, width) or found.dtype.name != source.dtype.name:
            raise ValueError(f"slices {first} to {stop - 1} are {found.dtype} of the shape {found.shape}, and the volume was said to be "
                             f"{source.dtype} of the shape {source.shape}: was it changed meanwhile?")
        yield np.ascontiguousarray(found, source.dtype).view(dtype)


def unread_pieces(source: Source, slab: Slab) -> Iterator[Piece]:
    """As `pieces_of`, where only the program looks at the samples: those of a file are not read here."""
    if not isinstance(source, MappedFile):
        yield from pieces_of(source, slab)
        return
    _, height, width = source.shape
    yield header_of(_stored_type(source), (slab.stop - slab.first, height, width))
    yield source.stretch(slab.first, slab.stop)


def count_slab(source: Source, slab: Slab, surface: Surface) -> Counts:
    """Count what a slab owns."""
    return counts_by(slab, surface, unread_pieces(source, slab))


def counts_by(slab: Slab, surface: Surface, pieces: Iterable[Piece]) -> Counts:
    """Count what a slab owns, by the pieces of its volume file."""
    return _run(slab, ["count", *slab.words(surface)], pieces, None)


def write_slab(source: Source, slab: Slab, surface: Surface, numbers: Numbers, folder: str) -> Counts:
    """Write the lines of what a slab owns into the files of a folder that `part_path` names."""
    return written_by(slab, surface, numbers, unread_pieces(source, slab), folder)


def written_by(slab: Slab, surface: Surface, numbers: Numbers, pieces: Iterable[Piece], folder: str) -> Counts:
    """Write a slab, by the pieces of its volume file. The files have other names until all three are whole."""
    beside = f"{slab.number}.{secrets.token_hex(8)}"
    words = ["write", *slab.words(surface), f"--format={surface.format}", f"--edges={numbers.first_edge}",
             f"--centres={numbers.first_centre}", beside]
    names = {os.path.join(folder, f"{beside}.{part}"): part_path(folder, slab.number, part) for part in PARTS}
    try:
        counts = _run(slab, words, pieces, folder)
        for name, path in names.items():
            os.replace(name, path)
        return counts
    finally:
        for name in names:
            with contextlib.suppress(OSError):
                os.remove(name)


def part_path(folder: str, number: int, part: str) -> str:
    """Where the lines of a slab are."""
    return os.path.join(folder, f"{number}.{part}")


def head_text(surface: Surface, counts: Sequence[Counts]) -> bytes:
    """What stands before all lines of the whole: of PLY its head, of OBJ nothing."""
    if surface.format == "obj":
        return b""
    edges, centres, triangles = (sum(getattr(count, part) for count in counts) for part in PARTS)
    ran = subprocess.run([program("isoslab"), "head", str(edges + centres), str(triangles)], stdin=subprocess.DEVNULL, capture_output=True)
    if ran.returncode:
        raise ProgramFailed(ran.returncode, ran.stderr.decode("utf-8", "replace"), "isoslab")
    return ran.stdout


def _widen(pipe: int) -> None:
    """Let a pipe hold more, where the system does."""
    with contextlib.suppress(AttributeError, OSError):
        fcntl.fcntl(pipe, fcntl.F_SETPIPE_SZ, PIPE_BYTES)


def _send(pipe: int, stretch: FileStretch) -> None:
    """Send a stretch of a file into a pipe: its pages, without a copy, where the system does so.

    Where the file has become shorter, the program says that it has too few samples.
    """
    at = stretch.first
    with open(stretch.path, "rb", buffering=0) as file:
        try:
            while at < stretch.stop and (sent := os.sendfile(pipe, file.fileno(), at, stretch.stop - at)):
                at += sent
            return
        except OSError as fault:
            if fault.errno not in UNSUPPORTED:
                raise
        file.seek(at)
        while at < stretch.stop and (block := file.read(min(PIPE_BYTES, stretch.stop - at))):
            write_whole(pipe, [block])
            at += len(block)


def _feed(pipe: int, pieces: Iterable[Piece]) -> None:
    """Write the pieces of a volume file into a pipe."""
    for piece in pieces:
        if isinstance(piece, FileStretch):
            _send(pipe, piece)
        else:
            write_whole(pipe, [piece])


def _run(slab: Slab, words: list[str], pieces: Iterable[Piece], folder: str | None) -> Counts:
    """Run `isoslab` over a volume file; the counts that it prints."""
    command = [program("isoslab"), *words]
    # The samples of a slab are one large block of memory, which glibc then asks for in large pages.
    environment = {"GLIBC_TUNABLES": "glibc.malloc.hugetlb=1", **os.environ}
    with subprocess.Popen(command, stdin=subprocess.PIPE, stdout=subprocess.PIPE, stderr=subprocess.PIPE, cwd=folder, env=environment) as process:
        given, output, messages = process.stdin, process.stdout, process.stderr
        assert given and output and messages
        try:
            # A program that ends before it has read all says why.
            with contextlib.suppress(BrokenPipeError):
                _widen(given.fileno())
                _feed(given.fileno(), pieces)
            given.close()
            # Both are a line at most.
            said, message = output.read(), messages.read().decode("utf-8", "replace")
        except BaseException:
            process.kill()
            raise
    if process.returncode == 3:
        raise VolumeRefused(f"isoslab refuses slab {slab.number}, slices {slab.first} to {slab.stop - 1}: "
                            f"{message.strip().removeprefix('isoslab: ')}")
    if process.returncode:
        raise ProgramFailed(process.returncode, message, "isoslab")
    found = LINE.fullmatch(said)
    if not found:
        raise MeshTextError(f"the program isoslab ended well and printed {said[:200]!r}, which is no line of counts")
    return Counts(*map(int, found.groups()))

"""Sessions: a volume that is edited, with undo and redo, and its mesh at any time."""
from __future__ import annotations

import contextlib
import mmap
import operator
import os
import subprocess
import threading
import weakref
from collections.abc import Sequence
from typing import IO, Any

import numpy as np
from numpy.typing import ArrayLike

from . import _ply
from ._program import program, text_of, write_whole
from ._samples import Samples, checked_level, checked_pad, samples_of
from .errors import ProgramFailed, Refused, VolumeRefused
from .meshes import Mesh, checked_spacing
from .volumes import Volume, read_volume

__all__ = ["Session"]

MOST_IN_A_FILL = 1 << 20
Point = Sequence[int]


class Session:
    """A volume and a level, open in a program of its own.

    Each mesh is the one that `extract` gives of the edited array; of floats, of the samples as they were scaled at the
    beginning. All indices and boxes are in the order of the array, ``[z, y, x]``. The newest 128 edits can be undone; a
    box of more than 1,048,576 points is several edits.

    Parameters
    ----------
    volume : array_like, shape (Z, Y, X), Volume, or path
        As for `extract`; a path is read by `read_volume`, and gives its spacing.
    level : float
        Samples at or above it are inside.
    pad : float or "auto", optional
        As for `extract`: closes the mesh.
    bricks, pages : int, optional
        The most bricks whose mesh is cached, and the most pages that the cache uses (docs/cli.md).
    spacing : three floats, optional
        The distance of samples along each axis of the array. Without it that of the `Volume`, or 1.

    Raises
    ------
    ValueError
        If the array, the level, the spacing or the padding is none that can be taken.
    ProgramNotFound, ProgramFailed
        If the program is not there, or does not end well.

    Examples
    --------
    >>> with isobench.Session(array, 100.5, pad="auto") as session:
    ...     session[10, 20:30, 5] = 0
    ...     verts, faces = session.mesh()
    ...     session.undo()
    """

    def __init__(
        self,
        volume: ArrayLike | Volume | str | os.PathLike,
        level: float,
        *,
        pad: float | str | None = None,
        bricks: int | None = None,
        pages: int | None = None,
        spacing: ArrayLike | None = None,
    ) -> None:
        if isinstance(volume, (str, os.PathLike)):
            volume = read_volume(volume)
        if spacing is None:
            spacing = volume.spacing if isinstance(volume, Volume) else (1.0, 1.0, 1.0)
        self.spacing = checked_spacing(spacing)
        number = checked_level(level)
        around = checked_pad(pad, number)
        samples = samples_of(volume, number, around, is_edited=True)
        self.shape, self._dtype = samples.array.shape, samples.array.dtype.newbyteorder("<")
        self._scale = samples.scale
        options = [f"--{name}={operator.index(count)}" for name, count in (("bricks", bricks), ("pages", pages)) if count is not None]
        self._lock = threading.RLock()
        self._file = open(os.memfd_create("mesh"), "r+b", buffering=0)
        try:
            self._start(samples, [*samples.words(number, around), *options])
        except BaseException:
            self._file.close()
            raise

    def _start(self, samples: Samples, words: list[str]) -> None:
        """Start the program, and wait until it has read the volume.

        Both files of the session are in memory and have no name, so that nothing is left of them by any end.
        """
        given, mesh = os.memfd_create("volume"), self._file.fileno()
        try:
            write_whole(given, samples.pieces())
            command = [program(), "session", *words, f"/dev/fd/{given}"]
            # A session of its own: Ctrl-C at a prompt does not end the program.
            self._process = subprocess.Popen(command, stdin=subprocess.PIPE, stdout=subprocess.PIPE, stderr=subprocess.PIPE,
                                             pass_fds=(given, mesh), start_new_session=True)
            commands, replies, messages = self._process.stdin, self._process.stdout, self._process.stderr
            assert commands and replies and messages
            self._commands, self._replies, self._messages = commands, replies, messages
            # A session that is dropped ends its program too.
            self._end = weakref.finalize(self, _end, os.getpid(), self._process, commands, [replies, messages, self._file])
            try:
                self.ask("work 0")
            except BaseException:
                self.close()
                raise
            # The program still holds the descriptor, but not the bytes.
            os.ftruncate(given, 0)
        finally:
            os.close(given)

    def ask(self, line: str) -> tuple[list[str], str]:
        """Send one line of the protocol (docs/session.md).

        Parameters
        ----------
        line : str
            A command; its points are x y z, and its samples and levels the integers that stand for those of the array.

        Returns
        -------
        lines : list of str
            The lines of the reply before the one that begins with ``ok``.
        rest : str
            What that one says behind ``ok``.

        Raises
        ------
        Refused
            If the reply is an error. Nothing changed.
        ProgramFailed
            If the program has ended.
        """
        if not line.strip() or line.strip().startswith("#") or "\n" in line or not line.isascii():
            raise ValueError(f"{line!r} is not one command: comments and blank lines have no reply")
        with self._lock:
            if self._commands.closed:
                raise ValueError("the session is closed")
            try:
                return self._reply_to(line)
            except (Refused, VolumeRefused, ProgramFailed):
                raise
            except BaseException:
                # An interrupt, or what the handler of another signal raised: the reply would be taken for that of the next line.
                self._process.kill()
                raise

    def _reply_to(self, line: str) -> tuple[list[str], str]:
        try:
            self._commands.write(line.encode("ascii") + b"\n")
            self._commands.flush()
        except BrokenPipeError:
            self._raise_ended()
        lines: list[str] = []
        while True:
            reply = self._replies.readline().decode("ascii")
            if not reply.endswith("\n"):
                self._raise_ended()
            word, _, rest = reply.rstrip("\n").partition(" ")
            if word == "ok":
                return lines, rest
            if word == "error":
                raise Refused(rest)
            lines.append(reply.rstrip("\n"))

    def _raise_ended(self) -> None:
        message = self._messages.read().decode("utf-8", "replace")
        status = self._process.wait()
        if status == 3:
            raise VolumeRefused(f"isobench refuses the volume: {message.strip().removeprefix('isobench: ')}")
        raise ProgramFailed(status, message)

    def __setitem__(self, key: Any, value: float) -> None:
        """Give one value to a sample, or to a box of samples."""
        box = self._box_of(key)
        if box is None:
            return
        first, last = box
        if first == last:
            self.set(first, value)
        else:
            self.fill(first, last, value)

    def _box_of(self, key: Any) -> tuple[Point, Point] | None:
        """The first and the last point of what `key` selects; None if that is empty."""
        keys = key if isinstance(key, tuple) else (key,)
        dots = [at for at, one in enumerate(keys) if one is Ellipsis]
        if dots:
            keys = keys[:dots[0]] + (slice(None),) * (4 - len(keys)) + keys[dots[0] + 1:]
        keys += (slice(None),) * (3 - len(keys))
        if len(keys) > 3:
            raise IndexError(f"too many indices: a volume has 3 axes, but {len(keys)} were given")
        spans = [self._span_of(axis, key) for axis, key in enumerate(keys)]
        if any(stop <= start for start, stop in spans):
            return None
        return [start for start, _ in spans], [stop - 1 for _, stop in spans]

    def _span_of(self, axis: int, key: Any) -> tuple[int, int]:
        size = self.shape[axis]
        if isinstance(key, slice):
            start, stop, step = key.indices(size)
            if step != 1:
                raise IndexError("only slices without a step select a box: use one assignment for each part")
            return start, stop
        try:
            index = operator.index(key)
        except TypeError as fault:
            raise IndexError("only integers and slices select a box, not masks or lists: use one assignment for each sample") from fault
        if not -size <= index < size:
            raise IndexError(f"index {index} is out of bounds for axis {axis} with size {size}")
        return index % size, index % size + 1

    def _indices_of(self, point: Point) -> list[int]:
        """The indices of a point, none negative."""
        if len(point) != 3:
            raise IndexError(f"a point has three indices z, y, x, not {len(point)}")
        return [self._span_of(axis, index)[0] for axis, index in enumerate(point)]

    def _point_of(self, point: Point) -> str:
        """The words x y z of a point z y x."""
        return " ".join(map(str, reversed(self._indices_of(point))))

    def _word_of(self, value: float) -> str:
        if np.ndim(value):
            raise ValueError("one value is given to all samples of a box, not an array: use one assignment for each sample")
        return str(self._scale.value_of(value))

    def set(self, point: Point, value: float) -> None:
        """Give a value to the sample at (z, y, x)."""
        self.ask(f"set {self._point_of(point)} {self._word_of(value)}")

    def fill(self, first: Point, last: Point, value: float) -> None:
        """Give a value to all samples of a box; both its corners, (z, y, x), are in it.

        More than 1,048,576 points go in several steps, each of which is one edit to undo.
        """
        word = self._word_of(value)
        corners = self._indices_of(first), self._indices_of(last)
        (bottom, front, left), (top, back, right) = np.sort(corners, axis=0).tolist()
        width, height = right - left + 1, back - front + 1
        rows, layers = max(1, min(height, MOST_IN_A_FILL // width)), max(1, MOST_IN_A_FILL // (width * height))
        with self._lock:
            for z in range(bottom, top + 1, layers):
                for y in range(front, back + 1, rows):
                    upper_y, upper_z = min(y + rows - 1, back), min(z + layers - 1, top)
                    self.ask(f"fill {left} {y} {z} {right} {upper_y} {upper_z} {word}")

    def undo(self) -> None:
        """Take the newest edit, or change of the level, back."""
        self.ask("undo")

    def redo(self) -> None:
        """Do again what `undo` took back."""
        self.ask("redo")

    def level(self, value: float) -> None:
        """Change the level. It can be undone like an edit."""
        self.ask(f"level {self._scale.level_text(checked_level(value))}")

    def work(self, bricks: int) -> None:
        """Compute at most so many bricks of the next mesh ahead of it."""
        self.ask(f"work {operator.index(bricks)}")

    def voxel_mesh(self, box: tuple[Point, Point] | None = None) -> Mesh:
        """The mesh as it now is.

        Parameters
        ----------
        box : pair of points (z, y, x), optional
            Only the part of the surface in this box; both corners are in it. It has a border where the box cuts it.

        Returns
        -------
        Mesh
        """
        with self._lock:
            name = f"/dev/fd/{self._file.fileno()}"
            if box is None:
                self.ask(f"ply {name}")
            else:
                first, last = box
                self.ask(f"window {self._point_of(first)} {self._point_of(last)} ply {name}")
            positions, faces = self._read(_ply.read_mesh)
        return Mesh(positions, faces, self._scale.error())

    def mesh(self, box: tuple[Point, Point] | None = None) -> tuple[np.ndarray, np.ndarray]:
        """The mesh as it now is, as `marching_cubes` gives it: `verts` and `faces`, in units of the spacing."""
        found = self.voxel_mesh(box)
        return found.spaced(self.spacing), found.faces

    def samples(self) -> np.ndarray:
        """The volume as it now is; where samples were scaled, each within the mesh's `error` of its value."""
        with self._lock:
            self.ask(f"save /dev/fd/{self._file.fileno()}")
            integers = self._read(lambda text: np.frombuffer(text[text.find(b"\n\n") + 2:], self._dtype).reshape(self.shape).copy())
        return self._scale.values_of(integers)

    def _read(self, read: Any) -> Any:
        """What `read` makes of the file that the program wrote, which is empty afterwards."""
        text: mmap.mmap = text_of(self._file.fileno())
        try:
            return read(text)
        finally:
            os.ftruncate(self._file.fileno(), 0)

    def report(self) -> tuple[dict[str, int], list[dict[str, int]]]:
        """Counts of the mesh and of each of its parts.

        Returns
        -------
        whole : dict
            ``vertices``, ``edges``, ``faces``, ``border`` (edges in one triangle alone), ``euler``, ``parts``.
        parts : list of dict
            The same of each part, and ``part``, its smallest vertex.
        """
        lines, _ = self.ask("report")
        whole, *parts = (_fields_of(line) for line in lines)
        return whole, parts

    def measure(self) -> list[dict[str, Any]]:
        """Measures of each part of the mesh, in units of the spacing.

        Returns
        -------
        list of dict
            ``part``, its smallest vertex; ``volume``, as a rule negative for a hole; ``vector_area`` (z, y, x), zero
            for every closed part; ``border``, its edges in one triangle alone. Where that is not 0, ``volume`` depends
            on where the origin lies.
        """
        lines, _ = self.ask("measure")
        depth, height, width = self.spacing
        found = []
        for fields in map(_fields_of, lines[1:]):
            x, y, z = fields["area"]
            area = (z / 2e6 * width * height, y / 2e6 * width * depth, x / 2e6 * height * depth)
            volume = fields["six"] / 6e9 * depth * height * width
            found.append({"part": fields["part"], "volume": volume, "vector_area": area, "border": fields["border"]})
        return found

    def contour(self, plane: int) -> list[tuple[bool, np.ndarray]]:
        """The contour lines of the plane ``[plane, :, :]``.

        Returns
        -------
        list of (is_closed, points)
            `points` has the columns y x, in units of the spacing.
        """
        index = self._span_of(0, plane)[0]
        lines, _ = self.ask(f"contour {index}")
        found, at = [], 0
        while at < len(lines):
            word, count = lines[at].split()
            points = np.array([line.split() for line in lines[at + 1:at + 1 + int(count)]], float).reshape(-1, 2)
            found.append((word == "cycle", points[:, ::-1] * self.spacing[1:]))
            at += 1 + int(count)
        return found

    def close(self) -> None:
        """End the program. A session that is closed is closed once more without any effect."""
        with self._lock:
            self._end()

    def __enter__(self) -> Session:
        return self

    def __exit__(self, *_: object) -> None:
        self.close()


def _end(owner: int, process: subprocess.Popen, commands: IO[bytes], others: list[IO[bytes]]) -> None:
    """End a program, and close what was open.

    It is told to quit: it would not see the end of its input while a process that was forked from this one has it open.
    Such a process itself only closes what it has.
    """
    if os.getpid() == owner:
        with contextlib.suppress(BrokenPipeError):
            commands.write(b"quit\n")
            commands.flush()
    with contextlib.suppress(BrokenPipeError):
        commands.close()
    process.wait()
    for stream in others:
        stream.close()


def _fields_of(line: str) -> dict[str, Any]:
    """The fields of a line such as `part 0 six 12 area 1 2 3 border 0`; those of three numbers as a tuple."""
    words = line.split()
    fields, names = {}, [at for at, word in enumerate(words) if word[0].isalpha()]
    for at, end in zip(names, [*names[1:], len(words)]):
        numbers = tuple(int(word) for word in words[at + 1:end])
        if numbers:
            fields[words[at]] = numbers if len(numbers) > 1 else numbers[0]
    return fields

"""A progress bar, on a terminal."""
from __future__ import annotations

import os
import sys

from . import _ply
from .errors import MeshTextError

WIDTH = 30


class Progress:
    """What is being done, and how much of it is done. It says nothing where standard error is not a terminal."""

    def __init__(self, is_wanted: bool = True) -> None:
        self._is_shown = is_wanted and sys.stderr.isatty()

    def show(self, what: str, part: float | None = None) -> None:
        """Say what is done, and which part of it, 0 to 1, if that is known."""
        if self._is_shown:
            bar = "" if part is None else f" [{'#' * round(WIDTH * part):<{WIDTH}}] {part:4.0%}"
            sys.stderr.write(f"\r\x1b[K{what}{bar}")
            sys.stderr.flush()

    def clear(self) -> None:
        """Take the line away."""
        if self._is_shown:
            sys.stderr.write("\r\x1b[K")
            sys.stderr.flush()

    def watch_mesh(self, descriptor: int) -> None:
        """Show how much of a mesh has been written, by the counts in its header and usual lengths of its lines."""
        try:
            vertices, faces, start = _ply.counts_of(os.pread(descriptor, 512, 0))
        except MeshTextError:
            self.show("extracting")
            return
        face = len("3 \n") + 3 * (len(str(vertices)) + 1)
        length = start + 23 * vertices + face * faces
        self.show("extracting", min(1.0, os.fstat(descriptor).st_size / length))

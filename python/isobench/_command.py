"""The command `isomesh`."""
from __future__ import annotations

import argparse
import sys
import warnings
from collections.abc import Sequence

from ._endings import end_of, print_text, say
from ._picture import draw_mesh
from ._progress import Progress
from ._summary import summary_of
from ._writers import write_mesh
from .meshes import Mesh, extract
from .volumes import KNOWN, Volume, read_volume

__all__ = ["main"]

MESHES = ".stl, .ply (both binary), .obj, .3mf; any other that meshio knows, if it is installed"


def main(words: Sequence[str] | None = None) -> int:
    """Run the command.

    Parameters
    ----------
    words : sequence of str, optional
        Its arguments; without them those of the process.

    Returns
    -------
    int
        Its exit status: 0 done, 1 refused, failed or interrupted. Wrong arguments end the process with 2.
    """
    given = list(sys.argv[1:] if words is None else words)
    return end_of("isomesh", lambda: _run(given), "take a part of the volume, or every second sample")


def _run(given: list[str]) -> None:
    if given[:1] == ["info"]:
        asked = _info_parser().parse_args(given[1:])
        print_text(summary_of(read_volume(asked.volume), asked.rows))
    else:
        _write(_mesh_parser().parse_args(given))


def _mesh_parser() -> argparse.ArgumentParser:
    parser = argparse.ArgumentParser(
        prog="isomesh",
        description="Writes the surface of a volume at a level, closed, in the space of its file.",
        usage="isomesh VOLUME --level V -o MESH [--pad auto|none|P] [--space file|ras|lps|voxel] [--picture PNG] [--quiet]\n"
              "       isomesh info VOLUME [--rows N]",
        epilog=f"Volumes: {KNOWN}. Meshes: {MESHES}. `isomesh info VOLUME` shows what a volume is like, to choose a level from.",
    )
    parser.add_argument("volume", metavar="VOLUME")
    parser.add_argument("-l", "--level", type=float, required=True, metavar="V", help="samples at or above it are inside")
    parser.add_argument("-o", "--output", metavar="MESH", help="the file to write; its ending says the format")
    parser.add_argument("--pad", default="auto", type=_pad_of, metavar="P",
                        help="the value around the volume, below the level: a number; auto (the default), which closes the mesh; "
                             "or none, and the mesh is open where it leaves the volume")
    parser.add_argument("--space", choices=("file", "ras", "lps", "voxel"), default="file",
                        help="the file's own space (the default), right-anterior-superior, left-posterior-superior, or voxels")
    parser.add_argument("--picture", metavar="PNG", help="a picture of the mesh, by VTK")
    parser.add_argument("-q", "--quiet", action="store_true", help="no progress bar and no summary")
    return parser


def _info_parser() -> argparse.ArgumentParser:
    parser = argparse.ArgumentParser(prog="isomesh info", description="Shows sizes, spacing, type, range and a histogram of a volume.",
                                     epilog=f"Volumes: {KNOWN}.")
    parser.add_argument("volume", metavar="VOLUME")
    parser.add_argument("--rows", type=_rows_of, default=24, metavar="N", help="rows of the histogram (24)")
    return parser


def _pad_of(word: str) -> float | str | None:
    return {"auto": "auto", "none": None}[word] if word in ("auto", "none") else float(word)


def _rows_of(word: str) -> int:
    rows = int(word)
    if not 1 <= rows <= 1000:
        raise ValueError
    return rows


def _write(asked: argparse.Namespace) -> None:
    """Read, extract and write what was asked for."""
    if not (asked.output or asked.picture):
        _mesh_parser().error("say where to write: -o MESH, or --picture PNG")
    progress = Progress(not asked.quiet)
    try:
        progress.show(f"reading {asked.volume}")
        volume = read_volume(asked.volume)
        directions, origin = volume.frame_in(asked.space)
        progress.show("extracting")
        mesh = extract(volume, asked.level, pad=asked.pad, watch=progress.watch_mesh)
        points, faces = mesh.placed(directions, origin)
        with warnings.catch_warnings(record=True) as noticed:
            warnings.simplefilter("always", UserWarning)
            if asked.output:
                progress.show(f"writing {asked.output}")
                write_mesh(asked.output, points, faces)
            if asked.picture:
                progress.show(f"drawing {asked.picture}")
                draw_mesh(asked.picture, points, faces)
    finally:
        progress.clear()
    for warning in noticed:
        say("isomesh", f"warning: {warning.message}")
    if not asked.quiet:
        _summarize(asked, volume, mesh)


def _summarize(asked: argparse.Namespace, volume: Volume, mesh: Mesh) -> None:
    if mesh.error:
        say("isomesh", f"the samples were scaled to integers: each is within {mesh.error:.3g} of its value and on its side of the level")
    if not len(mesh.faces):
        array = volume.array
        say("isomesh", f"warning: the mesh is empty: no sample is {'above' if array.max() < asked.level else 'below'} the level, "
             f"and they lie between {array.min():.9g} and {array.max():.9g}")
    print_text(f"{asked.output or asked.picture}: {len(mesh.thousandths)} vertices, {len(mesh.faces)} triangles\n")

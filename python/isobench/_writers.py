"""Writes meshes: binary STL and PLY, OBJ, 3MF; what else meshio knows."""
from __future__ import annotations

import contextlib
import errno
import os
import secrets
import stat
import warnings
import zipfile
from collections.abc import Iterator

import numpy as np
from numpy.typing import ArrayLike

__all__ = ["coinciding_in_stl", "write_mesh"]

ROWS = 1 << 16
WRITE_ELSEWHERE = "write to another folder, or under another name"
CURES = {
    errno.ENOSPC: "make room, or write to another disk",
    errno.EDQUOT: "make room, or write to another disk",
    errno.EFBIG: "files may be no longer here (`ulimit -f`)",
}
PLY_HEAD = """ply
format binary_little_endian 1.0
element vertex {vertices}
property {kind} x
property {kind} y
property {kind} z
element face {faces}
property list uchar int vertex_indices
end_header
"""
XML = '<?xml version="1.0" encoding="UTF-8"?>\n'
CONTENT_TYPES = XML + (
    '<Types xmlns="http://schemas.openxmlformats.org/package/2006/content-types">'
    '<Default Extension="rels" ContentType="application/vnd.openxmlformats-package.relationships+xml"/>'
    '<Default Extension="model" ContentType="application/vnd.ms-package.3dmanufacturing-3dmodel+xml"/></Types>'
)
RELATIONS = XML + (
    '<Relationships xmlns="http://schemas.openxmlformats.org/package/2006/relationships">'
    '<Relationship Target="/3D/3dmodel.model" Id="rel0" Type="http://schemas.microsoft.com/3dmanufacturing/2013/01/3dmodel"/>'
    "</Relationships>"
)
MODEL_BEGIN = XML + (
    '<model unit="millimeter" xmlns="http://schemas.microsoft.com/3dmanufacturing/core/2015/02">'
    '<resources><object id="1" type="model"><mesh><vertices>\n'
)
MODEL_END = '</triangles></mesh></object></resources><build><item objectid="1"/></build></model>\n'


def write_mesh(path: str | os.PathLike, points: ArrayLike, faces: ArrayLike) -> None:
    """Write a mesh in the format that the end of the name says.

    ``.stl`` (binary), ``.ply`` (binary), ``.obj`` and ``.3mf`` (in millimetres) are written here, any other format by
    meshio, if that is installed and knows it. The file is written beside its place and renamed when it is whole, so
    that no half file ever has its name.

    Parameters
    ----------
    path : path
        A device or a pipe is written to directly.
    points : array_like, shape (V, 3)
        Written as floats of 32 bits to STL, as they are to PLY, with nine significant digits to OBJ and 3MF.
    faces : array_like of int, shape (F, 3)

    Raises
    ------
    ValueError
        If the arrays are no mesh, or no format has this ending.
    OSError
        If the file cannot be written.

    Warns
    -----
    UserWarning
        Where vertices coincide in an STL file: it has no vertex numbers, and the mesh may not be closed in it.
    """
    positions, corners = _checked(points, faces)
    ending = os.path.splitext(os.fspath(path))[1].lower()
    write = _WRITERS.get(ending, _write_by_meshio)
    same = coinciding_in_stl(positions) if write is _write_stl else 0
    if same:
        warnings.warn(f"{same} vertices lie where others do, and STL has no vertex numbers: the mesh may not be closed in it. Another format, "
                      "a level that no sample equals, or an origin near 0 keeps it closed", stacklevel=2)
    with in_place(path, ending) as beside:
        write(beside, positions, corners)


def coinciding_in_stl(points: ArrayLike) -> int:
    """How many points lie where another one does, as floats of 32 bits.

    Parameters
    ----------
    points : array_like, shape (V, 3)
    """
    # -0 and 0 are one place.
    return count_repeated((np.asarray(points).astype(np.float32) + np.float32(0)).view(np.uint32))


def count_repeated(rows: np.ndarray) -> int:
    """How many rows of three numbers of 32 bits are as another one before them."""
    if not len(rows):
        return 0
    first = rows[:, 0].astype(np.uint64) << np.uint64(32) | rows[:, 1]
    order = np.lexsort((rows[:, 2], first))
    first, last = first[order], rows[order, 2]
    return int(np.count_nonzero((first[1:] == first[:-1]) & (last[1:] == last[:-1])))


def _checked(points: ArrayLike, faces: ArrayLike) -> tuple[np.ndarray, np.ndarray]:
    positions, corners = np.asanyarray(points), np.asanyarray(faces)
    if positions.dtype.name not in ("float32", "float64"):
        positions = positions.astype(np.float64)
    for name, array in (("points", positions), ("faces", corners)):
        if array.ndim != 2 or array.shape[1] != 3:
            raise ValueError(f"{name} must have the shape (N, 3), not {array.shape}")
    if not np.isfinite(positions).all():
        raise ValueError("some points are infinite or no numbers (NaN), and a mesh has none of these")
    if corners.dtype.kind not in "iu":
        raise ValueError(f"faces must be integers, not {corners.dtype}")
    if len(corners) and not (0 <= corners.min() and corners.max() < len(positions)):
        raise ValueError(f"faces name vertices from {corners.min()} to {corners.max()}, and there are {len(positions)} points")
    return positions, corners


@contextlib.contextmanager
def in_place(path: str | os.PathLike, ending: str) -> Iterator[str]:
    """The name of a file beside `path`, which becomes it at the end if nothing goes wrong. Errors name `path`."""
    target = os.path.realpath(path)
    folder = os.path.dirname(target)
    if not os.path.isdir(folder):
        raise FileNotFoundError(errno.ENOENT, "there is no such folder", folder)
    is_special = os.path.exists(target) and not stat.S_ISREG(os.stat(target).st_mode)
    beside = target if is_special else os.path.join(folder, f".isobench-{secrets.token_hex(8)}{ending}")
    try:
        yield beside
        if not is_special:
            os.replace(beside, target)
    except OSError as fault:
        if fault.errno is None:
            raise
        # The class goes by the number: PermissionError and the like.
        raise OSError(fault.errno, f"{os.strerror(fault.errno)}: {CURES.get(fault.errno, WRITE_ELSEWHERE)}", os.fspath(path)) from fault
    finally:
        if not is_special:
            with contextlib.suppress(OSError):
                os.remove(beside)


def _write_by_meshio(path: str, points: np.ndarray, faces: np.ndarray) -> None:
    ending = os.path.splitext(path)[1]
    try:
        import meshio
    except ImportError as fault:
        raise ValueError(f"the ending {ending!r} is none of {', '.join(_WRITERS)}: choose one of them, or install meshio "
                         "(Debian: python3-meshio), which knows more") from fault
    # XDMF keeps its numbers in a second file unless it is told not to.
    options = {"data_format": "XML"} if ending in (".xdmf", ".xmf") else {}
    try:
        meshio.write_points_cells(path, points, [("triangle", faces)], **options)
    except (OSError, MemoryError):
        raise
    except ImportError as fault:
        raise ImportError(f"to write {ending!r}, meshio wants one more library: {fault}. Install it, or choose one of {', '.join(_WRITERS)}") from fault
    except Exception as fault:
        # It has errors of its own, and some formats fail with others.
        said = str(fault).rstrip(".")
        raise ValueError(f"meshio does not write {ending!r} ({said}): choose one of {', '.join(_WRITERS)}") from fault


def _write_stl(path: str, points: np.ndarray, faces: np.ndarray) -> None:
    with open(path, "wb") as file:
        file.write(b"isobench".ljust(80) + len(faces).to_bytes(4, "little"))
        for first in range(0, len(faces), ROWS):
            file.write(_facets(points, faces[first:first + ROWS]).view(np.uint8).data)


def _facets(points: np.ndarray, faces: np.ndarray) -> np.ndarray:
    """The records of STL: a normal, three corners, and two bytes that say nothing."""
    record = np.zeros(len(faces), [("normal", "<f4", 3), ("corners", "<f4", (3, 3)), ("attributes", "<u2")])
    at = points[faces].astype(np.float64)
    normals = np.cross(at[:, 1] - at[:, 0], at[:, 2] - at[:, 0])
    lengths = np.linalg.norm(normals, axis=1, keepdims=True)
    record["normal"] = np.divide(normals, lengths, out=np.zeros_like(normals), where=lengths > 0)
    record["corners"] = at
    return record


def _write_ply(path: str, points: np.ndarray, faces: np.ndarray) -> None:
    record = np.empty(len(faces), [("count", "u1"), ("corners", "<i4", 3)])
    record["count"], record["corners"] = 3, faces
    kind = "float" if points.dtype.itemsize == 4 else "double"
    with open(path, "wb") as file:
        file.write(PLY_HEAD.format(vertices=len(points), faces=len(faces), kind=kind).encode("ascii"))
        file.write(np.ascontiguousarray(points, points.dtype.newbyteorder("<")).data)
        file.write(record.view(np.uint8).data)


def _lines(form: str, array: np.ndarray) -> Iterator[bytes]:
    """The rows of an array, printed by a form, some thousands at a time."""
    for first in range(0, len(array), ROWS):
        part = array[first:first + ROWS]
        yield (form * len(part) % tuple(part.ravel().tolist())).encode("ascii")


def _write_obj(path: str, points: np.ndarray, faces: np.ndarray) -> None:
    with open(path, "wb") as file:
        file.writelines(_lines("v %.9g %.9g %.9g\n", points))
        file.writelines(_lines("f %d %d %d\n", faces.astype(np.int64) + 1))


def _write_3mf(path: str, points: np.ndarray, faces: np.ndarray) -> None:
    with zipfile.ZipFile(path, "w", zipfile.ZIP_DEFLATED, compresslevel=1) as package:
        package.writestr("[Content_Types].xml", CONTENT_TYPES)
        package.writestr("_rels/.rels", RELATIONS)
        with package.open("3D/3dmodel.model", "w", force_zip64=True) as file:
            file.write(MODEL_BEGIN.encode("ascii"))
            file.writelines(_lines('<vertex x="%.9g" y="%.9g" z="%.9g"/>\n', points))
            file.write(b"</vertices><triangles>\n")
            file.writelines(_lines('<triangle v1="%d" v2="%d" v3="%d"/>\n', faces))
            file.write(MODEL_END.encode("ascii"))


_WRITERS = {".stl": _write_stl, ".ply": _write_ply, ".obj": _write_obj, ".3mf": _write_3mf}

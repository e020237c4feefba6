"""Volumes of files: samples, and where they lie."""
from __future__ import annotations

import os
import struct
from dataclasses import dataclass, field

import numpy as np

from ._nrrd import frame_of, read_nrrd

__all__ = ["Volume", "read_volume"]

KNOWN = ".nrrd, .nhdr, .nii, .nii.gz, .tif, .tiff, .npy"
# The directions of x, y and z in spaces by the initials of their names, beside right-anterior-superior.
SIGNS = {"R": 1, "L": -1, "A": 1, "P": -1, "S": 1, "I": -1}


@dataclass(frozen=True, eq=False)
class Volume:
    """Samples and where they lie: the sample [z, y, x] at origin + x d0 + y d1 + z d2.

    A volume can be given wherever an array of samples can.

    Attributes
    ----------
    array : ndarray, shape (Z, Y, X)
    directions : ndarray of float, shape (3, 3)
        d0, d1 and d2, one in each row.
    origin : ndarray of float, shape (3,)
    space : str
        What the file calls its space, such as ``"left-posterior-superior"``, or ``""``.
    """

    array: np.ndarray
    directions: np.ndarray = field(default_factory=lambda: np.eye(3))
    origin: np.ndarray = field(default_factory=lambda: np.zeros(3))
    space: str = ""

    def __array__(self, dtype: np.dtype | None = None, copy: bool | None = None) -> np.ndarray:
        return np.array(self.array, dtype) if copy else np.asarray(self.array, dtype)

    @property
    def spacing(self) -> tuple[float, float, float]:
        """The distance of samples along each axis of the array."""
        steps = np.linalg.norm(self.directions, axis=1)
        return float(steps[2]), float(steps[1]), float(steps[0])

    def frame_in(self, space: str) -> tuple[np.ndarray, np.ndarray]:
        """Directions and origin in another space.

        Parameters
        ----------
        space : {"file", "voxel", "ras", "lps"}
            As the file has them; in voxels; right-anterior-superior; left-posterior-superior.

        Raises
        ------
        ValueError
            If the file does not say which of these it has.
        """
        if space == "file":
            return self.directions, self.origin
        if space == "voxel":
            return np.eye(3), np.zeros(3)
        ours, wanted = _letters_of(self.space), _letters_of(space)
        if wanted is None:
            raise ValueError(f"the space must be file, voxel, ras or lps, not {space!r}")
        if ours is None:
            said = f"the file says {self.space!r}" if self.space else "the file does not say which space it has"
            raise ValueError(f"{said}, which cannot be turned into {space}: use the file's own space")
        turn = np.array([SIGNS[a] * SIGNS[b] for a, b in zip(ours, wanted)], float)
        return self.directions * turn, self.origin * turn


def _letters_of(space: str) -> str | None:
    """`LPS` of `left-posterior-superior` and the like: one letter for each of x, y and z."""
    words = space.upper().removesuffix("-TIME").split("-")
    letters = "".join(word[:1] for word in words) if len(words) == 3 else space.upper()
    is_known = len(letters) == 3 and all(letter in pair for letter, pair in zip(letters, ("LR", "AP", "IS")))
    return letters if is_known else None


def read_volume(path: str | os.PathLike) -> Volume:
    """Read a volume from a file.

    Parameters
    ----------
    path : path
        NRRD (.nrrd, or .nhdr with its data file; raw and gzip are read here, any other encoding by pynrrd or Teem's
        ``unu``), NIfTI (.nii, .nii.gz; by nibabel), a stack of images in one TIFF file (by tifffile), or an array of
        numpy (.npy).

    Returns
    -------
    Volume
        Its array may be read-only, or lie on disk and be read where it is used.

    Raises
    ------
    ValueError
        If the file is none of these, damaged, cut short, or has other than three axes.
    OSError
        If it cannot be read.
    ImportError
        If a library is wanted that is not installed; the message names it.
    """
    name = os.fspath(path)
    read = next((read for endings, read in _READERS if name.lower().endswith(endings)), None)
    if read is None:
        raise ValueError(f"{name}: its ending is none of {KNOWN}: convert it to one of these, for example in 3D Slicer")
    try:
        volume = read(name)
    except (OSError, ImportError, MemoryError):
        raise
    except Exception as fault:
        # The libraries have errors of their own, derived from Exception alone, and some errors do not say which file it is.
        if isinstance(fault, ValueError) and name in str(fault):
            raise
        raise ValueError(f"{name} is damaged or cut short: {fault}") from fault
    if volume.array.ndim != 3:
        raise ValueError(f"{name} has {volume.array.ndim} axes, {volume.array.shape}, and a volume has three: take one image or one channel of it "
                         "(`unu slice`, or as an array)")
    return volume


def _read_nrrd(name: str) -> Volume:
    array, fields = read_nrrd(name)
    if array.ndim != 3:
        return Volume(array)
    directions, origin = frame_of(fields)
    return Volume(array, directions, origin, fields.get("space", ""))


def _read_nifti(name: str) -> Volume:
    try:
        import nibabel
    except ImportError as fault:
        raise ImportError("to read NIfTI files, install nibabel (pip install nibabel; Debian: apt install python3-nibabel)") from fault
    image = nibabel.load(name)
    affine = np.asarray(image.affine, float)
    array = np.asanyarray(image.dataobj)
    while array.ndim > 3 and array.shape[-1] == 1:
        array = array[..., 0]
    return Volume(array.T, affine[:3, :3].T, affine[:3, 3], "right-anterior-superior")


def _read_tiff(name: str) -> Volume:
    try:
        import tifffile
    except ImportError as fault:
        raise ImportError("to read TIFF files, install tifffile (pip install tifffile; Debian: apt install python3-tifffile)") from fault
    _check_pages(name)
    try:
        return Volume(tifffile.imread(name))
    except ValueError as fault:
        if "imagecodecs" in str(fault):
            raise ImportError(f"to read {name}, install imagecodecs (pip install imagecodecs), or save it without compression: {fault}") from fault
        raise


def _check_pages(name: str) -> None:
    """Follow the list of a TIFF file's images to its end: of a file that is cut short, tifffile may give the first ones alone."""
    with open(name, "rb") as file:
        head = file.read(16)
        order = ">" if head[:2] == b"MM" else "<"
        is_big = head[2:4] in (b"+\0", b"\0+")
        # Where the first offset stands; how a count and an offset are written; the length of an entry.
        at, count_form, offset_form, entry = (8, order + "Q", order + "Q", 20) if is_big else (4, order + "H", order + "I", 12)
        seen: set[int] = set()
        while True:
            file.seek(at)
            (offset,) = struct.unpack(offset_form, file.read(struct.calcsize(offset_form)))
            if not offset or offset in seen:
                return
            seen.add(offset)
            file.seek(offset)
            (count,) = struct.unpack(count_form, file.read(struct.calcsize(count_form)))
            at = offset + struct.calcsize(count_form) + count * entry


def _read_npy(name: str) -> Volume:
    return Volume(np.load(name, mmap_mode="r", allow_pickle=False))


_READERS = (
    ((".nrrd", ".nhdr"), _read_nrrd),
    ((".nii", ".nii.gz"), _read_nifti),
    ((".tif", ".tiff"), _read_tiff),
    ((".npy",), _read_npy),
)

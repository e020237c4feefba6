"""Volumes that are read slice by slice: arrays in memory, files, HDF5 and Zarr, in a form that other processes can open."""
from __future__ import annotations

import hashlib
import mmap
import os
from dataclasses import dataclass
from typing import Any, Union

import numpy as np

from ._nrrd import mapped_nrrd
from ._samples import TYPES
from .volumes import Volume

SLICES_IN_A_MARK = 16
KNOWN = ".nrrd, .nhdr (raw) and .npy"


@dataclass(frozen=True)
class FileStretch:
    """The bytes of a file from one to before another."""

    path: str
    first: int
    stop: int


@dataclass(frozen=True)
class MappedFile:
    """An array in a file. Each process opens it by itself, so no samples go from one to the other."""

    path: str
    dtype: np.dtype
    shape: tuple[int, ...]
    offset: int

    def slices(self, first: int, stop: int) -> np.ndarray:
        """The slices from one to before another."""
        return np.memmap(self.path, self.dtype, "r", self.offset, self.shape)[first:stop]

    def stretch(self, first: int, stop: int) -> FileStretch:
        """Where the slices from one to before another lie."""
        slice_bytes = self.shape[1] * self.shape[2] * self.dtype.itemsize
        return FileStretch(self.path, self.offset + first * slice_bytes, self.offset + stop * slice_bytes)

    def for_slices(self, first: int, stop: int) -> MappedFile:
        """What a process gets that reads these slices alone."""
        return self


@dataclass(frozen=True)
class Hdf5Array:
    """An array in an HDF5 file, which each process opens by itself."""

    path: str
    name: str
    dtype: np.dtype
    shape: tuple[int, ...]

    def slices(self, first: int, stop: int) -> np.ndarray:
        """The slices from one to before another."""
        import h5py

        with h5py.File(self.path, "r") as file:
            return file[self.name][first:stop]

    def for_slices(self, first: int, stop: int) -> Hdf5Array:
        """What a process gets that reads these slices alone."""
        return self


@dataclass(frozen=True, eq=False)
class GivenArray:
    """An array of numpy, or one of another library that reads slices when they are asked for, such as Zarr."""

    array: Any
    dtype: np.dtype
    shape: tuple[int, ...]
    first: int = 0

    def slices(self, first: int, stop: int) -> np.ndarray:
        """The slices from one to before another."""
        return np.asarray(self.array[first - self.first:stop - self.first])

    def for_slices(self, first: int, stop: int) -> GivenArray:
        """What a process gets that reads these slices alone: of an array in memory no others go there."""
        if not isinstance(self.array, np.ndarray):
            return self
        return GivenArray(self.array[first:stop], self.dtype, self.shape, first)


Source = Union[MappedFile, Hdf5Array, GivenArray]


def source_of(volume: Any) -> Source:
    """A volume that can be read slice by slice.

    Parameters
    ----------
    volume : array_like, shape (Z, Y, X), Volume, or path
        A path is that of a raw NRRD file or an .npy file.

    Raises
    ------
    ValueError
        If the samples are not integers of 8, 16 or 32 bits or booleans on three axes, or the file is none that can be read so.
    OSError
        If it cannot be read.
    """
    name = ""
    if isinstance(volume, (str, os.PathLike)):
        name = f"{os.fspath(volume)}: "
        volume = _mapped(os.fspath(volume))
    array = volume.array if isinstance(volume, Volume) else volume
    if not (hasattr(array, "shape") and hasattr(array, "dtype") and hasattr(array, "__getitem__")):
        array = np.asarray(array)
    dtype, shape = np.dtype(array.dtype), tuple(int(size) for size in array.shape)
    if len(shape) != 3:
        raise ValueError(f"{name}a volume has three axes, and the array has {len(shape)}: take one channel or one time, as in array[0]")
    if isinstance(array, np.ma.MaskedArray):
        raise ValueError(f"{name}a masked array is not taken by slabs: give masked samples a value below the level, as in volume.filled(..)")
    if dtype != bool and dtype.name not in TYPES:
        raise ValueError(f"{name}slabs take integers of 8, 16 or 32 bits, and the samples are {dtype}: convert them once, as in "
                         "np.rint(volume * 100).astype(np.int32), and the level alike")
    if dtype == bool and isinstance(array, np.ndarray):
        array, dtype = array.view(np.uint8), np.dtype(np.uint8)
    return _of_array(array, dtype, shape)


def _of_array(array: Any, dtype: np.dtype, shape: tuple[int, ...]) -> Source:
    """What an array is read by: where it is a whole file's, by the file."""
    if isinstance(array, np.memmap) and isinstance(array.base, mmap.mmap) and array.flags.c_contiguous and array.mode in ("r", "r+", "c"):
        # Copy-on-write maps can hold other samples than the file.
        if array.mode != "c" and isinstance(array.filename, (str, os.PathLike)):
            return MappedFile(os.path.abspath(array.filename), dtype, shape, array.offset)
    if type(array).__module__.partition(".")[0] == "h5py":
        return Hdf5Array(os.path.abspath(array.file.filename), array.name, dtype, shape)
    return GivenArray(array, dtype, shape)


def _mapped(path: str) -> np.ndarray:
    """The array of a file, as a map of it."""
    ending = os.path.splitext(path)[1].lower()
    if ending in (".nrrd", ".nhdr"):
        return mapped_nrrd(path)
    if ending != ".npy":
        raise ValueError(f"{path}: its ending is none of {KNOWN}, of which slices can be read alone: save it as one of these, or hand in an "
                         "array that reads its own slices, such as one of h5py or Zarr")
    try:
        return np.load(path, mmap_mode="r", allow_pickle=False)
    except ValueError as fault:
        raise ValueError(f"{path} is damaged or cut short: {fault}") from fault


def mark_of(source: Source) -> str:
    """A hash by which another volume is told: of the type, the sizes, and some slices."""
    depth = source.shape[0]
    found = hashlib.sha256(f"{source.dtype.str} {source.shape}".encode())
    for z in sorted({number * (depth - 1) // (SLICES_IN_A_MARK - 1) for number in range(SLICES_IN_A_MARK)}):
        found.update(np.ascontiguousarray(source.slices(z, z + 1)).view(np.uint8).data)
    return found.hexdigest()

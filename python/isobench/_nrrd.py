"""Reads NRRD files, with headers attached or detached.

Raw and gzip encodings in one data file, which nearly all files have, are read here. Any other file goes through pynrrd,
if that is installed, or else through Teem's `unu`, which read all there are.
"""
from __future__ import annotations

import math
import os
import re
import shutil
import subprocess
import tempfile
import zlib
from typing import BinaryIO, NamedTuple

import numpy as np

KINDS = {
    "i1": ("signed char", "int8", "int8_t"),
    "u1": ("uchar", "unsigned char", "uint8", "uint8_t"),
    "i2": ("short", "short int", "signed short", "signed short int", "int16", "int16_t"),
    "u2": ("ushort", "unsigned short", "unsigned short int", "uint16", "uint16_t"),
    "i4": ("int", "signed int", "int32", "int32_t"),
    "u4": ("uint", "unsigned int", "uint32", "uint32_t"),
    "i8": ("longlong", "long long", "long long int", "signed long long", "signed long long int", "int64", "int64_t"),
    "u8": ("ulonglong", "unsigned long long", "unsigned long long int", "uint64", "uint64_t"),
    "f4": ("float",),
    "f8": ("double",),
}
TYPE_OF = {name: kind for kind, names in KINDS.items() for name in names}
LONGEST_HEADER = 1 << 20
VECTOR = re.compile(r"none|\([^)]*\)")


class OtherForm(Exception):
    """The file is NRRD of a form that is not read here."""


class Layout(NamedTuple):
    """How the samples lie: their type, the sizes of the fastest axis first, the encoding, and the data file of a detached header."""

    dtype: np.dtype
    sizes: list[int]
    encoding: str
    data_file: str | None

    def length(self) -> int:
        """How many bytes the samples have, decoded."""
        return math.prod(self.sizes) * self.dtype.itemsize


def read_nrrd(path: str) -> tuple[np.ndarray, dict[str, str]]:
    """Read an NRRD file.

    Parameters
    ----------
    path : str

    Returns
    -------
    array : ndarray
        Axes in the reverse order of the file: the fastest one is the last.
    fields : dict
        The header's fields, by their names in lower case.

    Raises
    ------
    ValueError
        If the file is not NRRD, damaged or cut short.
    ImportError
        If it is of a rare form, and neither pynrrd nor `unu` is installed.
    """
    with open(path, "rb") as file:
        fields = _fields_of(file, path)
        try:
            return _samples_of(file, path, fields), fields
        except OtherForm as fault:
            why = str(fault)
    try:
        import nrrd
    except ImportError:
        return _read_by_unu(path, why)
    return nrrd.read(path, index_order="C")[0], fields


def frame_of(fields: dict[str, str]) -> tuple[np.ndarray, np.ndarray]:
    """The directions of the three axes, one in each row, and the origin.

    Raises
    ------
    ValueError
        If the header gives other than three vectors of three numbers.
    """
    origin = next(filter(None, _vectors_of(fields.get("space origin", ""))), [0.0, 0.0, 0.0])
    vectors = _vectors_of(fields.get("space directions", ""))
    if not vectors:
        words = fields.get("spacings", "1 1 1").split()
        steps = [1.0 if number != number else number for number in map(float, words)]
        vectors = np.diag(steps).tolist()
    directions = [vector for vector in vectors if vector is not None]
    if [len(vector) for vector in [*directions, origin]] != [3, 3, 3, 3]:
        raise ValueError("the header does not give three directions and an origin of three numbers: correct `space directions`, `space origin`")
    return np.asarray(directions, float), np.asarray(origin, float)


def _vectors_of(text: str) -> list[list[float] | None]:
    """The vectors of a value such as `(1,0,0) none (0,0,1)`."""
    words = VECTOR.findall(text)
    return [None if word == "none" else [float(number) for number in word[1:-1].split(",")] for word in words]


def _fields_of(file: BinaryIO, path: str) -> dict[str, str]:
    """The fields of a header, up to the blank line behind it, where the file then stands."""
    if not file.readline(80).startswith(b"NRRD000"):
        raise ValueError(f"{path} is not an NRRD file: it does not begin with NRRD000")
    fields: dict[str, str] = {}
    length = 0
    while line := file.readline(LONGEST_HEADER):
        text, length = line.decode("utf-8", "replace").strip(), length + len(line)
        if not text:
            break
        if length > LONGEST_HEADER:
            raise ValueError(f"{path}: the header has no end")
        name, found, value = text.partition(": ")
        if found and not text.startswith("#"):
            fields[name.strip().lower()] = value.strip()
    return fields


def mapped_nrrd(path: str) -> np.memmap:
    """The samples of a raw NRRD file of any size, where they lie on disk.

    Raises
    ------
    ValueError
        If the file is not NRRD, its samples do not lie raw in one data file, or it is cut short.
    """
    with open(path, "rb") as file:
        fields = _fields_of(file, path)
        offset = file.tell()
    try:
        layout = _layout_of(path, fields)
        if layout.encoding != "raw":
            raise OtherForm(f"encoding {layout.encoding}")
    except OtherForm as fault:
        raise ValueError(f"{path} has {fault}: save it raw (`unu save -f nrrd -e raw -i {path} -o raw.nrrd`), so that slices can be read alone") from fault
    data = path if layout.data_file is None else _data_path(path, layout.data_file)
    offset = offset if layout.data_file is None else 0
    found = os.path.getsize(data) - offset
    if found < layout.length():
        raise ValueError(_cut_short(path, layout.length(), found))
    return np.memmap(data, layout.dtype, "r", offset, tuple(layout.sizes[::-1]))


def _layout_of(path: str, fields: dict[str, str]) -> Layout:
    """How the samples lie by a header."""
    try:
        kind = TYPE_OF[fields["type"].lower()]
        sizes = [int(word) for word in fields["sizes"].split()]
    except KeyError as fault:
        raise OtherForm(f"type {fields.get('type')}") from fault
    except ValueError as fault:
        raise ValueError(f"{path}: the header's sizes are {fields['sizes']!r}") from fault
    if min(sizes, default=0) < 1:
        raise ValueError(f"{path}: the header's sizes are {fields['sizes']!r}, and each must be 1 or more")
    encoding = fields.get("encoding", "").lower()
    if encoding not in ("raw", "gzip", "gz"):
        raise OtherForm(f"encoding {encoding}")
    skips = [fields.get(name, "0") for name in ("line skip", "lineskip", "byte skip", "byteskip")]
    data_file = fields.get("data file", fields.get("datafile"))
    if any(skip != "0" for skip in skips) or data_file and (data_file.startswith("LIST") or "%" in data_file):
        raise OtherForm("skips or several data files")
    order = ">" if fields.get("endian", "little").lower() == "big" else "<"
    return Layout(np.dtype(order + kind), sizes, encoding, data_file or None)


def _data_path(path: str, data_file: str) -> str:
    """Where the data file of a detached header is."""
    return os.path.join(os.path.dirname(path), data_file)


def _cut_short(path: str, declared: int, found: int) -> str:
    return f"{path} is cut short: its header declares {declared} bytes of samples, and it has {found}: copy it again"


def _samples_of(file: BinaryIO, path: str, fields: dict[str, str]) -> np.ndarray:
    """The samples of a file whose header was read."""
    layout = _layout_of(path, fields)
    if layout.data_file:
        with open(_data_path(path, layout.data_file), "rb") as data:
            text = _bytes_of(data, layout.encoding, layout.length())
    else:
        text = _bytes_of(file, layout.encoding, layout.length())
    if len(text) < layout.length():
        raise ValueError(_cut_short(path, layout.length(), len(text)))
    return np.frombuffer(text, layout.dtype, math.prod(layout.sizes)).reshape(layout.sizes[::-1])


def _bytes_of(file: BinaryIO, encoding: str, length: int) -> bytes:
    """So many bytes of samples, or as many as there are."""
    if encoding == "raw":
        # A header can declare more than fits in memory. The size of a pipe is 0.
        return file.read(min(length, os.fstat(file.fileno()).st_size or length))
    # 16: a gzip header is wanted. Files of several members are decoded one by one; one byte more is asked for, so that
    # the check sum behind the last byte is looked at.
    pieces, found, rest = [], 0, file.read()
    while rest and found < length:
        decoder = zlib.decompressobj(16 + zlib.MAX_WBITS)
        try:
            pieces.append(decoder.decompress(rest, length + 1 - found))
        except zlib.error as fault:
            raise ValueError(f"{file.name}: its gzip data is damaged ({fault}): copy it again") from fault
        found, rest = found + len(pieces[-1]), decoder.unused_data
        if found == length and not decoder.eof:
            raise ValueError(f"{file.name} is cut short: the check sum behind its gzip data is not there: copy it again")
    return b"".join(pieces)


def _read_by_unu(path: str, why: str) -> tuple[np.ndarray, dict[str, str]]:
    """The same file, by way of one that is raw."""
    unu = shutil.which("unu") or shutil.which("teem-unu")
    if not unu:
        raise ImportError(f"{path} has {why}: to read it, install pynrrd (pip install pynrrd) or Teem (Debian: apt install teem-apps)")
    with tempfile.TemporaryDirectory() as room:
        plain = os.path.join(room, "plain.nrrd")
        ran = subprocess.run([unu, "save", "-f", "nrrd", "-e", "raw", "-i", path, "-o", plain], stdout=subprocess.DEVNULL, stderr=subprocess.PIPE)
        if ran.returncode:
            # Its usage stands behind a blank line; the line before says most.
            said = ran.stderr.decode("utf-8", "replace").strip().partition("\n\n")[0].splitlines()
            raise ValueError(f"{path} is damaged or cut short; unu says: {said[-1] if said else ran.returncode}")
        with open(plain, "rb") as file:
            fields = _fields_of(file, plain)
            return _samples_of(file, plain, fields), fields

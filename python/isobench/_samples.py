"""Makes the samples of an array integers that the program takes: exactly where that can be, else by a scale."""
from __future__ import annotations

import decimal
import math
import sys
from collections.abc import Sequence
from dataclasses import dataclass

import numpy as np
from numpy.typing import ArrayLike

TYPES = ("uint8", "int8", "uint16", "int16", "uint32", "int32")
WIDEST = ("int32", "uint32")
LEAST, GREATEST = -(2 ** 31), 2 ** 31 - 1
LEAST_PAD, GREATEST_PAD = -(2 ** 31), 2 ** 32 - 1
LONGEST_AXIS, MOST_SAMPLES = 1026, 160_000_000
OUTLIER = 2.0 ** 20
FAR = 2.0 ** 21
KEPT_LESSER_ENDS = 2000


@dataclass(frozen=True)
class Scale:
    """How values and levels are told in the program's integers.

    The integer of a value v is floor((v - zero) * 2 ** exponent). Where `is_exact` is false, half is taken off each
    level, so that no sample equals it. Where `is_cut` is true, values beyond the integers become the nearest one.
    """

    is_exact: bool = True
    zero: float = 0.0
    exponent: int = 0
    is_cut: bool = False

    def level_text(self, level: float) -> str:
        """The least level of three decimals that is not below the given one: by that no sample changes its side."""
        thousandths = thousandths_of(level)[0] if self.is_exact else self._thousandths_of(level)
        if abs(thousandths) >= 2 ** 33 * 1000:
            raise ValueError(f"the level {level} is out of range: its absolute value must be below 2**33 = 8,589,934,592")
        whole, rest = divmod(abs(thousandths), 1000)
        return f"{'-' if thousandths < 0 else ''}{whole}.{rest:03d}"

    def _thousandths_of(self, level: float) -> int:
        """A scaled level in thousandths; a far one is as far as the program's limit."""
        scaled = _float_times(level - self.zero, self.exponent)
        return round(1000 * min(max(scaled - 0.5, -(2.0 ** 33)), 2.0 ** 33))

    def value_of(self, value: float) -> int:
        """The integer of a sample's value."""
        try:
            value = float(value)
        except (TypeError, OverflowError) as fault:
            raise ValueError(f"the value {value!r} is not a number") from fault
        if math.isnan(value):
            raise ValueError("the value is no number (NaN)")
        if self.is_exact:
            if not value.is_integer():
                raise ValueError(f"the value {value} is not a whole number, and all samples are: begin anew with an array that has a fraction, "
                                 "or with all values and the level 1,000 times as great")
            return int(value)
        scaled = _float_times(value - self.zero, self.exponent)
        if not (LEAST <= scaled <= GREATEST or self.is_cut or math.isinf(value)):
            least, greatest = self.values_of(np.array([LEAST, GREATEST]))
            raise ValueError(f"the value {value} is not between {least:.6g} and {greatest:.6g}, for which these samples were scaled: "
                             "begin anew with an array that has it")
        whole = math.floor(min(max(scaled, LEAST), GREATEST))
        return -1 if whole >= 0 and value < self.zero else whole

    def values_of(self, integers: np.ndarray) -> np.ndarray:
        """The values of integers: where they were scaled, the middles of their units."""
        return integers if self.is_exact else _times(integers + 0.5, -self.exponent) + self.zero

    def error(self) -> float:
        """How far at most a value lies from that which stands for it, in the units of the samples."""
        return 0.0 if self.is_exact else _float_times(0.5, -self.exponent)


@dataclass(frozen=True)
class Samples:
    """Integers [z, y, x] of one of the types that the program takes, and their scale."""

    array: np.ndarray
    scale: Scale = Scale()

    def words(self, level: float, pad: float | str | None) -> list[str]:
        """The options of the program for a level and a padding."""
        words = [f"--level={self.scale.level_text(level)}"]
        if pad is None:
            return words
        if isinstance(pad, str):
            # The greatest that is below the level and not above any sample.
            whole = min(int(self.array.min()), math.ceil(decimal.Decimal(self.scale.level_text(level))) - 1)
        else:
            whole = self.scale.value_of(pad)
        if not LEAST_PAD <= whole <= GREATEST_PAD:
            raise ValueError(f"the padding {whole} is out of range: it must lie between -2**31 and 2**32 - 1")
        return [*words, f"--pad={whole}"]

    def pieces(self) -> tuple[bytes, np.ndarray]:
        """The volume file: its header, and the samples as they lie."""
        array = np.ascontiguousarray(self.array)
        return header_of(array.dtype, array.shape), array


def header_of(dtype: np.dtype, shape: Sequence[int]) -> bytes:
    """The header of a volume file, behind which samples [z, y, x] stand as they lie in memory."""
    depth, height, width = shape
    order = ""
    if dtype.itemsize > 1:
        is_big = dtype.byteorder == ">" or dtype.byteorder == "=" and sys.byteorder == "big"
        order = f"endian: {'big' if is_big else 'little'}\n"
    return f"NRRD0004\ntype: {dtype.name}\ndimension: 3\nsizes: {width} {height} {depth}\n{order}encoding: raw\n\n".encode("ascii")


def thousandths_of(level: float) -> tuple[int, bool]:
    """The least whole number of thousandths that is not below a level as it is written, and whether it is the level."""
    exact = decimal.Decimal(repr(level)) * 1000
    up = exact.to_integral_value(decimal.ROUND_CEILING)
    return int(up), up == exact


def checked_level(level: float) -> float:
    """A level as a float, if it is a finite number."""
    try:
        number = float(level)
    except (TypeError, OverflowError) as fault:
        raise ValueError(f"the level {level!r} is not a number") from fault
    if not math.isfinite(number):
        raise ValueError(f"the level is {number}: choose a finite one, such as the middle between two materials")
    return number


def checked_pad(pad: float | str | None, level: float) -> float | str | None:
    """A padding, if there is one below the level, or ``"auto"``."""
    if pad is None or isinstance(pad, str) and pad == "auto":
        return pad
    try:
        number = math.nan if isinstance(pad, str) else float(pad)
    except (TypeError, OverflowError):
        number = math.nan
    if not number < level:
        raise ValueError(f"pad is {pad!r}: it must be a number below the level {level}, 'auto' or None")
    return number


def samples_of(volume: ArrayLike, level: float, pad: float | str | None = None, *, is_edited: bool = False) -> Samples:
    """Integers that stand for the samples of an array.

    Parameters
    ----------
    volume : array_like, three axes
        Integers, booleans or floats.
    level, pad
        As `checked_level` and `checked_pad` give them.
    is_edited : bool
        Whether other values will follow: room is left for them then, as far from the level again where samples are
        scaled, and all 32 bits where whole numbers come from a wider type than the program has.

    Returns
    -------
    Samples

    Raises
    ------
    ValueError
        If the program cannot take such an array.
    """
    array = np.asanyarray(volume)
    _check_shape(array, pad is not None)
    if np.ma.is_masked(array):
        raise ValueError("some samples are masked: give them a value below the level, as in volume.filled(..)")
    if array.dtype == bool:
        array = array.view(np.uint8)
    if array.dtype.kind not in "iuf":
        raise ValueError(f"samples of type {array.dtype} have no level: take their real part, their length or one of their components")
    least, greatest = array.min(), array.max()
    if np.isnan(least):
        raise ValueError("some samples are no numbers (NaN): give them a value below the level, as in np.nan_to_num(volume, nan=..)")
    reach = max(abs(float(least) - level), abs(float(greatest) - level))
    whole = _whole(array, least, greatest, WIDEST if is_edited else TYPES)
    is_exact = thousandths_of(level)[1] and (pad is None or isinstance(pad, str) or pad.is_integer())
    # Where samples are far from the level, its next three decimals move a vertex less than a scale does.
    if whole is not None and (is_exact or reach >= FAR):
        return Samples(whole)
    return _scaled(array, level, pad, reach, 2.0 if is_edited else 1.0)


def _check_shape(array: np.ndarray, is_padded: bool) -> None:
    if array.ndim != 3:
        raise ValueError(f"a volume has three axes, and the array has {array.ndim}: take one channel or one time, as in array[0]")
    most = LONGEST_AXIS - 2 * is_padded
    for axis, size in enumerate(array.shape):
        if size < 2:
            raise ValueError(f"axis {axis} of the array has {size} points, and a surface needs two or more")
        if size > most:
            by_slabs = "" if axis else "go by slabs (extract_slabs), "
            raise ValueError(f"axis {axis} of the array has {size} points, and {most} are the most{' with padding' if is_padded else ''}: "
                             f"{by_slabs}take a part, or every second sample, as in array[::2, ::2, ::2]")
    samples = math.prod(size + 2 * is_padded for size in array.shape)
    if samples > MOST_SAMPLES:
        raise ValueError(f"the array has {samples:,} samples{' with its padding' if is_padded else ''}, and {MOST_SAMPLES:,} are the most: "
                         "go by slabs (extract_slabs), take a part, or every second sample, as in array[::2, ::2, ::2]")


def _type_for(least: int, greatest: int, types: Sequence[str]) -> str | None:
    """The first type that has both numbers."""
    return next((name for name in types if np.iinfo(name).min <= least and greatest <= np.iinfo(name).max), None)


def _whole(array: np.ndarray, least: np.number, greatest: np.number, types: Sequence[str]) -> np.ndarray | None:
    """Whole numbers of 32 bits as they are, or in one of these types; None if some are not whole."""
    if array.dtype.name in TYPES:
        return array
    is_finite = np.isfinite(least) and np.isfinite(greatest)
    name = _type_for(int(least), int(greatest), types) if is_finite else None
    if array.dtype.kind in "iu":
        if name is None:
            raise ValueError(f"the samples lie between {least} and {greatest}, which no 32-bit integers do: subtract a constant from them, "
                             "or convert them by astype(float)")
        return array.astype(name)
    if name is None:
        return None
    out = np.empty(array.shape, name)
    for to, part in zip(out, array):
        to[...] = part.astype(name)
        if (to != part).any():
            return None
    return out


def _scaled(array: np.ndarray, level: float, pad: float | str | None, reach: float, room: float) -> Samples:
    """floor((v - level) * 2 ** exponent), by the greatest exponent with which all samples fit; the level is then -0.5.

    The difference is rounded correctly and the product is exact, so each sample stays on its side. An outlier takes the
    others' room: where the greatest distance is far above the usual one, values are cut off at 2,000 times the greatest
    distance that the nearer end of a crossing edge has. No vertex moves by that, since on such an edge it lies within
    half a thousandth of the nearer end anyway. Infinite samples are cut off likewise.
    """
    far = 0.0 if pad is None or isinstance(pad, str) else abs(pad - level)
    reach = max(far, reach)
    usual = float(np.median(np.abs(_from_level(_some_of(array), level))))
    is_cut = not math.isfinite(reach) or reach > OUTLIER * usual
    if is_cut:
        reach = min(reach, KEPT_LESSER_ENDS * _greatest_lesser_end(array, level, far))
    elif not far:
        reach = min(reach * room, sys.float_info.max)
    # reach is below 2 ** math.frexp(reach)[1].
    exponent = 31 - math.frexp(reach)[1]
    out = np.empty(array.shape, np.int32)
    for to, part in zip(out, array):
        distances = _from_level(part, level)
        # The product of a very small distance can be rounded to zero.
        below = distances < 0 if exponent < 0 else None
        scaled = _times(distances, exponent)
        np.floor(scaled, out=scaled)
        if is_cut:
            np.clip(scaled, LEAST, GREATEST, out=scaled)
        if below is not None:
            scaled[below & (scaled >= 0)] = -1
        to[...] = scaled
    return Samples(out, Scale(False, level, exponent, is_cut))


def _float_times(number: float, exponent: int) -> float:
    """A number times a power of two."""
    try:
        return math.ldexp(number, exponent)
    except OverflowError:
        return math.copysign(math.inf, number)


def _times(numbers: np.ndarray, exponent: int) -> np.ndarray:
    """Numbers times a power of two, in place. `ldexp` is slow, and needed only where that power is no float."""
    if abs(exponent) > 1000:
        return np.ldexp(numbers, exponent)
    numbers *= 2.0 ** exponent
    return numbers


def _from_level(part: np.ndarray, level: float) -> np.ndarray:
    """Distances from the level, rounded once: also of floats that are wider than 64 bits."""
    return np.subtract(part, level, dtype=np.result_type(part, np.float64)).astype(np.float64, copy=False)


def _some_of(array: np.ndarray) -> np.ndarray:
    """Some 60,000 samples, or all."""
    return array[tuple(slice(None, None, max(1, size // 40)) for size in array.shape)]


def _greatest_lesser_end(array: np.ndarray, level: float, far: float) -> float:
    """The greatest finite distance from the level that the nearer end of a crossing edge has, padding's edges too."""
    most, before = 0.0, None
    for number, part in enumerate(array):
        distances = _from_level(part, level)
        above, sizes = distances >= 0, np.abs(distances)
        pairs = [((above[:, 1:], sizes[:, 1:]), (above[:, :-1], sizes[:, :-1])), ((above[1:], sizes[1:]), (above[:-1], sizes[:-1]))]
        if before is not None:
            pairs.append(((above, sizes), before))
        for (first, ends), (second, other_ends) in pairs:
            most = max(most, _greatest_finite(np.minimum(ends, other_ends)[first != second]))
        if far:
            rim = np.ones(part.shape, bool)
            rim[1:-1, 1:-1] = number in (0, len(array) - 1)
            most = max(most, _greatest_finite(np.minimum(sizes, far)[rim & above]))
        before = above, sizes
    return most


def _greatest_finite(distances: np.ndarray) -> float:
    return float(np.max(distances, where=np.isfinite(distances), initial=0.0))

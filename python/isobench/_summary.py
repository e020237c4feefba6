"""What a volume is like, in text: sizes, spacing, type, range and a histogram, from which a level is chosen."""
from __future__ import annotations

import numpy as np

from .volumes import Volume

__all__ = ["summary_of"]

BAR = 40
FINE = 1024


def summary_of(volume: Volume, rows: int = 24) -> str:
    """A volume in text.

    Parameters
    ----------
    volume : Volume
    rows : int
        The number of the histogram's rows.

    Returns
    -------
    str
    """
    array = volume.array
    sizes = " x ".join(str(size) for size in reversed(array.shape))
    spacing = " x ".join(f"{step:.6g}" for step in reversed(volume.spacing))
    lines = [f"points     {sizes} (x y z)", f"spacing    {spacing}", f"origin     {' '.join(f'{number:.6g}' for number in volume.origin)}"]
    lines += [f"space      {volume.space or 'not said'}{', left-handed' if np.linalg.det(volume.directions) < 0 else ''}"]
    lines += [f"type       {array.dtype.name}"]
    if array.dtype.kind not in "iufb":
        return "\n".join(lines) + "\n"
    finite = array[np.isfinite(array)] if array.dtype.kind == "f" else np.ravel(array)
    if len(finite) < array.size:
        lines.append(f"not finite {array.size - len(finite)} samples are NaN or infinite")
    if not len(finite):
        return "\n".join(lines) + "\n"
    least, greatest = finite.min(), finite.max()
    lines.append(f"range      {least:.9g} to {greatest:.9g}")
    if finite.dtype == bool:
        finite = finite.view(np.uint8)
    if least < greatest:
        lines += ["", *_histogram(finite, rows)]
    return "\n".join(lines) + "\n"


def _histogram(samples: np.ndarray, rows: int) -> list[str]:
    """A line for each class of values, with a bar by the logarithm of its count; then a level to begin with."""
    least, greatest = float(samples.min()), float(samples.max())
    is_whole = samples.dtype.kind in "iub"
    if is_whole and greatest - least < rows:
        rows, least, greatest = round(greatest - least) + 1, least - 0.5, greatest + 0.5
    counts, edges = np.histogram(samples, rows, (least, greatest))
    bars = np.log1p(counts) / np.log1p(counts.max()) * BAR
    lines = [f"{'from':>12} {'to':>12} {'samples':>12} {'share':>7}"]
    for first, last, count, bar in zip(edges, edges[1:], counts, bars):
        lines.append(f"{first:12.6g} {last:12.6g} {count:12d} {count / samples.size:7.2%} {'#' * int(round(bar))}".rstrip())
    return [*lines, "", f"a level to begin with: {level_of(samples):.6g} (Otsu's method)"]


def level_of(samples: np.ndarray) -> float:
    """Otsu's level: it parts the samples in two classes so that the variance between these is greatest.

    Parameters
    ----------
    samples : ndarray
        Finite numbers that are not all alike.

    Returns
    -------
    float
        For integers, half way between two of them: no sample equals it.
    """
    least, greatest = float(samples.min()), float(samples.max())
    counts, edges = np.histogram(samples, FINE, (least, greatest))
    middles = (edges[:-1] + edges[1:]) / 2
    below = np.cumsum(counts)[:-1].astype(float)
    above = samples.size - below
    sums = np.cumsum(counts * middles)
    means_below, means_above = sums[:-1] / below, (sums[-1] - sums[:-1]) / np.maximum(above, 1)
    variance = below * above * (means_above - means_below) ** 2
    # Where nothing lies between the classes all these edges are as good: the middle one.
    best = np.flatnonzero(variance >= variance.max() * (1 - 1e-12))
    level = float(edges[1 + best[len(best) // 2]])
    return np.floor(level) + 0.5 if samples.dtype.kind in "iub" else level

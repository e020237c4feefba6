"""Floats, 64 bits and levels of many decimals: each sample stays on its side, and vertices lie where they should."""
import numpy as np
import pytest
from isobench import extract
from isobench._samples import samples_of

STEPS = ((0, 0, 1), (0, 1, 0), (1, 0, 0))


def crossing_edges(volume, level):
    """In the order of the vertices: base x y z, axis (0 for x), and the distances of both ends from the level."""
    distances = volume.astype(np.float64) - level
    is_crossing = np.zeros(volume.shape + (3,), bool)
    above = distances >= 0
    is_crossing[:, :, :-1, 0] = above[:, :, 1:] != above[:, :, :-1]
    is_crossing[:, :-1, :, 1] = above[:, 1:] != above[:, :-1]
    is_crossing[:-1, :, :, 2] = above[1:] != above[:-1]
    z, y, x, axis = np.nonzero(is_crossing)
    ends = distances[z + (axis == 2), y + (axis == 1), x + (axis == 0)]
    return np.stack([x, y, z], 1), axis, np.abs(distances[z, y, x]), np.abs(ends)


def worst_place(volume, level):
    """The greatest distance in thousandths of a vertex from its true place, once all are on the right edges."""
    mesh = extract(volume, level)
    bases, axis, near, far = crossing_edges(volume, level)
    assert len(bases) > 100
    offsets = mesh.thousandths[:len(bases)] - 1000 * bases
    along = np.take_along_axis(offsets, axis[:, None], 1)[:, 0]
    assert (offsets.sum(1) == along).all() and (0 <= along).all() and (along <= 1000).all()
    with np.errstate(invalid="ignore"):
        share = near / (near + far)
    share[np.isinf(near) & np.isinf(far)] = 0.5
    share[np.isinf(near) & ~np.isinf(far)] = 1.0
    return np.abs(along - 1000 * share).max()


def volumes():
    random = np.random.default_rng(0)
    z, y, x = np.mgrid[:32, :32, :32] / 1.0
    smooth = np.sin(x / 5) + np.cos(y / 4) + np.sin(z / 6)
    uniform = random.random((24, 24, 24))
    normal = random.standard_normal((24, 24, 24))
    infinite = uniform.copy()
    infinite[3, 4, 5], infinite[9, 9, 9] = np.inf, -np.inf
    mostly_infinite = np.where(random.random((24, 24, 24)) < 0.7, np.where(uniform < 0.5, -np.inf, np.inf), uniform)

    def with_one(value):
        return np.where(np.arange(24 ** 3).reshape(24, 24, 24) == 5, value, uniform)

    whole = random.integers(-1000, 1000, (24, 24, 24))
    return {
        "smooth, 64 bits": (smooth, 0.123456789),
        "smooth, 32 bits": (smooth.astype(np.float32), 0.1),
        "smooth, 16 bits": (smooth.astype(np.float16), 0.1),
        "normal noise": (normal.astype(np.float32), 0.05),
        "one sample of 10^6": (with_one(1e6).astype(np.float32), 0.5),
        "one sample of 10^9": (with_one(1e9), 0.5),
        "one sample of -10^300": (with_one(-1e300), 0.5),
        "two infinite samples": (infinite, 0.5),
        "most samples infinite": (mostly_infinite, 0.5),
        "samples at the level": (np.round(uniform, 2), 0.5),
        "small differences": (1000 + 1e-5 * normal, 1000.0),
        "very small numbers": (1e-300 * normal, 1e-301),
        "subnormal numbers": (np.float64(5e-320) * np.round(100 * normal), 0.0),
        "very great numbers": (1e300 * normal, 1e299),
        "whole numbers as floats": (whole.astype(np.float32), 12.3456),
        "int16, four decimals": (whole.astype(np.int16), 12.3456),
        "int32, four decimals": (whole.astype(np.int32) * 1_000_000, 12.3456),
        "int32, small, four decimals": (whole.astype(np.int32), 12.3456),
        "great whole floats, four decimals": (whole * 1e6, 12.3456),
        "uint8, four decimals": (random.integers(90, 110, (24, 24, 24)).astype(np.uint8), 99.9999),
    }


VOLUMES = volumes()


@pytest.mark.parametrize("name", VOLUMES)
def test_signs_are_exact_and_places_are_near(name):
    assert worst_place(*VOLUMES[name]) <= 0.51


def test_floats_of_more_than_64_bits_stay_on_their_side():
    """Their differences from the level vanish in 64 bits."""
    volume = np.full((3, 3, 3), np.longdouble(0.5)) - np.finfo(np.longdouble).eps
    volume[1, 1, 1] = 0.5
    assert (volume[0, 0, 0] < 0.5) and len(extract(volume, 0.5).faces) == 8
    assert not len(extract(volume.astype(np.float64), 0.5).faces)


def test_no_sample_loses_its_side_by_a_product_that_vanishes():
    volume = np.full((3, 3, 3), 1e300)
    volume[1, 1, 1] = -1e-300
    mesh = extract(volume, 0.0)
    assert len(mesh.faces) == 8


@pytest.mark.parametrize("kind", [np.uint8, np.int8, np.uint16, np.int16, np.uint32, np.int32, np.uint64, np.int64, np.float16, np.float32, np.float64])
def test_whole_numbers_of_every_type_are_exact(kind):
    volume = np.random.default_rng(1).integers(0, 100, (7, 8, 9)).astype(kind)
    assert samples_of(volume, 50.5).scale.is_exact
    wanted = extract(volume.astype(np.int32), 50.5)
    found = extract(volume, 50.5)
    assert np.array_equal(found.thousandths, wanted.thousandths) and np.array_equal(found.faces, wanted.faces) and found.error == 0


def test_the_error_is_half_a_unit(waves):
    samples = samples_of(waves, 0.1)
    error = samples.scale.error()
    assert 0 < error < 1e-8 and extract(waves, 0.1).error == error
    assert np.abs(samples.scale.values_of(samples.array) - waves).max() <= error * 1.0001


def test_a_far_padding_takes_no_room(waves):
    near, far = extract(waves, 0.1, pad=-4.0), extract(waves, 0.1, pad=-1e30)
    assert len(near.thousandths) == len(far.thousandths)
    inside = (near.thousandths % 1000 == 0).sum(1) == 2
    at = near.thousandths[inside]
    is_within = ((at >= 0) & (at <= 1000 * (np.array(waves.shape[::-1]) - 1))).all(1)
    assert np.abs(at[is_within] - far.thousandths[inside][is_within]).max() <= 1


def test_a_fraction_as_padding():
    volume = np.full((2, 2, 2), 3, np.uint8)
    places = extract(volume, 2.5, pad=1.5).thousandths
    assert (places.min(), places.max()) == (-333, 1333)


@pytest.mark.parametrize("level, words", [
    (5, ["--level=5.000"]), (-0.5, ["--level=-0.500"]), (np.float32(0.5), ["--level=0.500"]), (100.1, ["--level=100.100"]),
])
def test_levels_are_exact(level, words):
    assert samples_of(np.zeros((2, 2, 2), np.int16), float(level)).words(float(level), None) == words


@pytest.mark.parametrize("least, level, pad", [(0, 5.5, 0), (9, 5.5, 5), (5, 5, 4), (0, 0, -1), (7, -2.5, -3)])
def test_the_padding_auto_is_below_the_level_and_no_sample(least, level, pad):
    samples = samples_of(np.full((2, 2, 2), least, np.uint8), float(level), "auto")
    assert samples.words(float(level), "auto")[1] == f"--pad={pad}"

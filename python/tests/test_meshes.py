"""`marching_cubes` and `extract`: conventions, shapes, closedness, refusals."""
import os
import stat
import sys

import isobench
import numpy as np
import pytest
from conftest import EXAMPLES, is_same, verdict_of, volume_of
from isobench import Mesh, ProgramFailed, ProgramNotFound, VolumeRefused, _program


def test_axes_spacing_and_orientation_are_those_of_scikit_image(ellipsoid):
    measure = pytest.importorskip("skimage.measure")
    spatial = pytest.importorskip("scipy.spatial")
    verts, faces, _, _ = measure.marching_cubes(ellipsoid.astype(np.float32), 40.5, spacing=(2, 1, 0.5))
    ours, our_faces = isobench.marching_cubes(ellipsoid, 40.5, spacing=(2, 1, 0.5))
    assert ours.dtype == np.float32 and our_faces.dtype == faces.dtype == np.int32
    distances, _ = spatial.cKDTree(ours).query(verts)
    assert distances.max() < 0.0015
    assert volume_of(ours, our_faces) == pytest.approx(volume_of(verts, faces), rel=0.001)


def test_every_layout_of_an_array_gives_the_same_mesh(reader):
    volume = np.random.default_rng(2).integers(0, 255, (7, 8, 9)).astype(np.uint8)
    wanted = isobench.marching_cubes(volume, 100.5)
    read_only = volume.copy()
    read_only.flags.writeable = False
    wide = np.zeros((14, 8, 18), np.uint8)
    wide[::2, :, ::2] = volume
    layouts = [read_only, np.asfortranarray(volume), volume[::-1, ::-1].copy()[::-1, ::-1], wide[::2, :, ::2], volume.tolist(), np.ma.asarray(volume)]
    layouts += [volume.astype(kind) for kind in (">i2", ">u4", ">i8", ">f4", ">f8", "<i4", np.float16, np.longdouble)]
    layouts.append(np.asfortranarray(volume.astype(">f4") + np.float32(0)))
    for layout in layouts:
        assert is_same(isobench.marching_cubes(layout, 100.5), wanted)


def test_booleans():
    volume = np.zeros((4, 4, 4), bool)
    volume[1:3, 1:3, 1:3] = True
    assert is_same(isobench.marching_cubes(volume, 0.5), isobench.marching_cubes(volume.astype(np.uint8), 0.5))


def test_the_example_is_the_text_of_the_program():
    mesh = isobench.extract(isobench.read_volume(EXAMPLES / "knot.nrrd"), 100.5)
    assert (mesh.thousandths.shape, mesh.faces.shape, mesh.error) == ((18626, 3), (37252, 3), 0.0)
    assert verdict_of(mesh) == "closed"


@pytest.mark.parametrize("kind", [np.uint8, np.int32, np.float32])
def test_padding_closes_the_mesh(kind):
    volume = np.random.default_rng(3).integers(0, 9, (6, 7, 8)).astype(kind)
    assert verdict_of(isobench.extract(volume, 4.25)).startswith("border")
    for pad in ("auto", 0, -5):
        assert verdict_of(isobench.extract(volume, 4.25, pad=pad)) == "closed"
    assert verdict_of(isobench.extract(volume * kind(1) + np.float32(0.3), 4.25, pad="auto")) == "closed"


def test_empty_meshes_have_arrays_of_three_columns():
    volume = np.ones((3, 3, 3), np.uint8)
    for level, pad in ((1000, None), (-1.5, None), (5, "auto")):
        verts, faces = isobench.marching_cubes(volume, level, pad=pad)
        assert verts.shape == faces.shape == (0, 3) and (verts.dtype, faces.dtype) == (np.float32, np.int32)


def test_coinciding_vertices_are_counted():
    volume = np.zeros((3, 3, 3), np.uint8)
    volume[1, 1, 1] = 5
    assert isobench.extract(volume, 4.5).coinciding() == 0
    assert isobench.extract(volume, 5).coinciding() == 5


def test_placed_meshes_face_the_same_side(ellipsoid):
    mesh = isobench.extract(ellipsoid, 40.5)
    right = np.array([[0, 2, 0], [0, 0, 3], [4, 0, 0]])
    points, faces = mesh.placed(right, (10, 20, 30))
    assert np.allclose(points[0], mesh.thousandths[0] / 1000 @ right + (10, 20, 30))
    outside = volume_of(*mesh.placed())
    assert outside > 0 and volume_of(points, faces) == pytest.approx(24 * outside)
    for axis in range(3):
        left = np.eye(3)
        left[axis, axis] = -1
        assert volume_of(*mesh.placed(left)) == pytest.approx(outside)


def test_a_volume_is_taken_like_an_array():
    volume = isobench.Volume(np.arange(27).reshape(3, 3, 3))
    assert is_same(isobench.marching_cubes(volume, 9.5), isobench.marching_cubes(volume.array, 9.5))


REFUSED = {
    "two axes": (np.zeros((3, 3)), 5, {}, "three axes"),
    "four axes": (np.zeros((3, 3, 3, 3)), 5, {}, "three axes"),
    "no samples": (np.zeros((0, 3, 3)), 5, {}, "axis 0 of the array has 0"),
    "one slice": (np.zeros((3, 3, 1)), 5, {}, "axis 2 of the array has 1"),
    "a long axis": (np.zeros((2, 2, 1027), np.uint8), 5, {}, "1026 are the most"),
    "a long axis with padding": (np.zeros((1025, 2, 2), np.uint8), 5, {"pad": 0}, "1024 are the most"),
    "too many samples": (np.broadcast_to(np.uint8(0), (600, 600, 600)), 5, {}, "160,000,000"),
    "NaN": (np.full((3, 3, 3), np.nan), 5, {}, "NaN"),
    "masked samples": (np.ma.masked_greater(np.arange(27).reshape(3, 3, 3), 20), 5, {}, "masked"),
    "complex numbers": (np.zeros((3, 3, 3), complex), 5, {}, "complex128"),
    "words": (np.full((3, 3, 3), "a"), 5, {}, "have no level"),
    "great integers": (np.array([[[0, 2 ** 40]] * 2] * 2), 5, {}, "32-bit"),
    "great and small integers": (np.array([[[-1, 2 ** 32 - 1]] * 2] * 2), 5, {}, "32-bit"),
    "the level NaN": (np.zeros((3, 3, 3)), float("nan"), {}, "the level is nan"),
    "an infinite level": (np.zeros((3, 3, 3)), float("inf"), {}, "the level is inf"),
    "no level": (np.zeros((3, 3, 3)), None, {}, "not a number"),
    "a great level": (np.zeros((3, 3, 3), np.uint8), 1e12, {}, "out of range"),
    "a padding at the level": (np.zeros((3, 3, 3), np.uint8), 5, {"pad": 5}, "below the level"),
    "a padding NaN": (np.zeros((3, 3, 3), np.uint8), 5, {"pad": float("nan")}, "below the level"),
    "a fraction as padding": (np.full((3, 3, 3), 2 ** 30), 5, {"pad": 1.5}, "not a whole number"),
    "a far padding": (np.zeros((3, 3, 3), np.uint8), 5, {"pad": -2 ** 40}, "out of range"),
    "a list as padding": (np.zeros((3, 3, 3), np.uint8), 5, {"pad": [1]}, "below the level"),
    "another padding": (np.zeros((3, 3, 3), np.uint8), 5, {"pad": "none"}, "'auto' or None"),
    "a spacing of two": (np.zeros((3, 3, 3), np.uint8), 5, {"spacing": (1, 2)}, "three positive"),
    "a negative spacing": (np.zeros((3, 3, 3), np.uint8), 5, {"spacing": (1, 2, -1)}, "three positive"),
}


@pytest.mark.parametrize("name", REFUSED)
def test_what_cannot_be_taken_is_a_value_error(name):
    volume, level, options, text = REFUSED[name]
    with pytest.raises(ValueError, match=text):
        isobench.marching_cubes(volume, level, **options)


def test_directions_that_span_no_space_are_refused():
    mesh = Mesh(np.zeros((1, 3), np.int32), np.zeros((0, 3), np.int32))
    for directions, origin in ((np.zeros((3, 3)), (0, 0, 0)), (np.eye(2), (0, 0, 0)), (np.eye(3), (0, np.nan, 0))):
        with pytest.raises(ValueError):
            mesh.placed(directions, origin)


def program_that(tmp_path, body):
    """A program that says it is isobench and then does something else."""
    path = tmp_path / "isobench"
    path.write_text(f"#!{sys.executable}\nimport os, sys\nif sys.argv[1] == '--version':\n    print('isobench 1.0.0')\n    sys.exit()\n{body}\n")
    path.chmod(path.stat().st_mode | stat.S_IXUSR)
    return str(path)


CUBE = np.zeros((3, 3, 3), np.uint8)


@pytest.mark.parametrize("body, status, text", [
    ("os.kill(os.getpid(), 9)", -9, "signal 9"),
    ("os.kill(os.getpid(), 11)", -11, "stack"),
    ("sys.exit('isobench: memory') if 0 else os._exit(7)", 7, "out of memory"),
    ("sys.stderr.write('isobench: output fault\\n'); sys.exit(6)", 6, "output fault"),
    ("sys.exit(42)", 42, "status 42"),
])
def test_a_program_that_dies_is_an_os_error(tmp_path, monkeypatch, body, status, text):
    monkeypatch.setenv("ISOBENCH", program_that(tmp_path, body))
    with pytest.raises(ProgramFailed, match=text) as failed:
        isobench.extract(CUBE, 5)
    assert failed.value.status == status and isinstance(failed.value, OSError)


@pytest.mark.parametrize("body", ["print('ply\\nformat ascii 1.0\\nelement vertex 7')", "pass"])
def test_a_program_that_writes_half_a_mesh(tmp_path, monkeypatch, body):
    monkeypatch.setenv("ISOBENCH", program_that(tmp_path, body))
    with pytest.raises(isobench.MeshTextError):
        isobench.extract(CUBE, 5)


def test_what_the_program_refuses_is_a_value_error(tmp_path, monkeypatch):
    monkeypatch.setenv("ISOBENCH", program_that(tmp_path, "sys.stderr.write('isobench: volume 12 size axis 0 2048\\n'); sys.exit(3)"))
    with pytest.raises(VolumeRefused, match="volume 12 size axis 0 2048"):
        isobench.extract(CUBE, 5)


def test_no_program(tmp_path, monkeypatch):
    monkeypatch.setenv("ISOBENCH", str(tmp_path / "none"))
    with pytest.raises(ProgramNotFound, match="ISOBENCH says"):
        isobench.extract(CUBE, 5)
    monkeypatch.delenv("ISOBENCH")
    monkeypatch.setenv("PATH", str(tmp_path))
    monkeypatch.setattr(_program, "CHECKOUT", tmp_path)
    with pytest.raises(FileNotFoundError, match="no program isobench"):
        isobench.extract(CUBE, 5)


def test_another_program_of_that_name(tmp_path, monkeypatch):
    path = tmp_path / "isobench"
    path.write_text("#!/bin/sh\necho isobench 2.0.0\n")
    path.chmod(0o755)
    monkeypatch.setenv("ISOBENCH", str(path))
    with pytest.raises(ProgramNotFound, match="is not isobench 1"):
        isobench.extract(CUBE, 5)


def test_no_descriptor_is_left_open():
    before = len(os.listdir("/proc/self/fd"))
    for _ in range(5):
        isobench.extract(CUBE, 5, pad="auto")
        with pytest.raises(ValueError):
            isobench.extract(CUBE, float("nan"))
    assert len(os.listdir("/proc/self/fd")) == before


def test_exceptions_can_be_sent_to_another_process():
    import pickle

    for fault in (ProgramFailed(-9, "isobench: x"), isobench.Refused("4 value 0 255")):
        again = pickle.loads(pickle.dumps(fault))
        assert str(again) == str(fault) and vars(again) == vars(fault)

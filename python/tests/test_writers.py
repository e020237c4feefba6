"""Files of meshes: what they hold, and that no half file has the wanted name."""
import os
import shutil
import subprocess
import warnings
import zipfile
from xml.etree import ElementTree

import isobench
import numpy as np
import pytest
from conftest import EXAMPLES
from isobench import read_volume, write_mesh

POINTS = np.array([[0, 0, 0], [1, 0, 0], [0, 1 / 3, 0], [0, 0, -2.5e-7]])
FACES = np.array([[0, 2, 1], [0, 1, 3], [1, 2, 3], [0, 3, 2]], np.int32)


@pytest.fixture(scope="module")
def head():
    volume = read_volume(EXAMPLES / "head.nrrd")
    return isobench.extract(volume, 100.5, pad="auto").placed(volume.directions, volume.origin)


def test_stl(tmp_path, head):
    points, faces = head
    write_mesh(tmp_path / "a.stl", points, faces)
    text = (tmp_path / "a.stl").read_bytes()
    assert len(text) == 84 + 50 * len(faces) and not text.startswith(b"solid")
    record = np.frombuffer(text[84:], [("normal", "<f4", 3), ("corners", "<f4", (3, 3)), ("attributes", "<u2")])
    assert np.array_equal(record["corners"], points[faces].astype(np.float32))
    assert np.allclose(np.linalg.norm(record["normal"], axis=1), 1)


def test_stl_as_numpy_stl_reads_it(tmp_path, head):
    mesh = pytest.importorskip("stl.mesh")
    points, faces = head
    write_mesh(tmp_path / "a.stl", points, faces)
    assert np.array_equal(mesh.Mesh.from_file(str(tmp_path / "a.stl")).vectors, points[faces].astype(np.float32))


def test_stl_is_closed_for_admesh(tmp_path, head):
    if not shutil.which("admesh"):
        pytest.skip("admesh is not installed")
    write_mesh(tmp_path / "a.stl", *head)
    said = subprocess.run(["admesh", tmp_path / "a.stl"], capture_output=True, text=True).stdout
    counts = {line.split(":")[0].strip(): line.split(":")[1].split() for line in said.splitlines() if ":" in line}
    assert counts["Total disconnected facets"][0] == "0" and counts["Degenerate facets"] == ["0"]
    assert counts["Number of facets"] == [str(len(head[1]))] * 2


def test_ply_keeps_every_bit(tmp_path):
    for points, kind in ((POINTS, "double"), (POINTS.astype(np.float32), "float"), (POINTS.astype(">f8"), "double")):
        write_mesh(tmp_path / "a.ply", points, FACES)
        head, _, body = (tmp_path / "a.ply").read_bytes().partition(b"end_header\n")
        assert f"element vertex 4\nproperty {kind} x".encode() in head and b"element face 4" in head
        size = points.dtype.itemsize
        assert np.array_equal(np.frombuffer(body, f"<f{size}", 12).reshape(4, 3), points)
        faces = np.frombuffer(body[12 * size:], [("count", "u1"), ("corners", "<i4", 3)])
        assert (faces["count"] == 3).all() and np.array_equal(faces["corners"], FACES)


def test_obj_has_nine_digits(tmp_path):
    write_mesh(tmp_path / "a.obj", POINTS, FACES)
    lines = (tmp_path / "a.obj").read_text().splitlines()
    assert lines[2:6] == ["v 0 0.333333333 0", "v 0 0 -2.5e-07", "f 1 3 2", "f 1 2 4"] and len(lines) == 8


def test_obj_of_many_rows(tmp_path, head):
    points, faces = head
    write_mesh(tmp_path / "a.obj", np.tile(points, (4, 1)), faces)
    words = [line.split() for line in (tmp_path / "a.obj").read_text().splitlines()]
    assert np.allclose(np.array([line[1:] for line in words if line[0] == "v"], float), np.tile(points, (4, 1)), rtol=1e-8)
    assert np.array_equal(np.array([line[1:] for line in words if line[0] == "f"], int), faces + 1)


def test_3mf(tmp_path):
    write_mesh(tmp_path / "a.3mf", POINTS, FACES)
    with zipfile.ZipFile(tmp_path / "a.3mf") as package:
        assert package.testzip() is None and "[Content_Types].xml" in package.namelist()
        model = ElementTree.fromstring(package.read("3D/3dmodel.model"))
    corners = [[int(item.get(name)) for name in ("v1", "v2", "v3")] for item in model.iter() if item.tag.endswith("}triangle")]
    places = [[float(item.get(name)) for name in "xyz"] for item in model.iter() if item.tag.endswith("}vertex")]
    assert corners == FACES.tolist() and np.allclose(places, POINTS, rtol=1e-8) and model.get("unit") == "millimeter"


@pytest.mark.parametrize("ending", ["stl", "ply", "obj", "off", "vtk"])
def test_what_meshio_reads(tmp_path, head, ending):
    meshio = pytest.importorskip("meshio")
    points, faces = head
    path = tmp_path / f"a.{ending}"
    write_mesh(path, points, faces)
    found = meshio.read(path)
    assert np.allclose(found.points[found.cells_dict["triangle"]], points[faces], atol=1e-4)


def test_prusa_slicer_finds_it_closed(tmp_path, head):
    slicer = shutil.which("prusa-slicer")
    if not slicer:
        pytest.skip("prusa-slicer is not installed")
    for ending in ("stl", "3mf", "obj"):
        write_mesh(tmp_path / f"a.{ending}", *head)
        ran = subprocess.run([slicer, "--info", tmp_path / f"a.{ending}"], capture_output=True, text=True, timeout=600)
        assert "manifold = yes" in ran.stdout and "number_of_facets = 44512" in ran.stdout


def test_an_empty_mesh(tmp_path):
    for ending in ("stl", "ply", "obj", "3mf"):
        write_mesh(tmp_path / f"a.{ending}", np.zeros((0, 3)), np.zeros((0, 3), int))
    assert (tmp_path / "a.stl").stat().st_size == 84


def test_coinciding_vertices_are_warned_of_before_stl(tmp_path):
    volume = np.zeros((3, 3, 3), np.uint8)
    volume[1, 1, 1] = 5
    for level, count in ((4.5, 0), (5, 5)):
        points, faces = isobench.extract(volume, level).placed()
        with warnings.catch_warnings(record=True) as noticed:
            warnings.simplefilter("always")
            write_mesh(tmp_path / "a.ply", points, faces)
            assert not noticed
            write_mesh(tmp_path / "a.stl", points, faces)
        assert [str(count) in str(warning.message) for warning in noticed] == [True] * bool(count)
    # Far from the origin floats of 32 bits are too coarse.
    assert isobench.coinciding_in_stl(points * 1e-6) == 5 and isobench.coinciding_in_stl(POINTS + 1e9) == 3
    assert isobench.coinciding_in_stl(np.array([[0.0, 0, 0], [-0.0, 0, 0]])) == 1


@pytest.mark.parametrize("points, faces", [
    (POINTS[:, :2], FACES), (POINTS, FACES[:, :2]), (POINTS[0], FACES), (POINTS[:3], FACES), (POINTS, -FACES), (POINTS, FACES / 2),
    (POINTS * np.nan, FACES), (POINTS + np.inf, FACES),
])
def test_arrays_that_are_no_mesh(tmp_path, points, faces):
    with pytest.raises(ValueError):
        write_mesh(tmp_path / "a.stl", points, faces)
    assert not list(tmp_path.iterdir())


def test_endings_that_nobody_knows(tmp_path):
    for name in ("mesh.nonsense", "mesh", "mesh.svg"):
        with pytest.raises(ValueError, match="choose one"):
            write_mesh(tmp_path / name, POINTS, FACES)
    assert not list(tmp_path.iterdir())


def test_no_such_folder(tmp_path):
    with pytest.raises(FileNotFoundError, match="no such folder"):
        write_mesh(tmp_path / "none" / "a.stl", POINTS, FACES)


def test_errors_name_the_file_that_was_wanted(tmp_path):
    (tmp_path / "folder.stl").mkdir()
    for path, kind in ((tmp_path / "folder.stl", IsADirectoryError), (tmp_path / ("m" * 300 + ".stl"), OSError), ("/proc/a.stl", OSError)):
        with pytest.raises(kind, match="write to another") as failed:
            write_mesh(path, POINTS, FACES)
        assert failed.value.filename == str(path) and "isobench-" not in str(failed.value)
    write_mesh(tmp_path / ("\u00e9" * 120 + ".stl"), POINTS, FACES)
    assert len(list(tmp_path.iterdir())) == 2


def test_xdmf_is_one_file(tmp_path):
    pytest.importorskip("meshio")
    pytest.importorskip("h5py")
    write_mesh(tmp_path / "a.xdmf", POINTS, FACES)
    assert os.listdir(tmp_path) == ["a.xdmf"] and ".h5" not in (tmp_path / "a.xdmf").read_text()


def test_a_write_that_fails_leaves_the_old_file(tmp_path, monkeypatch):
    path = tmp_path / "a.ply"
    path.write_text("old")
    big = np.zeros((200_000, 3))
    monkeypatch.setattr("isobench._writers.PLY_HEAD", "{nonsense}")
    with pytest.raises(KeyError):
        write_mesh(path, big, FACES)
    assert path.read_text() == "old" and os.listdir(tmp_path) == ["a.ply"]


def test_links_and_devices_stay(tmp_path):
    (tmp_path / "real.ply").write_text("old")
    (tmp_path / "link.ply").symlink_to("real.ply")
    write_mesh(tmp_path / "link.ply", POINTS, FACES)
    assert (tmp_path / "link.ply").is_symlink() and (tmp_path / "real.ply").read_bytes().startswith(b"ply")
    os.mkfifo(tmp_path / "pipe.obj")
    reader = subprocess.Popen(["cat", tmp_path / "pipe.obj"], stdout=subprocess.PIPE, text=True)
    write_mesh(tmp_path / "pipe.obj", POINTS, FACES)
    assert reader.communicate(timeout=600)[0].startswith("v 0 0 0\n") and (tmp_path / "pipe.obj").is_fifo()


def test_a_full_device(tmp_path):
    if not os.path.exists("/dev/full"):
        pytest.skip("no /dev/full")
    (tmp_path / "full.ply").symlink_to("/dev/full")
    with pytest.raises(OSError, match="make room.*full.ply"):
        write_mesh(tmp_path / "full.ply", np.zeros((200_000, 3)), FACES)

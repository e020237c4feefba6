"""Files of volumes: all kinds are the same samples at the same places, and damaged ones are refused."""
import gzip
import shutil
import subprocess

import isobench
import numpy as np
import pytest
from conftest import EXAMPLES
from isobench import Volume, read_volume

HEAD = EXAMPLES / "head.nrrd"
FIELDS = "NRRD0004\ntype: {}\ndimension: 3\nsizes: 4 3 2\n{}encoding: {}\n"


@pytest.fixture
def unu():
    found = shutil.which("unu") or shutil.which("teem-unu")
    if not found:
        pytest.skip("unu is not installed (Debian: teem-apps)")
    return lambda *words: subprocess.run([found, *map(str, words)], check=True)


def is_head(volume):
    wanted = read_volume(HEAD)
    places = np.allclose(volume.directions, wanted.directions) and np.allclose(volume.origin, wanted.origin)
    return np.array_equal(volume.array, wanted.array) and places and volume.space == wanted.space


def test_the_example():
    volume = read_volume(str(HEAD))
    assert (volume.array.shape, volume.array.dtype, volume.spacing) == ((48, 64, 64), np.int16, (4.0, 3.0, 3.0))
    assert volume.origin.tolist() == [-94.5, -94.5, -94] and volume.space == "left-posterior-superior"
    assert (volume.array.min(), volume.array.max()) == (0, 656)


@pytest.mark.parametrize("encoding", ["raw", "ascii", "hex", "gzip", "bzip2"])
@pytest.mark.parametrize("ending", ["nrrd", "nhdr"])
def test_encodings(unu, tmp_path, encoding, ending):
    path = tmp_path / f"head.{ending}"
    unu("save", "-f", "nrrd", "-e", encoding, "-i", HEAD, "-o", path)
    assert is_head(read_volume(path))


@pytest.mark.parametrize("kind", ["float", "double", "int", "uint", "longlong", "ulonglong", "ushort"])
@pytest.mark.parametrize("order", ["big", "little"])
def test_types_and_byte_orders(unu, tmp_path, kind, order):
    unu("convert", "-t", kind, "-i", HEAD, "-o", tmp_path / "other.nrrd")
    unu("save", "-f", "nrrd", "-e", "raw", "-en", order, "-i", tmp_path / "other.nrrd", "-o", tmp_path / "head.nrrd")
    assert is_head(read_volume(tmp_path / "head.nrrd"))


@pytest.mark.parametrize("fields, samples", [
    ("byte skip: 5\n", b"abcde" + bytes(range(24))),
    ("line skip: 2\n", b"a\nb\n" + bytes(range(24))),
    ("byte skip: -1\n", b"abc" + bytes(range(24))),
])
def test_skips(unu, tmp_path, fields, samples):
    (tmp_path / "a.nrrd").write_bytes(FIELDS.format("uint8", fields, "raw").encode() + b"\n" + samples)
    assert read_volume(tmp_path / "a.nrrd").array.ravel().tolist() == list(range(24))


def test_several_data_files(unu, tmp_path):
    for number in range(2):
        (tmp_path / f"{number}.raw").write_bytes(bytes(range(12 * number, 12 * number + 12)))
    (tmp_path / "a.nhdr").write_text(FIELDS.format("uint8", "", "raw") + "data file: LIST\n0.raw\n1.raw\n")
    assert read_volume(tmp_path / "a.nhdr").array.ravel().tolist() == list(range(24))


def test_pynrrd_reads_what_is_not_read_here(tmp_path):
    nrrd = pytest.importorskip("nrrd")
    nrrd.write(str(tmp_path / "a.nrrd"), np.arange(24).reshape(2, 3, 4), {"encoding": "bzip2"}, index_order="C")
    assert read_volume(tmp_path / "a.nrrd").array.ravel().tolist() == list(range(24))


def test_a_rare_encoding_without_the_libraries(tmp_path, monkeypatch):
    (tmp_path / "a.nrrd").write_text(FIELDS.format("uint8", "", "hex") + "\n" + "00" * 24)
    monkeypatch.setenv("PATH", str(tmp_path))
    monkeypatch.setitem(__import__("sys").modules, "nrrd", None)
    with pytest.raises(ImportError, match="teem-apps"):
        read_volume(tmp_path / "a.nrrd")


def test_what_unu_says_of_a_damaged_file(unu, tmp_path):
    (tmp_path / "a.nrrd").write_text(FIELDS.format("uint8", "", "ascii") + "\n1 2 3")
    with pytest.raises(ValueError, match="couldn't parse element 4 of 24"):
        read_volume(tmp_path / "a.nrrd")


def test_gzip_files_of_several_members(tmp_path):
    data = bytes(range(24))
    (tmp_path / "a.nrrd").write_bytes(FIELDS.format("uint8", "", "gzip").encode() + b"\n" + gzip.compress(data[:5]) + gzip.compress(data[5:]))
    assert read_volume(tmp_path / "a.nrrd").array.tobytes() == data


def test_spacings_and_directions(tmp_path):
    for fields, spacing in (
        ("spacings: 0.5 1 nan\n", (1, 1, 0.5)),
        ("space directions: (0,2,0) (3,0,0) (0,0,4)\nspace origin: (10,20,30)\nspace: RAS\n", (4, 3, 2)),
        ("space directions: none (3,0,0) (0,0,4)\nspace origin: none\n", None),
        ("", (1, 1, 1)),
    ):
        (tmp_path / "a.nrrd").write_bytes(FIELDS.format("uint8", fields, "raw").encode() + b"\n" + bytes(24))
        if spacing is None:
            with pytest.raises(ValueError, match="three directions"):
                read_volume(tmp_path / "a.nrrd")
        else:
            assert read_volume(tmp_path / "a.nrrd").spacing == spacing


def test_nifti(tmp_path):
    nibabel = pytest.importorskip("nibabel")
    head = read_volume(HEAD)
    affine = np.eye(4)
    affine[:3, :3], affine[:3, 3] = np.diag([-3, -3, 4]), [94.5, 94.5, -94]
    nibabel.save(nibabel.Nifti1Image(head.array.T, affine), tmp_path / "head.nii.gz")
    volume = read_volume(tmp_path / "head.nii.gz")
    assert np.array_equal(volume.array, head.array) and volume.spacing == (4, 3, 3)
    for ours, theirs in zip(volume.frame_in("file"), head.frame_in("ras")):
        assert np.allclose(ours, theirs)
    (tmp_path / "cut.nii.gz").write_bytes((tmp_path / "head.nii.gz").read_bytes()[:3000])
    with pytest.raises((ValueError, OSError)):
        isobench.extract(read_volume(tmp_path / "cut.nii.gz"), 100.5)


def test_tiff(tmp_path):
    tifffile = pytest.importorskip("tifffile")
    array = np.arange(60, dtype=np.uint16).reshape(3, 4, 5)
    tifffile.imwrite(tmp_path / "a.tif", array, photometric="minisblack")
    assert np.array_equal(read_volume(tmp_path / "a.tif").array, array)
    (tmp_path / "b.tif").write_bytes(b"no image")
    with pytest.raises(ValueError, match="b.tif"):
        read_volume(tmp_path / "b.tif")


@pytest.mark.parametrize("options", [{}, {"bigtiff": True}, {"byteorder": ">"}])
def test_a_tiff_file_that_is_cut_short_has_no_fewer_images(tmp_path, options):
    tifffile = pytest.importorskip("tifffile")
    array = np.arange(4 * 5 * 6, dtype=np.uint8).reshape(4, 5, 6)
    with tifffile.TiffWriter(tmp_path / "a.tif", **options) as writer:
        for image in array:
            writer.write(image, contiguous=False, photometric="minisblack", metadata=None)
    assert np.array_equal(read_volume(tmp_path / "a.tif").array, array)
    text = (tmp_path / "a.tif").read_bytes()
    for length in range(0, len(text), 3):
        (tmp_path / "cut.tif").write_bytes(text[:length])
        with pytest.raises(ValueError, match="cut.tif"):
            read_volume(tmp_path / "cut.tif")


def test_a_compression_that_tifffile_alone_does_not_know(tmp_path):
    pytest.importorskip("tifffile")
    images = pytest.importorskip("PIL.Image")
    if __import__("importlib.util").util.find_spec("imagecodecs"):
        pytest.skip("imagecodecs is installed")
    layers = [images.fromarray(np.full((5, 6), value, np.uint8)) for value in range(3)]
    layers[0].save(tmp_path / "a.tif", save_all=True, append_images=layers[1:], compression="tiff_lzw")
    with pytest.raises(ImportError, match="a.tif, install imagecodecs"):
        read_volume(tmp_path / "a.tif")


def test_npy(tmp_path):
    np.save(tmp_path / "a.npy", np.arange(27, dtype=">i2").reshape(3, 3, 3))
    volume = read_volume(tmp_path / "a.npy")
    assert isinstance(volume.array, np.memmap) and len(isobench.extract(volume, 9.5).faces)


def test_other_spaces():
    volume = Volume(np.zeros((2, 2, 2)), np.diag([1.0, 2, 3]), np.array([4.0, 5, 6]), "left-posterior-superior")
    assert [part.tolist() for part in volume.frame_in("ras")] == [np.diag([-1.0, -2, 3]).tolist(), [-4, -5, 6]]
    assert volume.frame_in("lps")[1].tolist() == [4, 5, 6] and volume.frame_in("voxel")[1].tolist() == [0, 0, 0]
    las = Volume(volume.array, volume.directions, volume.origin, "left-anterior-superior")
    assert las.frame_in("lps")[1].tolist() == [4, -5, 6]
    for space in ("", "scanner-xyz", "3D-right-handed"):
        with pytest.raises(ValueError, match="file"):
            Volume(volume.array, space=space).frame_in("ras")


HEADER = FIELDS.format("uint8", "", "raw").encode() + b"\n"
DAMAGED = {
    "cut.nrrd": HEADER + bytes(23),
    "cut_gzip.nrrd": HEADER.replace(b"raw", b"gzip") + gzip.compress(bytes(range(24)))[:15],
    "damaged_gzip.nrrd": HEADER.replace(b"raw", b"gzip") + b"no gzip data",
    "wrong_sum.nrrd": HEADER.replace(b"raw", b"gzip") + gzip.compress(bytes(24))[:-8] + bytes(8),
    "cut_sum.nrrd": HEADER.replace(b"raw", b"gzip") + gzip.compress(bytes(24))[:-1],
    "great.nrrd": HEADER.replace(b"4 3 2", b"400000 300000 20000000") + bytes(24),
    "none.nrrd": HEADER.replace(b"4 3 2", b"4 0 2") + bytes(24),
    "negative.nrrd": HEADER.replace(b"4 3 2", b"4 3 -2") + bytes(24),
    "no_number.nrrd": HEADER.replace(b"encoding", b"spacings: 1 x 2\nencoding") + bytes(24),
    "no_header.nrrd": b"P5 4 3 255\n" + bytes(24),
    "sizes.nrrd": HEADER.replace(b"4 3 2", b"4 x 2") + bytes(24),
    "colours.nrrd": HEADER.replace(b"dimension: 3", b"dimension: 4").replace(b"4 3 2", b"3 2 2 2") + bytes(24),
    "directions.nrrd": HEADER.replace(b"encoding", b"space directions: (1,0) (0,1) (1,1)\nencoding") + bytes(24),
    "empty.npy": b"",
    "cut.npy": b"\x93NUMPY\x01\x00v\x00{'descr': '|u1'",
    "scan.mha": b"ObjectType = Image",
    "pickle.npy": b"\x93NUMPY\x01\x00F\x00{'descr': '|O', 'fortran_order': False, 'shape': (2, 2, 2), }          \n",
}


@pytest.mark.parametrize("name", DAMAGED)
def test_damaged_files_are_value_errors(tmp_path, name):
    (tmp_path / name).write_bytes(DAMAGED[name])
    with pytest.raises(ValueError, match=name):
        read_volume(tmp_path / name)


@pytest.mark.parametrize("name", ["none.nrrd", "none.npy"])
def test_files_that_are_not_there(tmp_path, name):
    with pytest.raises(OSError):
        read_volume(tmp_path / name)


def test_a_detached_header_without_its_data(tmp_path):
    (tmp_path / "a.nhdr").write_text(FIELDS.format("uint8", "", "raw") + "data file: a.raw\n")
    with pytest.raises(FileNotFoundError, match="a.raw"):
        read_volume(tmp_path / "a.nhdr")

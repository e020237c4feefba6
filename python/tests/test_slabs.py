"""Slabs over the real programs: the bytes and the arrays of an extraction of the whole."""
import concurrent.futures
import errno
import os
import pathlib
import subprocess
import sys
import tempfile

import isobench
import numpy as np
import pytest
from conftest import is_same
from isobench import _ply, _program, _samples, _slab_runs, _slab_sources, slabs

PYTHON = pathlib.Path(__file__).resolve().parents[1]
TYPES = ["uint8", "int8", ">u2", "<u2", ">i2", "<i2", ">u4", "<u4", ">i4", "<i4", "bool"]

try:
    _program.program("isoslab")
except isobench.ProgramNotFound as fault:
    pytest.skip(str(fault), allow_module_level=True)


class Case:
    """A random volume full of samples equal to the level, and how it is extracted."""

    def __init__(self, seed):
        chance = np.random.default_rng(seed)
        self.seed = seed
        dtype = np.dtype(TYPES[seed % len(TYPES)])
        shape = chance.integers(2, 8, 3) + [chance.integers(0, 6), 0, 0]
        if dtype == bool:
            middle, self.volume = 1, chance.random(shape) < 0.5
        else:
            info = np.iinfo(dtype)
            middle = int(chance.choice([info.min + 2, info.max - 2, (info.min + info.max) // 2 + 7]))
            self.volume = (middle + chance.integers(-2, 3, shape)).astype(dtype)
        self.level = float(chance.choice([middle, middle + 0.5, middle - 0.001]))
        pads = [None, None, "auto", middle - 1, middle - 300, -(2 ** 31)]
        self.pad = pads[chance.integers(len(pads))]
        if self.pad not in (None, "auto"):
            self.pad = max(int(self.pad), -(2 ** 31))
            self.pad = self.pad if self.pad < self.level else None
        self.format = ["ply", "obj"][seed // 2 % 2]
        self.slabs = int(chance.integers(1, shape[0] + 2))

    def whole(self):
        """What the program extracts of it."""
        number, around = _samples.checked_level(self.level), _samples.checked_pad(self.pad, self.level)
        samples = _samples.samples_of(self.volume, number, around)
        words = [_program.program(), "extract", *samples.words(number, around), f"--format={self.format}"]
        head, array = samples.pieces()
        return subprocess.run(words, input=head + array.tobytes(), stdout=subprocess.PIPE, check=True).stdout

    def write(self, path, volume=None, **how):
        how = {"slabs": self.slabs, **how}
        return isobench.write_slabs(self.volume if volume is None else volume, path, self.level, pad=self.pad, **how)


@pytest.fixture(autouse=True)
def nothing_left(tmp_path, monkeypatch):
    """All that is made besides the mesh goes away."""
    room = tmp_path / "temporary"
    room.mkdir()
    monkeypatch.setattr(tempfile, "tempdir", str(room))
    before = set(os.listdir("/dev/shm"))
    yield
    assert list(room.iterdir()) == []
    assert not any("isobench" in name for name in set(os.listdir("/dev/shm")) - before)
    assert not any(path.name.startswith(".isobench") for path in tmp_path.iterdir())


@pytest.fixture
def run_isoslabs():
    """Run the command as a process of its own."""

    def run(*words, **environment):
        command = [sys.executable, "-m", "isobench.isoslabs", *map(str, words)]
        return subprocess.run(command, cwd=PYTHON, env={**os.environ, **environment}, capture_output=True, text=True, timeout=600)

    return run


def small(depth=9, dtype=np.int16):
    """A volume of some slices, with a level between its samples."""
    return np.random.default_rng(5).integers(-9, 10, (depth, 6, 7)).astype(dtype)


def bytes_of(volume, pad=None, level=0.5):
    samples = _samples.samples_of(volume, level, pad)
    with _program.extract_text(samples.pieces(), samples.words(level, pad)) as text:
        return text[:]


def nrrd_at(path, volume, more=""):
    """Write a volume as a raw NRRD file."""
    head = _samples.header_of(volume.dtype, volume.shape)
    path.write_bytes(head.replace(b"encoding", more.encode() + b"encoding") + volume.tobytes())
    return path


@pytest.mark.parametrize("first", range(0, 120, 20))
def test_the_bytes_are_those_of_the_whole(tmp_path, first):
    for seed in range(first, first + 20):
        case = Case(seed)
        path = tmp_path / f"mesh.{case.format}"
        counts = case.write(path, processes=2)
        assert path.read_bytes() == case.whole(), vars(case)
        mesh = isobench.extract(case.volume, case.level, pad=case.pad)
        assert counts == (len(mesh.thousandths), len(mesh.faces))


def test_the_arrays_are_those_of_the_whole(reader):
    for seed in range(40):
        case = Case(seed)
        whole = isobench.extract(case.volume, case.level, pad=case.pad)
        found = isobench.extract_slabs(case.volume, case.level, pad=case.pad, slabs=case.slabs, processes=2)
        assert is_same((found.thousandths, found.faces), (whole.thousandths, whole.faces)), vars(case)
        assert found.error == 0


def test_many_lines_go_into_arrays_block_by_block(reader):
    volume = np.random.default_rng(3).integers(0, 256, (40, 50, 60)).astype(np.uint8)
    whole, found = isobench.extract(volume, 100.5), isobench.extract_slabs(volume, 100.5, slabs=3)
    assert is_same((found.thousandths, found.faces), (whole.thousandths, whole.faces)) and len(found.faces) > 300_000


def test_parts_in_another_form_are_refused(reader, tmp_path):
    path = tmp_path / "part"
    for text, rows in ((b"3 0 1 2\n", 2), (b"3 0 1 2\n3 0 1 2\n", 1), (b"3 0 1 2\n3 0 1", 2), (b"3 0 1 2\n4 0 1 2\n", 2), (b"3" * 600_000, 1)):
        path.write_bytes(text)
        with pytest.raises(isobench.MeshTextError):
            _ply.read_lines(path, np.empty((rows, 3), np.int32), True)
    path.write_bytes(b"")
    _ply.read_lines(path, np.empty((0, 3), np.int32), True)


def test_empty_meshes(tmp_path):
    volume = np.zeros((9, 4, 4), np.uint8)
    assert isobench.write_slabs(volume, tmp_path / "none.ply", 0.5, slabs=3) == (0, 0)
    assert (tmp_path / "none.ply").read_bytes() == bytes_of(volume)
    assert isobench.write_slabs(volume, tmp_path / "none.obj", 0.5, slabs=3) == (0, 0)
    assert (tmp_path / "none.obj").read_bytes() == b""
    assert isobench.extract_slabs(volume, 0.5, slabs=3).faces.shape == (0, 3)


@pytest.mark.parametrize("make", [concurrent.futures.ProcessPoolExecutor, concurrent.futures.ThreadPoolExecutor])
def test_an_executor(tmp_path, make):
    with make(2) as pool:
        for seed in range(4):
            case = Case(seed)
            case.write(tmp_path / f"mesh.{case.format}", executor=pool)
            assert (tmp_path / f"mesh.{case.format}").read_bytes() == case.whole()
        volume = small(20)
        found, whole = isobench.extract_slabs(volume, 0.5, executor=pool), isobench.extract(volume, 0.5)
        assert is_same((found.thousandths, found.faces), (whole.thousandths, whole.faces))
        with pytest.raises(isobench.VolumeRefused):
            _refused_by_the_program(volume, executor=pool)


def _refused_by_the_program(volume, **how):
    """A slab that the program alone refuses: its slices are fewer than the plan's."""
    source = _slab_sources.GivenArray(volume, volume.dtype, volume.shape)
    slab = _slab_runs.Slab(0, 0, 2, False)
    future = how["executor"].submit(_slab_runs.count_slab, source, slab, _slab_runs.Surface("0.500"))
    return future.result()


def test_dask(tmp_path):
    distributed = pytest.importorskip("distributed")
    path = tmp_path / "volume.npy"
    np.save(path, small(30))
    with distributed.LocalCluster(n_workers=2, threads_per_worker=1, dashboard_address=None, local_directory=str(tmp_path / "dask")) as cluster:
        with distributed.Client(cluster) as client:
            for volume in (path, np.load(path), np.load(path, mmap_mode="r")):
                isobench.write_slabs(volume, tmp_path / "mesh.ply", 0.5, pad="auto", executor=client, slabs=5)
                assert (tmp_path / "mesh.ply").read_bytes() == bytes_of(np.load(path), "auto")
            found = isobench.extract_slabs(path, 0.5, executor=client, folder=tmp_path)
            assert is_same([found.thousandths, found.faces], [*vars(isobench.extract(np.load(path), 0.5)).values()][:2])


def test_volumes_of_files(tmp_path):
    volume = small(12)
    np.save(tmp_path / "volume.npy", volume)
    np.save(tmp_path / "turned.npy", np.asfortranarray(volume))
    (tmp_path / "samples.raw").write_bytes(volume.tobytes())
    (tmp_path / "volume.nhdr").write_bytes(_samples.header_of(volume.dtype, volume.shape).replace(b"encoding", b"data file: samples.raw\nencoding"))
    nrrd_at(tmp_path / "volume.nrrd", volume, "space origin: (1,2,3)\n")
    nrrd_at(tmp_path / "big.nrrd", volume.astype(">i2"))
    for name in ("volume.npy", "turned.npy", "volume.nhdr", "volume.nrrd", "big.nrrd"):
        assert isinstance(_slab_sources.source_of(tmp_path / name), _slab_sources.MappedFile) == (name != "turned.npy")
        isobench.write_slabs(tmp_path / name, tmp_path / "mesh.ply", 0.5, slabs=4)
        assert (tmp_path / "mesh.ply").read_bytes() == bytes_of(volume), name


def sends_nothing(*_):
    """`os.sendfile` where the system cannot send a file into a pipe."""
    raise OSError(errno.EINVAL, os.strerror(errno.EINVAL))


def test_a_system_that_sends_no_file_into_a_pipe(tmp_path, monkeypatch):
    path = nrrd_at(tmp_path / "volume.nrrd", small(60))
    turns = [sends_nothing, os.sendfile] * 6
    for send in (sends_nothing, lambda pipe, file, first, count: turns.pop()(pipe, file, first, 1000)):
        monkeypatch.setattr(os, "sendfile", send)
        isobench.write_slabs(path, tmp_path / "mesh.ply", 0.5, slabs=3, processes=1)
        assert (tmp_path / "mesh.ply").read_bytes() == bytes_of(small(60))
    assert not turns


@pytest.mark.parametrize("send", [os.sendfile, sends_nothing])
def test_a_file_that_becomes_shorter(tmp_path, monkeypatch, send):
    monkeypatch.setattr(os, "sendfile", send)
    path = nrrd_at(tmp_path / "volume.nrrd", small(60))
    source = _slab_sources.source_of(path)
    slab, surface = _slab_runs.Slab(0, 0, 60, True), _slab_runs.Surface("0.500")
    assert _slab_runs.count_slab(source, slab, surface).slices == 60
    os.truncate(path, path.stat().st_size - 1)
    with pytest.raises(isobench.VolumeRefused, match="short samples"):
        _slab_runs.count_slab(source, slab, surface)


def test_a_program_that_reads_nothing_of_a_file(tmp_path, monkeypatch):
    (tmp_path / "isoslab").write_text("#!/bin/sh\nif [ $1 = --version ]; then echo isoslab 1.0; exit; fi\necho isoslab: memory >&2; exit 7\n")
    (tmp_path / "isoslab").chmod(0o755)
    monkeypatch.setenv("ISOSLAB", str(tmp_path / "isoslab"))
    with pytest.raises(isobench.ProgramFailed, match="take more slabs"):
        isobench.write_slabs(nrrd_at(tmp_path / "volume.nrrd", small(4000)), tmp_path / "mesh.ply", 0.5, slabs=2)


def test_maps_of_files(tmp_path):
    np.save(tmp_path / "volume.npy", small(12))
    whole = np.load(tmp_path / "volume.npy", mmap_mode="r")
    changed = np.load(tmp_path / "volume.npy", mmap_mode="c")
    changed[3] = 5
    with concurrent.futures.ProcessPoolExecutor(2) as pool:
        for volume in (whole, whole[3:], whole[:, 1:], whole[::-1], whole.transpose(2, 1, 0), changed):
            isobench.write_slabs(volume, tmp_path / "mesh.ply", 0.5, slabs=3, executor=pool)
            assert (tmp_path / "mesh.ply").read_bytes() == bytes_of(np.ascontiguousarray(volume))


def test_arrays_that_give_slices(tmp_path):
    class Sliced:
        """Reads its slices when they are asked for."""

        shape, dtype = (12, 6, 7), np.dtype("int16")

        def __getitem__(self, key):
            return small(12)[key]

    isobench.write_slabs(Sliced(), tmp_path / "mesh.ply", 0.5, slabs=4)
    assert (tmp_path / "mesh.ply").read_bytes() == bytes_of(small(12))
    isobench.write_slabs(isobench.Volume(small(12)), tmp_path / "mesh.ply", 0.5, slabs=4)
    assert (tmp_path / "mesh.ply").read_bytes() == bytes_of(small(12))
    isobench.write_slabs(np.asfortranarray(small(12)), tmp_path / "mesh.ply", 0.5, slabs=4)
    assert (tmp_path / "mesh.ply").read_bytes() == bytes_of(small(12))


@pytest.mark.parametrize("library", ["h5py", "zarr"])
def test_arrays_of_libraries(tmp_path, library):
    module = pytest.importorskip(library)
    for dtype in (np.int16, bool):
        volume = small(12) if dtype != bool else small(12) > 0
        if library == "h5py":
            path = tmp_path / f"volume.{np.dtype(dtype)}.h5"
            with module.File(path, "w") as file:
                file.create_dataset("scan/data", data=volume, chunks=(2, 6, 7), compression="gzip")
            array = module.File(path, "r")["scan/data"]
        else:
            array = module.open(str(tmp_path / "volume.zarr"), "w", shape=volume.shape, chunks=(2, 6, 7), dtype=volume.dtype)
            array[:] = volume
        with concurrent.futures.ProcessPoolExecutor(2) as pool:
            for how in ({}, {"executor": pool}):
                isobench.write_slabs(array, tmp_path / "mesh.ply", 0.5, slabs=4, **how)
                assert (tmp_path / "mesh.ply").read_bytes() == bytes_of(volume)


def test_slabs_keep_the_limits():
    chance = np.random.default_rng(2)
    for _ in range(2000):
        shape = tuple(int(size) for size in (chance.integers(2, 5000), *chance.integers(2, 1025, 2)))
        is_padded, processes = bool(chance.integers(2)), int(chance.integers(1, 9))
        slabs = _slab_runs.slabs_of(shape, is_padded, processes, [None, 1, 3, 50][chance.integers(4)])
        assert slabs[0].first == 0 and slabs[-1].stop == shape[0] and [slab.is_last for slab in slabs] == [False] * (len(slabs) - 1) + [True]
        assert all(low.stop == high.first + 2 and low.first < high.first for low, high in zip(slabs, slabs[1:]))
        ring = 2 * is_padded
        for slab in slabs:
            stored = slab.stop - slab.first + is_padded * ((slab.first == 0) + slab.is_last)
            assert 2 <= slab.stop - slab.first and stored <= 1026
            assert stored * (shape[1] + ring) * (shape[2] + ring) <= 160_000_000
    assert len(_slab_runs.slabs_of((2000, 500, 500), False, 4)) == 4
    assert len(_slab_runs.slabs_of((2, 5, 5), True, 8)) == 1


BAD_CALLS = [
    ({"level": float("nan")}, "choose a finite one"),
    ({"level": 0.1234}, "three decimals"),
    ({"level": 1e12}, "out of range"),
    ({"pad": 0.5}, "must be a number below the level"),
    ({"pad": 0}, None),
    ({"pad": 0.25}, "not a whole number"),
    ({"pad": "some"}, "must be a number below the level"),
    ({"pad": -(2.0 ** 40)}, "out of range"),
    ({"slabs": 0}, "one or more slabs"),
    ({"slabs": -1}, "one or more slabs"),
    ({"processes": -1}, "one or more processes"),
    ({"volume": np.zeros((4, 4, 4))}, "convert them once"),
    ({"volume": np.zeros((4, 4, 4), np.int64)}, "convert them once"),
    ({"volume": np.zeros((4, 4, 4), complex)}, "convert them once"),
    ({"volume": np.zeros((4, 4), np.int8)}, "three axes"),
    ({"volume": np.zeros((1, 4, 4), np.int8)}, "two or more"),
    ({"volume": np.zeros((0, 4, 4), np.int8)}, "two or more"),
    ({"volume": np.zeros((4, 1027, 4), np.int8)}, "1026 are the most"),
    ({"volume": np.zeros((4, 1026, 4), np.int8), "pad": 0}, "1024 are the most with padding"),
    ({"volume": np.ma.masked_array(np.zeros((4, 4, 4), np.int8), True)}, "masked"),
    ({"volume": "absent.npy"}, "absent.npy"),
    ({"volume": "scan.tif"}, "ending"),
    ({"path": "mesh.stl"}, "write_mesh"),
    ({"path": "absent/mesh.ply"}, "no such folder"),
    ({"folder": "absent"}, "absent"),
]


@pytest.mark.parametrize("bad,message", BAD_CALLS)
def test_bad_calls(tmp_path, monkeypatch, bad, message):
    monkeypatch.chdir(tmp_path)
    how = {"volume": small(), "path": "mesh.ply", "level": 0.5, **bad}
    if message is None:
        isobench.write_slabs(**how)
        return
    with pytest.raises((ValueError, OSError), match=message):
        isobench.write_slabs(**how)
    assert [path.name for path in tmp_path.iterdir()] == ["temporary"]
    if not set(bad) & {"path"}:
        del how["path"]
        with pytest.raises((ValueError, OSError), match=message):
            isobench.extract_slabs(**how)


def test_files_that_are_none(tmp_path):
    good = nrrd_at(tmp_path / "good.nrrd", small()).read_bytes()
    np.save(tmp_path / "good.npy", small())
    bad = {
        "short.nrrd": (good[:-1], "cut short"),
        "other.nrrd": (b"P5", "not an NRRD file"),
        "gzip.nrrd": (good.replace(b"raw", b"gzip"), "save it raw"),
        "float.nrrd": (good.replace(b"int16", b"float").replace(b"sizes: 7 6 9", b"sizes: 7 6 4"), "convert them once"),
        "short.npy": ((tmp_path / "good.npy").read_bytes()[:-1], "damaged or cut short"),
        "text.npy": (b"no array", "damaged or cut short"),
    }
    for name, (text, message) in bad.items():
        (tmp_path / name).write_bytes(text)
        with pytest.raises(ValueError, match=message):
            isobench.write_slabs(tmp_path / name, tmp_path / "mesh.ply", 0.5)
        assert not (tmp_path / "mesh.ply").exists()


def test_deep_volumes(tmp_path, reader):
    volume = np.zeros((10_050, 2, 2), np.uint8)
    volume[10_000:10_020] = 9
    assert isobench.write_slabs(volume, tmp_path / "mesh.ply", 4.5, processes=2) == (10, 8)
    assert b"0.000 0.000 9999.500\n" in (tmp_path / "mesh.ply").read_bytes()
    mesh = isobench.extract_slabs(volume, 4.5, processes=2)
    assert len(mesh.faces) == 8 and sorted({z for _, _, z in mesh.thousandths.tolist()}) == [9_999_500, 10_019_500]
    with pytest.raises(ValueError, match="write_slabs"):
        isobench.extract_slabs(np.broadcast_to(np.uint8(0), (2_147_484, 2, 2)), 0.5)


def test_vertices_far_apart_do_not_coincide():
    heights = np.arange(-1000, 2 ** 31, 1 << 18)
    points = np.array([(x, y, z) for x in (-1000, 1_025_000) for y in (-1000, 1_025_000) for z in heights], np.int32)
    assert isobench.Mesh(points, np.empty((0, 3), np.int32)).coinciding() == 0
    assert isobench.Mesh(np.repeat(points, 2, axis=0), np.empty((0, 3), np.int32)).coinciding() == len(points)


def test_more_numbers_than_files_hold():
    counts = [_slab_runs.Counts(1, 2 ** 30, 0, 1), _slab_runs.Counts(1, 2 ** 30 - 2, 1, 1)]
    assert _slab_runs.numbers_of(counts) == [_slab_runs.Numbers(0, 2 ** 31 - 2), _slab_runs.Numbers(2 ** 30, 2 ** 31 - 2)]
    with pytest.raises(ValueError, match="2,147,483,647 of each are the most"):
        _slab_runs.numbers_of([*counts, _slab_runs.Counts(1, 1, 0, 0)])


@pytest.mark.parametrize("body,kind,message", [
    ("kill -9 $$", isobench.ProgramFailed, "signal 9"),
    ("echo isoslab: memory >&2; exit 7", isobench.ProgramFailed, "take more slabs"),
    ("echo isoslab: shelf fault >&2; exit 8", isobench.ProgramFailed, "another folder"),
    ("echo isoslab: volume 1 not nrrd >&2; exit 3", isobench.VolumeRefused, "volume 1 not nrrd"),
    ("cat > /dev/null; echo 5", isobench.MeshTextError, "no line of counts"),
    ("cat > /dev/null; if [ $1 = count ]; then echo slab slices 3 edges 1 centres 2 triangles 3; else exit 6; fi", isobench.ProgramFailed, "status 6"),
])
def test_a_program_that_dies(tmp_path, monkeypatch, body, kind, message):
    (tmp_path / "isoslab").write_text(f"#!/bin/sh\nif [ $1 = --version ]; then echo isoslab 1.0; exit; fi\n{body}\n")
    (tmp_path / "isoslab").chmod(0o755)
    monkeypatch.setenv("ISOSLAB", str(tmp_path / "isoslab"))
    (tmp_path / "mesh.ply").write_text("old")
    with pytest.raises(kind, match=message) as found:
        isobench.write_slabs(small(400), tmp_path / "mesh.ply", 0.5, slabs=4, processes=2)
    assert isinstance(found.value, (ValueError, OSError))
    assert (tmp_path / "mesh.ply").read_text() == "old"
    with pytest.raises(kind, match=message):
        isobench.extract_slabs(small(400), 0.5, slabs=4)


def test_no_program(tmp_path, monkeypatch):
    monkeypatch.setenv("ISOSLAB", str(tmp_path / "none"))
    with pytest.raises(isobench.ProgramNotFound, match="variable ISOSLAB says"):
        isobench.extract_slabs(small(), 0.5)
    monkeypatch.setenv("ISOSLAB", "/bin/true")
    with pytest.raises(isobench.ProgramNotFound, match="is not isoslab 1"):
        isobench.extract_slabs(small(), 0.5)


def test_a_volume_that_changes_meanwhile(tmp_path):
    class Changing:
        """Gives other samples each time."""

        shape, dtype, asked = (12, 6, 7), np.dtype("int16"), 0

        def __getitem__(self, key):
            self.asked += 1
            return np.roll(small(12), self.asked)[key]

    with pytest.raises(ValueError, match="changed meanwhile"):
        isobench.write_slabs(Changing(), tmp_path / "mesh.ply", 0.5, slabs=3, processes=1)
    assert not (tmp_path / "mesh.ply").exists()


def steps_of(run, folder, count):
    """The steps of a job array but the plan, last slab first."""
    for command in ("count", "write"):
        for number in reversed(range(count)):
            ran = run(command, folder, number)
            assert (ran.returncode, ran.stderr) == (0, "") and ran.stdout.startswith("slab slices ")


@pytest.mark.parametrize("form", ["ply", "obj"])
def test_the_four_commands(tmp_path, run_isoslabs, form):
    nrrd_at(tmp_path / "volume.nrrd", small(12))
    room, mesh = tmp_path / "room", tmp_path / f"mesh.{form}"
    ran = run_isoslabs("plan", tmp_path / "volume.nrrd", "--level", "0.5", "--pad", "auto", "--slabs", 3, "--format", form, "-o", room)
    assert (ran.returncode, ran.stdout, ran.stderr) == (0, "3\n", "")
    steps_of(run_isoslabs, room, 3)
    ran = run_isoslabs("join", room, "-o", mesh)
    isobench.write_slabs(small(12), tmp_path / f"other.{form}", 0.5, pad="auto")
    assert ran.returncode == 0 and ran.stdout.startswith(f"{mesh}: ") and mesh.read_bytes() == (tmp_path / f"other.{form}").read_bytes()
    if form == "ply":
        assert mesh.read_bytes() == bytes_of(small(12), "auto")
    # Each step can be done again.
    files = {path.name: path.read_bytes() for path in room.iterdir()}
    ran = run_isoslabs("plan", tmp_path / "volume.nrrd", "--level", "0.5", "--pad", "auto", "--slabs", 3, "--format", form, "-o", room)
    steps_of(run_isoslabs, room, 3)
    assert {path.name: path.read_bytes() for path in room.iterdir()} == files
    assert run_isoslabs("join", room, "-o", mesh).returncode == 0
    assert sorted(files) == sorted(["plan.json", *(f"{i}.{what}" for i in range(3) for what in
                                                   ("counted.json", "written.json", "edges", "centres", "triangles"))])


def test_steps_that_are_refused(tmp_path, run_isoslabs):
    volume = nrrd_at(tmp_path / "volume.nrrd", small(12))
    room, mesh = tmp_path / "room", tmp_path / "mesh.ply"

    def refused(message, *words, status=1):
        ran = run_isoslabs(*words)
        assert ran.returncode == status and message in ran.stderr and "Traceback" not in ran.stderr and not mesh.exists(), ran.stderr
        assert not room.exists() or all(len(path.name.split(".")) < 4 for path in room.iterdir())

    def plan(level="0.5"):
        assert run_isoslabs("plan", volume, "--level", level, "--slabs", 3, "-o", room).stdout == "3\n"

    refused("there is no plan", "count", room, 0)
    refused("usage", "plan", volume, "-o", room, status=2)
    refused("three decimals", "plan", volume, "--level", "0.1234", "-o", room)
    refused("No such file", "plan", tmp_path / "absent.nrrd", "--level", "0.5", "-o", room)
    plan()
    refused("there is no slab 3: the plan has slabs 0 to 2", "count", room, 3)
    refused("slab 0 is not counted yet: run `isoslabs count", "write", room, 0)
    for number in range(3):
        assert run_isoslabs("count", room, number).returncode == 0
    refused("slab 0 is not written yet: run `isoslabs write", "join", room, "-o", mesh)
    for number in range(3):
        assert run_isoslabs("write", room, number).returncode == 0
    part = room / "1.triangles"
    text = part.read_bytes()
    part.write_bytes(text[:-1])
    refused(f"1.triangles has {len(text) - 1} bytes, and {len(text)} were written: run `isoslabs write", "join", room, "-o", mesh)
    part.unlink()
    refused("1.triangles is missing: run `isoslabs write", "join", room, "-o", mesh)
    assert run_isoslabs("write", room, 1).returncode == 0
    refused("choose another name", "join", room, "-o", tmp_path / "mesh.obj")
    refused("no such folder", "join", room, "-o", tmp_path / "absent" / "mesh.ply")
    plan("1.5")
    refused("slab 0 was counted by another plan", "write", room, 0)
    refused("slab 0 was counted by another plan", "join", room, "-o", mesh)
    plan()
    good = volume.read_bytes()
    nrrd_at(volume, small(12).astype(np.int8))
    refused("is not the volume that the plan was made of", "count", room, 0)
    refused("is not the volume that the plan was made of", "write", room, 0)
    volume.write_bytes(good[:-1])
    refused("cut short", "write", room, 0)
    volume.write_bytes(good)
    (room / "plan.json").write_text("{}")
    refused("make it again by `isoslabs plan`", "count", room, 0)


def test_a_volume_that_changes_between_the_steps(tmp_path, run_isoslabs):
    volume = small(200)
    nrrd_at(tmp_path / "volume.nrrd", volume)
    room = tmp_path / "room"
    assert run_isoslabs("plan", tmp_path / "volume.nrrd", "--level", "0.5", "--slabs", 2, "-o", room).stdout == "2\n"
    for number in range(2):
        assert run_isoslabs("count", room, number).returncode == 0
    # The plan's hash is of some slices, and not of this one.
    volume[5, 3, 3] += 1
    nrrd_at(tmp_path / "volume.nrrd", volume)
    ran = run_isoslabs("write", room, 0)
    assert ran.returncode == 1 and "slab 0 is not what was counted" in ran.stderr
    assert not (room / "0.written.json").exists()


def test_an_output_that_is_full(tmp_path):
    os.symlink("/dev/full", tmp_path / "mesh.ply")
    before = set(os.listdir("/dev"))
    with pytest.raises(OSError, match="make room"):
        isobench.write_slabs(small(60), tmp_path / "mesh.ply", 0.5)
    assert set(os.listdir("/dev")) == before


def test_standard_output_that_takes_nothing(tmp_path):
    words = [sys.executable, "-m", "isobench.isoslabs", "plan", nrrd_at(tmp_path / "volume.nrrd", small()), "--level", "0.5", "-o", tmp_path / "plan"]
    with open("/dev/full", "wb") as full:
        ran = subprocess.run(words, cwd=PYTHON, stdout=full, stderr=subprocess.PIPE, text=True, timeout=600)
    assert (ran.returncode, ran.stderr) == (1, "isoslabs: [Errno 28] No space left on device\n")


def test_a_pipe_takes_a_mesh(tmp_path):
    os.mkfifo(tmp_path / "mesh.ply")
    with concurrent.futures.ThreadPoolExecutor(1) as pool:
        found = pool.submit((tmp_path / "mesh.ply").read_bytes)
        isobench.write_slabs(small(60), tmp_path / "mesh.ply", 0.5, slabs=3)
        assert found.result() == bytes_of(small(60))


def test_parts_stand_one_behind_the_other(tmp_path):
    texts = [b"", b"1 2 3\n" * 100_000, b"4 5 6\n", b"", b"7 8 9\n" * 50_000]
    parts = [str(tmp_path / str(number)) for number in range(len(texts))]
    for part, text in zip(parts, texts):
        pathlib.Path(part).write_bytes(text)
    slabs.put_together(str(tmp_path / "kept"), b"head\n", parts, is_last_use=False)
    slabs.put_together(str(tmp_path / "mesh"), b"head\n", parts, is_last_use=True)
    assert (tmp_path / "kept").read_bytes() == (tmp_path / "mesh").read_bytes() == b"head\n" + b"".join(texts)
    assert not any(os.path.exists(part) for part in parts)


def test_a_part_that_becomes_shorter(tmp_path, monkeypatch):
    part = tmp_path / "part"
    part.write_bytes(b"1 2 3\n")
    monkeypatch.setattr(os.path, "getsize", lambda path: 7)
    with pytest.raises(OSError, match="became shorter"):
        slabs.put_together(str(tmp_path / "mesh"), b"head\n", [str(part)], is_last_use=True)
    assert part.exists()

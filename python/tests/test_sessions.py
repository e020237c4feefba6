"""Sessions: each mesh is that of the edited array, and an error changes nothing."""
import concurrent.futures
import gc
import os
import signal
import subprocess
import sys
import time

import isobench
import numpy as np
import pytest
from conftest import EXAMPLES, is_same
from isobench import ProgramFailed, Refused, Session


@pytest.fixture
def knot():
    return isobench.read_volume(EXAMPLES / "knot.nrrd").array.copy()


def is_mesh_of(session, array, level, **options):
    return is_same(session.mesh(), isobench.marching_cubes(array, level, **options))


def test_edits_undo_and_redo(knot):
    with Session(knot, 100.5, pad="auto") as session:
        session[31, 31, 31] = knot[31, 31, 31] = 255
        assert is_mesh_of(session, knot, 100.5, pad="auto")
        cut = knot.copy()
        session[26:38, 24:38, 50:63] = cut[26:38, 24:38, 50:63] = 0
        assert is_mesh_of(session, cut, 100.5, pad="auto")
        session.undo()
        assert is_mesh_of(session, knot, 100.5, pad="auto")
        session.redo()
        session.work(100)
        assert is_mesh_of(session, cut, 100.5, pad="auto") and np.array_equal(session.samples(), cut)
        session.level(77)
        assert is_mesh_of(session, cut, 77, pad="auto")


@pytest.mark.parametrize("key", [
    0, -1, slice(1, 3), (2, 3, 4), (-1, -2, -3), (slice(None), 2), (Ellipsis, 3), (1, Ellipsis, slice(2, 4)), Ellipsis, slice(None),
    (slice(-2, None), slice(1, -1), np.int64(2)), (slice(3, 3), 1, 1), (slice(4, 1), 0), slice(2, 100),
])
def test_keys_are_those_of_numpy(key):
    array = np.random.default_rng(0).integers(0, 9, (5, 6, 7)).astype(np.int16)
    with Session(array, 4.5, pad=-1) as session:
        session[key] = 7
        array[key] = 7
        assert np.array_equal(session.samples(), array)


@pytest.mark.parametrize("key", [5, -6, (0, 6), (0, 0, 7), (0, 0, 0, 0), (slice(None, None, 2),), ([0, 1],), 1.5, (None, 0), np.ones((5, 6, 7), bool)])
def test_other_keys_are_index_errors(key):
    with Session(np.zeros((5, 6, 7), np.uint8), 4.5) as session:
        with pytest.raises(IndexError):
            session[key] = 7
        assert not session.samples().any()


def test_great_boxes_go_in_several_fills():
    array = np.zeros((70, 130, 140), np.uint8)
    with Session(array, 4.5) as session:
        session[1:, 1:, 1:] = 9
        array[1:, 1:, 1:] = 9
        assert np.array_equal(session.samples(), array)
        session.fill((69, 129, 139), (0, 0, 0), 3)
        assert (session.samples() == 3).all()
    flat = np.zeros((2, 1026, 1026), np.uint8)
    with Session(flat, 4.5) as session:
        session[:] = 9
        assert (session.samples() == 9).all()


@pytest.mark.parametrize("kind", ["u1", "i1", "<u2", ">i2", ">u4", "<i4", "<i8"])
def test_samples_of_every_type(kind):
    array = np.random.default_rng(1).integers(0, 100, (4, 5, 6)).astype(kind)
    with Session(array, 50.5) as session:
        session[1, 2, 3] = array[1, 2, 3] = 99
        assert np.array_equal(session.samples(), array) and is_mesh_of(session, array, 50.5)
        session.samples()[0, 0, 0] = 1


@pytest.mark.parametrize("kind", [np.float64, np.float32, np.int64, np.uint64])
def test_whole_numbers_of_a_wide_type_have_room_for_others(kind):
    """A session over zeros takes more than the first type that has zero."""
    array = np.zeros((4, 5, 6), kind)
    with Session(array, 0.5) as session:
        for point, value in (((1, 2, 3), 1), ((2, 2, 3), 70_000), ((0, 0, 0), -3 if kind is not np.uint64 else 3)):
            session[point] = array[point] = value
        assert np.array_equal(session.samples(), array) and is_mesh_of(session, array, 0.5)
        with pytest.raises(ValueError, match="1,000 times"):
            session[0, 0, 0] = 0.5
    with Session(array + kind(2 ** 32 - 80_000), 5) as session:
        assert session.samples().dtype == np.uint32


def test_floats(waves):
    with Session(waves, 0.1, pad="auto") as session:
        places = isobench.extract(waves, 0.1, pad="auto").thousandths
        assert np.abs(session.voxel_mesh().thousandths - places).max() <= 1
        session[3, 4, 5] = waves[3, 4, 5] = -1.3
        session[6:8, 6:8, 6:8] = waves[6:8, 6:8, 6:8] = 2.5
        mesh = session.voxel_mesh()
        assert np.abs(session.samples() - waves).max() <= mesh.error * 1.001 < 1e-8
        wanted = isobench.extract(waves, 0.1)
        with Session(waves, 0.1) as fresh:
            assert np.array_equal(fresh.voxel_mesh().faces, wanted.faces)
        session.level(0.25)
        assert len(session.voxel_mesh().faces) == len(isobench.extract(waves, 0.25, pad="auto").faces)
        with pytest.raises(ValueError, match="were scaled"):
            session[0, 0, 0] = 1e6
        session[0, 0, 0] = -np.inf


def test_values_that_cannot_be():
    with Session(np.zeros((3, 3, 3), np.uint8), 4.5, pad=0) as session:
        values = ((300, "between 0 and 255"), (-1, "between 0 and 255"), (1.5, "whole number"), (np.nan, "NaN"), (None, "not a number"), ([1, 2], "one value"))
        for value, text in values:
            with pytest.raises(ValueError, match=text):
                session[1, 1, 1] = value
        for level, text in ((-3, "above the padding"), (1e12, "out of range"), (np.inf, "inf")):
            with pytest.raises(ValueError, match=text):
                session.level(level)
        for call, code in ((session.undo, 7), (session.redo, 12)):
            with pytest.raises(Refused) as refused:
                call()
            assert refused.value.code == code
        assert not session.samples().any()


def test_a_box_of_the_surface(knot):
    first, last = (20, 20, 20), (40, 45, 50)
    with Session(knot, 100.5, pad=0, spacing=(3, 2, 1)) as session:
        verts, faces = session.mesh((first, last))
        part = tuple(slice(a, b + 1) for a, b in zip(first, last))
        places, triangles = isobench.marching_cubes(knot[part], 100.5)
        assert len(faces) == len(triangles)
        wanted = (places + np.array(first)) * (3, 2, 1)
        assert np.array_equal(np.unique(verts.round(3), axis=0), np.unique(wanted.astype(np.float32).round(3), axis=0))
        with pytest.raises(Refused, match="two points") as refused:
            session.mesh(((1, 1, 1), (1, 2, 2)))
        assert refused.value.code == 13
        with pytest.raises(IndexError):
            session.mesh(((1, 1, 1), (1, 2, 64)))


def test_report_measure_and_contour():
    with Session(EXAMPLES / "head.nrrd", 100.5, pad="auto") as session:
        whole, parts = session.report()
        assert whole == {"vertices": 22262, "edges": 66768, "faces": 44512, "border": 0, "euler": 6, "parts": 3}
        assert parts[1] == {"part": 3688, "vertices": 2028, "edges": 6078, "faces": 4052, "border": 0, "euler": 2}
        measures = session.measure()
        assert [measure["part"] for measure in measures] == [0, 3688, 4315]
        assert sum(measure["volume"] for measure in measures) == pytest.approx(2005975, abs=1)
        assert all(measure["border"] == 0 and measure["vector_area"] == (0, 0, 0) for measure in measures)
        lines = session.contour(24)
        assert len(lines) == 3 and all(is_closed for is_closed, _ in lines)
        verts, _ = session.mesh()
        on_plane = {tuple(row) for row in verts[verts[:, 0] == 96][:, 1:].round(3).tolist()}
        assert all(tuple(point) in on_plane for _, points in lines for point in np.float32(points).round(3).tolist())
        with pytest.raises(IndexError):
            session.contour(48)


def test_vector_areas():
    array = np.zeros((4, 4, 4), np.uint8)
    array[:2] = 10
    with Session(array, 5, spacing=(2, 3, 5)) as session:
        (measure,) = session.measure()
    assert measure["vector_area"] == pytest.approx((9 * 3 * 5, 0, 0)) and measure["border"] == 12


def test_lines_of_the_protocol():
    with Session(np.zeros((3, 3, 3), np.uint8), 4.5) as session:
        assert session.ask("set 1 1 1 9") == ([], "") and session.ask("report")[0][0].startswith("mesh vertices 6")
        for line in ("", "  ", "# comment", "undo\nundo", "s\u00e9t"):
            with pytest.raises(ValueError, match="not one command"):
                session.ask(line)
        with pytest.raises(Refused) as refused:
            session.ask("nonsense")
        assert refused.value.code == 2


def test_a_session_that_cannot_begin():
    array = np.zeros((3, 3, 3), np.uint8)
    for options in ({"pad": 5}, {"level": np.nan}, {"spacing": (1, 1)}, {"bricks": 0}):
        with pytest.raises((ValueError, OSError)):
            Session(array, options.pop("level", 4.5), **options)
    with pytest.raises(OSError):
        Session("none.nrrd", 4.5)


def test_a_program_that_dies(knot):
    with Session(knot, 100.5) as session:
        os.kill(session._process.pid, signal.SIGKILL)
        session._process.wait()
        with pytest.raises(ProgramFailed, match="signal 9") as failed:
            session.mesh()
        assert failed.value.status == -9


def test_a_session_that_ended_or_was_closed(knot):
    session = Session(knot, 100.5)
    session.ask("quit")
    with pytest.raises(ProgramFailed, match="status 0"):
        session.undo()
    session.close()
    session.close()
    with pytest.raises(ValueError, match="closed"):
        session.undo()


def test_an_interrupt_ends_the_session(knot, monkeypatch):
    """The reply of the line that was interrupted must not be taken for that of the next one."""
    with Session(knot, 100.5) as session:
        def interrupted():
            raise KeyboardInterrupt

        monkeypatch.setattr(session, "_replies", type("Replies", (), {"readline": staticmethod(interrupted), "close": lambda self: None})())
        with pytest.raises(KeyboardInterrupt):
            session.undo()
        monkeypatch.undo()
        session._process.wait()
        with pytest.raises(ProgramFailed):
            session.report()


def test_what_the_handler_of_a_signal_raises_ends_the_session(knot, monkeypatch):
    """As a time limit by `signal.alarm` does."""
    with Session(knot, 100.5) as session:
        def late():
            raise TimeoutError

        monkeypatch.setattr(session, "_replies", type("Replies", (), {"readline": staticmethod(late), "close": lambda self: None})())
        with pytest.raises(TimeoutError):
            session.report()
        monkeypatch.undo()
        assert session._process.wait(20) == -9


def test_a_forked_process_neither_keeps_nor_ends_a_session(knot):
    """It has the pipe to the program, too."""
    session = Session(knot, 100.5)
    woken, wake = os.pipe()
    child = os.fork()
    if not child:
        os.close(wake)
        session.close()
        os.read(woken, 1)
        os._exit(0)
    os.close(woken)
    try:
        assert session.report()[0]["border"] == 0
        other = os.fork()
        if not other:
            os.close(wake)
            time.sleep(20)
            os._exit(0)
        start = time.monotonic()
        session.close()
        assert time.monotonic() - start < 10
        os.kill(other, signal.SIGKILL)
        os.waitpid(other, 0)
    finally:
        os.close(wake)
        os.waitpid(child, 0)


def test_several_threads(knot):
    with Session(knot, 100.5) as session, concurrent.futures.ThreadPoolExecutor(4) as pool:
        wanted = session.mesh()
        assert all(is_same(found, wanted) for found in pool.map(lambda _: session.mesh(), range(12)))


def shared_files_of(process):
    """The files with a name in /dev/shm that a process has open."""
    links = [os.readlink(entry.path) for entry in os.scandir(f"/proc/{process}/fd")]
    return [link for link in links if link.startswith("/dev/shm/")]


def test_nothing_is_left_behind(knot):
    gc.collect()
    descriptors = len(os.listdir("/proc/self/fd"))
    with Session(knot, 100.5) as session:
        session.mesh()
        assert not shared_files_of(os.getpid()) and not shared_files_of(session._process.pid)
    dropped = Session(knot, 100.5)
    process = dropped._process
    del dropped
    gc.collect()
    assert process.wait(20) == 0
    del process
    gc.collect()
    assert len(os.listdir("/proc/self/fd")) == descriptors


def test_a_python_that_is_killed_leaves_nothing(tmp_path):
    code = ("import numpy, isobench, os, signal, sys\nsession = isobench.Session(numpy.eye(3)[None].repeat(3, 0), 0.5)\nsession.mesh()\n"
            "print(session._process.pid, flush=True)\nsys.stdin.read(1)\nos.kill(os.getpid(), signal.SIGKILL)")
    environment = {**os.environ, "TMPDIR": str(tmp_path), "PYTHONPATH": os.path.dirname(os.path.dirname(isobench.__file__))}
    with subprocess.Popen([sys.executable, "-c", code], env=environment, stdin=subprocess.PIPE, stdout=subprocess.PIPE, text=True) as python:
        program = int(python.stdout.readline())
        assert not shared_files_of(python.pid) and not shared_files_of(program)
        python.stdin.write("x")
    assert python.returncode == -9 and not list(tmp_path.iterdir())
    for _ in range(200):
        try:
            with open(f"/proc/{program}/stat", encoding="ascii") as file:
                if file.read().split()[2] == "Z":
                    return
        except (FileNotFoundError, ProcessLookupError):
            return
        time.sleep(0.05)
    raise AssertionError("the program has not ended")

"""The two readers of meshes: they give the same arrays, and refuse the same texts."""
import numpy as np
import pytest
from isobench import MeshTextError, _ply, _program
from isobench._samples import samples_of

HEAD = ("ply\nformat ascii 1.0\nelement vertex {}\nproperty float x\nproperty float y\nproperty float z\n"
        "element face {}\nproperty list uchar int vertex_indices\nend_header\n")


def text_of(thousandths, faces):
    """A mesh as the program writes it."""
    lines = [" ".join(f"{'-' if number < 0 else ''}{abs(number) // 1000}.{abs(number) % 1000:03d}" for number in row) for row in thousandths.tolist()]
    lines += [f"3 {a} {b} {c}" for a, b, c in faces.tolist()]
    return (HEAD.format(len(thousandths), len(faces)) + "".join(f"{line}\n" for line in lines)).encode()


def plain(text):
    """A mesh read in the plainest way."""
    head, _, body = text.decode().partition("end_header\n")
    count = int(head.split("element vertex ")[1].split()[0])
    lines = [line.split() for line in body.splitlines()]
    positions = [[int(word.replace(".", "")) for word in line] for line in lines[:count]]
    return np.array(positions, int).reshape(-1, 3), np.array([line[1:] for line in lines[count:]], int).reshape(-1, 3)


def read(text):
    positions, faces = _ply.read_mesh(text)
    assert positions.dtype == faces.dtype == np.int32
    return positions, faces


@pytest.mark.parametrize("seed", range(12))
def test_meshes_of_the_program(reader, seed):
    random = np.random.default_rng(seed)
    volume = random.integers(0, 11, random.integers(2, 14, 3)).astype(np.uint8)
    samples = samples_of(volume, 5.0)
    text = bytes(_program.extract_text(samples.pieces(), samples.words(5.0, "auto" if seed % 2 else None)))
    for found, wanted in zip(read(text), plain(text)):
        assert np.array_equal(found, wanted)


@pytest.mark.parametrize("most", [9, 99, 9_999, 99_999_999, 2 ** 31 - 2])
def test_numbers_of_every_length(reader, monkeypatch, most):
    """More vertices than a test can write are declared only: the lines of faces are read by themselves."""
    random = np.random.default_rng(most)
    faces = random.integers(0, most + 1, (5000, 3)) >> random.integers(0, 31, (5000, 3))
    fill = (_ply._c_reader() or _ply.NUMPY_READER).fill_faces
    body = "".join(f"3 {a} {b} {c}\n" for a, b, c in faces.tolist()).encode()
    out = np.empty((5000, 3), np.int32)
    fill(np.frombuffer(b"x" * _ply.MARGIN + body, np.uint8), out)
    assert np.array_equal(out, faces)


@pytest.mark.parametrize("most", [1_026_000, 99_999_999, 2 ** 31 - 1])
def test_coordinates_of_every_length(reader, most):
    random = np.random.default_rng(0)
    positions = random.integers(-1000, most + 1, (40_000, 3)) // 10 ** random.integers(0, 7, (40_000, 3))
    positions[:3] = [[most, -most, most], [9_999_999, 10_000_000, -10_000_000], [999, 1000, 0]]
    faces = random.integers(0, 40_000, (60_000, 3))
    text = text_of(positions, faces)
    assert len(text) > 4 * _ply.NUMPY_READER.block
    found = read(text)
    assert np.array_equal(found[0], positions) and np.array_equal(found[1], faces)


def test_an_empty_mesh(reader):
    positions, faces = read(HEAD.format(0, 0).encode())
    assert positions.shape == faces.shape == (0, 3)


GOOD = text_of(np.array([[0, 500, 1000], [-1000, 2, 30], [10, 20, 30_000]]), np.array([[0, 1, 2], [2, 1, 0]]))
BROKEN = {
    "empty": b"",
    "another header": b"plx" + GOOD[3:],
    "cut in a line": GOOD[:-5],
    "cut at the end of a line": GOOD[:GOOD.rindex(b"3 ")],
    "no last line end": GOOD[:-1],
    "cut among vertices": GOOD[:GOOD.index(b"-1.000")],
    "one line more": GOOD + b"3 0 0 0\n",
    "CR LF": GOOD.replace(b"\n", b"\r\n"),
    "CR LF in the lines": GOOD.replace(b"2 1 0\n", b"2 1 0\r\n"),
    "a letter": GOOD[:-2] + b"x\n",
    "a sign": GOOD.replace(b"3 2 1 0", b"3 2 -1 0"),
    "four corners": GOOD.replace(b"3 0 1 2\n", b"4 0 1 2 2\n"),
    "another count of corners": GOOD.replace(b"3 0 1 2\n", b"4 0 1 2\n"),
    "thirty corners": GOOD.replace(b"3 0 1 2\n", b"30 0 1 2\n"),
    "a blank too many": GOOD.replace(b"3 0 1 2\n", b"3  0 1 2\n"),
    "a blank before": GOOD.replace(b"3 0 1 2\n", b" 3 0 1 2\n"),
    "a tab": GOOD.replace(b"0 1 2\n", b"0 1\t2\n"),
    "no number": GOOD.replace(b"0 1 2\n", b"0 1 \n"),
    "a vertex that is not there": GOOD.replace(b"3 0 1 2", b"3 0 1 3"),
    "a number beyond 32 bits": GOOD.replace(b"3 0 1 2", b"3 0 1 4294967296"),
    "two places": GOOD.replace(b"0.500", b"0.50"),
    "four places": GOOD.replace(b"0.500", b"0.5000"),
    "a comma": GOOD.replace(b"0.500", b"0,500"),
    "no digit before the point": GOOD.replace(b"0.500", b".500"),
    "eight digits": GOOD.replace(b"0.500", b"10000000.500"),
    "eight digits behind a sign": GOOD.replace(b"-1.000", b"-00000001.000"),
    "beyond 32 bits": GOOD.replace(b"0.500", b"2147483.648"),
    "beyond 32 bits behind a sign": GOOD.replace(b"-1.000", b"-9999999.000"),
    "eleven digits": GOOD.replace(b"3 0 1 2", b"3 00000000000 1 2"),
    "two signs": GOOD.replace(b"-1.000", b"--1.000"),
    "an exponent": GOOD.replace(b"30.000", b"3.000e1"),
    "more vertices declared": GOOD.replace(b"vertex 3", b"vertex 4"),
    "fewer vertices declared": GOOD.replace(b"vertex 3", b"vertex 2"),
    "more faces declared": GOOD.replace(b"face 2", b"face 3"),
    "very many declared": GOOD.replace(b"vertex 3", b"vertex 9999999999"),
}


@pytest.mark.parametrize("name", BROKEN)
def test_other_texts_are_refused(reader, name):
    assert BROKEN[name] != GOOD
    with pytest.raises(MeshTextError):
        _ply.read_mesh(BROKEN[name])


def test_the_good_text_is_read(reader):
    assert read(GOOD)[0].tolist() == [[0, 500, 1000], [-1000, 2, 30], [10, 20, 30_000]]


@pytest.mark.parametrize("seed", range(8))
def test_both_read_a_changed_text_alike_or_refuse_it(c_reader, monkeypatch, seed):
    random = np.random.default_rng(seed)
    for _ in range(100):
        positions = random.integers(-1000, random.choice([1_026_001, 2 ** 31]), (random.integers(1, 60), 3)) // 10 ** random.integers(0, 7)
        text = bytearray(text_of(positions, random.integers(0, len(positions), (random.integers(0, 90), 3))))
        for _ in range(random.integers(1, 4)):
            at = random.integers(text.index(b"end_header\n") + 11, len(text))
            other = random.choice(list(b"0123456789 .-\n\t3e+x\r\0:/,"))
            text[at:at + random.integers(0, 2)] = bytes([other]) * random.choice([0, 1, 1, 1, random.integers(1, 12)])
        found = []
        for reader in (c_reader, None):
            monkeypatch.setattr(_ply, "_c_reader", lambda reader=reader: reader)
            try:
                found.append([array.tolist() for array in _ply.read_mesh(bytes(text))])
            except MeshTextError:
                found.append(None)
        assert found[0] == found[1], bytes(text)

#!/usr/bin/env python3
"""Tests of the built isoslab: the files of the slabs of random volumes, one behind the other, are the mesh that isobench extracts.

    python3 tools/test_slabs.py [--isoslab PROGRAM] [--isobench PROGRAM] [--beside PROGRAM] [--volumes N] [--seed N]

The programs are those of this checkout where they are left out. There are 500 volumes of six types and three encodings, most of them
full of samples equal to the level, in two to five slabs, with padding and without, as PLY and as OBJ. Then come command lines and
slabs that are refused, files that fail, and tools/slabs.sh, also over writers that are slow or fail. With --beside another program
with the commands of isoslab is run on all slabs, and on as many that may be refused: status, output, message and files must be the
same. Ends with 1 where a test fails, and says with which volume.
"""
import argparse
import concurrent.futures
import os
import pathlib
import random
import re
import resource
import signal
import struct
import subprocess
import sys
import tempfile
import time

TOP = pathlib.Path(__file__).resolve().parent.parent
KINDS = {"int8": "b", "uint8": "B", "int16": "h", "uint16": "H", "int32": "i", "uint32": "I"}
PARTS = ("edges", "centres", "triangles")
SCRIPT = TOP / "tools" / "slabs.sh"
MOST = 2147483647
# Seconds after which a program hangs; on a busy machine one that does not takes many, too.
PATIENCE = 600
# Blocks of 512 bytes: of the last of eleven slabs in `of_failing_writers` the triangles take more, and of the last of three the edges.
LONGEST_BLOCKS = 240
# Command lines that are refused, whatever the input, and the status and the message of each.
BAD_WORDS = [
    "",
    "count --level=5",
    "count --from=0",
    "count --level=5 --from=0 --from=0",
    "count --level=5 --from=00",
    "count --level=5 --from=-0",
    "count --level=5 --from=2147483648",
    "count --level=5 --from=0 --last=",
    "count --level=5 --from=0 --last --last",
    "count --level=5 --from=0 --format=ply",
    "count --level=5 --from=0 x",
    "write --level=5 --from=0 --edges=0 x",
    "write --level=5 --from=0 --centres=0 x",
    "write --level=5 --from=0 --edges=0 --centres=0",
    "write --level=5 --from=0 --edges=0 --centres=0 x y",
    "write --level=5 --from=0 --edges=0 --centres=0 " + 246 * "x",
    "head 1",
    "head 1 01",
    "head 1 2 3",
    "other",
]


class Case:
    """A random volume with its cuts, a level and a padding."""

    def __init__(self, chance):
        self.kind = chance.choice(sorted(KINDS))
        code = KINDS[self.kind]
        bits = 8 * struct.calcsize(code)
        self.least, self.greatest = (-(1 << bits - 1), (1 << bits - 1) - 1) if code.islower() else (0, (1 << bits) - 1)
        self.sizes = (chance.randint(2, 7), chance.randint(2, 7), chance.randint(4, 12))
        middle = chance.choice([self.least + 2, self.greatest - 2, chance.randint(self.least + 2, self.greatest - 2)])
        values = [v for v in range(middle - 2, middle + 3)] if chance.random() < 0.8 else [self.least, middle, self.greatest]
        count = self.sizes[0] * self.sizes[1] * self.sizes[2]
        self.samples = [chance.choice(values) for _ in range(count)]
        self.level = chance.choice([str(middle), f"{middle}.5", str(middle + 1), f"{middle}.001"])
        self.pad = chance.choice([None, None, middle - 1, middle - 20, self.least, self.least - 300, -(1 << 31)])
        if self.pad is not None and (self.pad < -(1 << 31) or self.pad >= float(self.level)):
            self.pad = None
        self.format = chance.choice(["ply", "obj"])
        self.encoding = chance.choice(["raw", "raw", "text", "hex"])
        self.order = chance.choice("<>")
        top = self.sizes[2] - 2
        self.cuts = [0] + sorted(chance.sample(range(1, top + 1), chance.randint(1, min(4, top))))

    def words(self):
        return [f"--level={self.level}"] + ([] if self.pad is None else [f"--pad={self.pad}"])

    def file(self, low, high):
        """The slices from one to before another as an NRRD file."""
        nx, ny, _ = self.sizes
        samples = self.samples[nx * ny * low:nx * ny * high]
        head = f"NRRD0004\ntype: {self.kind}\ndimension: 3\nsizes: {nx} {ny} {high - low}\n"
        if self.kind[-1] != "8":
            head += "endian: " + ("little" if self.order == "<" else "big") + "\n"
        head += f"encoding: {self.encoding}\n\n"
        packed = struct.pack(self.order + str(len(samples)) + KINDS[self.kind], *samples)
        body = {"raw": packed, "hex": packed.hex().encode(), "text": " ".join(map(str, samples)).encode()}
        return head.encode() + body[self.encoding]

    def slabs(self):
        """The words and the file of each slab."""
        ends = self.cuts[1:] + [None]
        for low, next_low in zip(self.cuts, ends):
            if next_low is None:
                yield [f"--from={low}", "--last", *self.words()], self.file(low, self.sizes[2])
            else:
                yield [f"--from={low}", *self.words()], self.file(low, next_low + 2)

    def __str__(self):
        return f"{self.kind} {self.encoding} {self.order} sizes {self.sizes} cuts {self.cuts} {' '.join(self.words())} {self.format}"


def ran(program, words, given, folder, before=None):
    done = subprocess.run([program, *words], input=given, stdout=subprocess.PIPE, stderr=subprocess.PIPE, cwd=folder, preexec_fn=before, timeout=PATIENCE)
    return done.returncode, done.stdout, done.stderr


def output_of(program, words, given, folder):
    status, output, message = ran(program, words, given, folder)
    if status:
        raise AssertionError(f"{' '.join(words)}: status {status} {message.decode().strip()}")
    return output


def counts_of(line):
    """The four numbers of a line that says what a slab owns."""
    found = re.fullmatch(rb"slab slices (\d+) edges (\d+) centres (\d+) triangles (\d+)\n", line)
    if not found:
        raise AssertionError(f"no line of counts: {line}")
    return [int(number) for number in found.groups()]


def write_words(case, words, edges, centres, name):
    return ["write", f"--edges={edges}", f"--centres={centres}", f"--format={case.format}", *words, name]


def joined(isoslab, case, folder):
    """The mesh put together from its slabs, as a pass that counts and a pass that writes make it."""
    slabs = list(case.slabs())
    lines = [output_of(isoslab, ["count", *words], given, folder) for words, given in slabs]
    counts = [counts_of(line) for line in lines]
    all_edges, all_centres, all_triangles = (sum(count[k] for count in counts) for k in (1, 2, 3))
    edges, centres = 0, all_edges
    for number, ((words, given), line, count) in enumerate(zip(slabs, lines, counts)):
        written = output_of(isoslab, write_words(case, words, edges, centres, str(number)), given, folder)
        if written != line:
            raise AssertionError(f"slab {number}: count says {line}, write says {written}")
        edges, centres = edges + count[1], centres + count[2]
    head = output_of(isoslab, ["head", str(all_edges + all_centres), str(all_triangles)], b"", folder)
    files = [pathlib.Path(folder, f"{number}.{part}").read_bytes() for part in PARTS for number in range(len(slabs))]
    return (head if case.format == "ply" else b"") + b"".join(files)


def compare(programs, case):
    """What differs of a case, or nothing."""
    with tempfile.TemporaryDirectory() as folder:
        try:
            whole = output_of(programs.isobench, ["extract", f"--format={case.format}", *case.words()], case.file(0, case.sizes[2]), folder)
            if joined(programs.isoslab, case, folder) != whole:
                return f"{case}: the slabs are not the whole"
        except AssertionError as error:
            return f"{case}: {error}"
    return None


def differences(programs, case, chance_seed):
    """What another program does in another way, of a case's slabs as they are and with words that may be refused."""
    chance = random.Random(chance_seed)
    for number, (words, given) in enumerate(case.slabs()):
        odd = list(words)
        if chance.random() < 0.5:
            odd.remove("--last") if "--last" in odd else odd.append("--last")
        if chance.random() < 0.3:
            odd[0] = f"--from={chance.choice([0, 1, 9, MOST, MOST + 1])}"
        if chance.random() < 0.2:
            given = given[:chance.randrange(len(given))]
        numbers = [chance.choice([0, 7, MOST - 40, MOST - 7, MOST]) for _ in range(2)]
        for each in (["count", *odd], write_words(case, words, 0, 5, "x"), write_words(case, odd, *numbers, "x")):
            found = []
            for program in (programs.isoslab, programs.beside):
                with tempfile.TemporaryDirectory() as folder:
                    ended = ran(program, each, given, folder)
                    found.append((ended, [(path.name, path.read_bytes()) for path in sorted(pathlib.Path(folder).iterdir())]))
            if found[0] != found[1]:
                return f"{case}: slab {number} by {' '.join(each)}: {found[0][0]}, and beside it {found[1][0]}"
    return None


def refusals(isoslab):
    """Command lines and slabs that are refused, each with the status and the message that it must have."""
    head = b"NRRD0004\ntype: uint8\ndimension: 3\nsizes: 2 2 2\nencoding: raw\n\n"
    thin = head + bytes([9, 0, 0, 0, 0, 0, 0, 0])
    slab = ["--level=5", "--from=4"]
    write = ["write", *slab, "--last"]
    cases = [(words.split(), b"", 2, "bad words") for words in BAD_WORDS]
    cases += [
        (["count", *slab], b"x", 3, "volume 1 not nrrd"),
        (["count", *slab, "--last"], thin[:-1], 3, "volume 14 short samples 8 7"),
        (["count", *slab, "--pad=5"], thin, 3, "volume 17 level not above pad 5 5"),
        (["count", *slab], thin, 3, "slab thin 2"),
        (["count", "--level=5", "--from=0", "--pad=0"], thin, 0, ""),
        ([*write, f"--edges={MOST - 1}", "--centres=0", "x"], thin, 3, f"slab numbers {MOST + 1}"),
        ([*write, f"--edges={MOST - 2}", "--centres=0", "x"], thin, 0, ""),
        ([*write, f"--edges={MOST - 2}", "--centres=0", "--format=obj", "x"], thin, 3, f"slab numbers {MOST}"),
        ([*write, "--edges=0", "--centres=0", "absent/x"], thin, 8, "shelf fault"),
    ]
    for words, given, status, message in cases:
        with tempfile.TemporaryDirectory() as folder:
            found = ran(isoslab, words, given, folder)
            wanted = f"isoslab: {message}\n".encode() if status else b""
            if (found[0], found[2]) != (status, wanted):
                yield f"{' '.join(words)}: status {found[0]} {found[2]}, not {status} {wanted}"
            if status and os.listdir(folder):
                yield f"{' '.join(words)}: files are left"


def a_case(sizes=(40, 40, 12)):
    """A volume of which a slab's files are longer than a page of memory."""
    case = Case(random.Random(7))
    chance = random.Random(8)
    case.kind, case.order, case.encoding, case.level, case.pad, case.sizes = "int16", "<", "raw", "0.5", None, sizes
    case.samples = [chance.randint(-9, 9) for _ in range(sizes[0] * sizes[1] * sizes[2])]
    case.cuts, case.format = [0, 4, 8], "ply"
    return case


def failing_files(isoslab):
    """A file that fails in the middle: the files before it are whole, it is a prefix, and those behind it are not there."""
    case = a_case()
    words, given = list(case.slabs())[1]
    words = write_words(case, words, 5, 7, "x")
    with tempfile.TemporaryDirectory() as folder:
        output_of(isoslab, words, given, folder)
        whole = [pathlib.Path(folder, f"x.{part}").read_bytes() for part in PARTS]
    for most in (0, 5000, len(whole[0]), len(whole[0]) + 1, max(map(len, whole)) - 1):
        def limit():
            signal.signal(signal.SIGXFSZ, signal.SIG_IGN)
            resource.setrlimit(resource.RLIMIT_FSIZE, (most, most))

        with tempfile.TemporaryDirectory() as folder:
            found = ran(isoslab, words, given, folder, limit)
            if found != (8, b"", b"isoslab: shelf fault\n"):
                yield f"files of at most {most} bytes: {found}"
            texts = [path.read_bytes() if path.exists() else None for path in (pathlib.Path(folder, f"x.{part}") for part in PARTS)]
            failed = next(number for number, text in enumerate(whole) if len(text) > most)
            wanted = [text if number < failed else text[:most] if number == failed else None for number, text in enumerate(whole)]
            # What was taken of a file that fails is some prefix.
            texts[failed] = wanted[failed] if wanted[failed].startswith(texts[failed] or b"") else texts[failed]
            if texts != wanted:
                yield f"files of at most {most} bytes: {[None if text is None else len(text) for text in texts]} bytes are left"
    for part in PARTS:
        with tempfile.TemporaryDirectory() as folder:
            os.symlink("/dev/full", pathlib.Path(folder, f"x.{part}"))
            found = ran(isoslab, words, given, folder)
            if found != (8, b"", b"isoslab: shelf fault\n"):
                yield f"x.{part} is full: {found}"
    with open("/dev/full", "wb") as full:
        with tempfile.TemporaryDirectory() as folder:
            done = subprocess.run([isoslab, *words], input=given, stdout=full, stderr=subprocess.PIPE, cwd=folder, timeout=PATIENCE)
            if (done.returncode, done.stderr) != (6, b"isoslab: output fault\n"):
                yield f"the output is full: {done.returncode} {done.stderr}"


def want_of_memory(isoslab):
    """Where memory is wanting: one status, nothing is written and no file is made, for each encoding, padded and not."""
    case = a_case((100, 100, 60))
    case.cuts = [0]

    def limit():
        # The program is loaded in 3 MB, and the samples of the slab take more than what is left.
        resource.setrlimit(resource.RLIMIT_AS, (4 << 20, 4 << 20))

    for case.encoding in ("raw", "text", "hex"):
        for case.pad in (None, -20):
            words, given = next(iter(case.slabs()))
            for asked in (["count", *words], write_words(case, words, 0, 900_000, "x")):
                with tempfile.TemporaryDirectory() as folder:
                    found = ran(isoslab, asked, given, folder, limit)
                    if found != (7, b"", b"isoslab: memory\n") or os.listdir(folder):
                        yield f"{case.encoding} {' '.join(asked)} in little memory: {found}, files {os.listdir(folder)}"


def of_the_script(programs):
    """What the script for one machine does in another way than it must."""
    case = a_case()
    volume = case.file(0, case.sizes[2])
    for words in ([], ["--pad=-20"], ["--pad=-20", "--format=obj", "--jobs=1"], ["--slabs=50"], ["--jobs=2", "--slabs=1"]):
        whole = output_of(programs.isobench, ["extract", "--level=0.5", *[w for w in words if w[2:5] in ("pad", "for")]], volume, None)
        yield from scripted(programs.isoslab, words, volume, 0, "", whole)
    yield from scripted(programs.isoslab, [], volume[:-1], 1, "isoslab: volume 14 short samples")
    yield from scripted(programs.isoslab, ["--pad=1"], volume, 1, "isoslab: volume 17 level not above pad 0.500 1")
    yield from scripted(programs.isoslab, [], volume.replace(b"raw", b"hex", 1), 1, "no header of raw samples")
    yield from scripted(programs.isoslab, [], volume.replace(b"sizes: 40", b"sizes: 4000", 1), 1, "more than 1026 points")
    yield from scripted(programs.isoslab, [], b"", 1, "no header of raw samples")
    yield from scripted(programs.isoslab, ["--level=x"], volume, 1, "isoslab: bad words")
    yield from scripted(programs.isoslab, ["--jobs=0"], volume, 2, "tools/slabs.sh --level=V")
    yield from scripted("absent", [], volume, 1, "no program absent is found")
    yield from of_failing_writers(programs.isoslab, volume)
    yield from of_slow_writers(programs, volume)


def of_failing_writers(isoslab, volume):
    """What the script does in another way than it must where the last slab alone fails, while the files of the others go into the mesh."""
    bodies = {
        "exit 8": "before it has a file",
        f"sleep 0.2; trap '' XFSZ; ulimit -f {LONGEST_BLOCKS}; exec {isoslab} \"$@\"": "in a file",
        f"{isoslab} \"$@\"; sleep 0.2; exit 6": "with all its files",
        "sleep 0.2; kill -9 $$": "killed",
        "kill 0": "with all that the script started",
    }
    for body, when in bodies.items():
        with tempfile.TemporaryDirectory() as folder:
            failing = pathlib.Path(folder, "isoslab")
            failing.write_text(f"#!/bin/sh\ncase \"$*\" in write*--last*) {body} ;; esac\nexec {isoslab} \"$@\"\n")
            failing.chmod(0o755)
            for words in (["--slabs=3"], ["--slabs=11", "--jobs=2"]):
                message = "" if when.startswith("with all that") else "write failed"
                for why in scripted(str(failing), words, volume, 1, message):
                    yield f"a writer that fails {when}: {why}"


def of_slow_writers(programs, volume):
    """What the script does in another way than it must where each file of a slab is a part of it for some time."""
    with tempfile.TemporaryDirectory() as folder:
        slow = pathlib.Path(folder, "isoslab")
        slow.write_text(f"""#!/bin/sh
[ "$1" = write ] || exec {programs.isoslab} "$@"
name=${{*##* }}
mkdir "$name.d" && cd "$name.d" && {programs.isoslab} "$@" > line && cd .. || exit 1
for part in edges centres triangles; do
    for piece in "head -c 1000" "tail -c +1001"; do
        $piece "$name.d/$name.$part" >> "$name.$part"
        sleep 0.2
    done
done
cat "$name.d/line"
""")
        slow.chmod(0o755)
        whole = output_of(programs.isobench, ["extract", "--level=0.5"], volume, None)
        yield from scripted(str(slow), ["--slabs=3"], volume, 0, "", whole)


def scripted(isoslab, words, volume, status, message, mesh=b"old"):
    """Run the script where a mesh stands already; what is other than it must be."""
    with tempfile.TemporaryDirectory() as folder:
        room = pathlib.Path(folder, "a room")
        room.mkdir()
        room.joinpath("scan.nrrd").write_bytes(volume)
        room.joinpath("mesh").write_bytes(b"old")
        # (a process that is left keeps a file open, too, but nobody waits for the end of one)
        with tempfile.TemporaryFile() as notes:
            done = subprocess.run(["sh", SCRIPT, "--level=0.5", *words, "scan.nrrd", "mesh"], cwd=room, stdout=notes, stderr=notes,
                                  env={**os.environ, "ISOSLAB": isoslab}, timeout=PATIENCE, start_new_session=True)
            notes.seek(0)
            said = notes.read().decode()
        if done.returncode != status or message not in said or not (said or status == 0):
            yield f"slabs.sh {' '.join(words)}: status {done.returncode} {said}, not {status} {message}"
        if sorted(os.listdir(room)) != ["mesh", "scan.nrrd"] or room.joinpath("mesh").read_bytes() != mesh:
            yield f"slabs.sh {' '.join(words)}: another mesh, or files are left"
        if is_busy(room):
            yield f"slabs.sh {' '.join(words)}: processes are left"


def is_busy(folder):
    """Whether processes still run in a folder, or in one that was in it, after some time in which they may end."""
    for _ in range(50):
        if not any(works_in(process, folder) for process in pathlib.Path("/proc").glob("[0-9]*")):
            return False
        time.sleep(0.1)
    return True


def works_in(process, folder):
    try:
        return os.readlink(process / "cwd").startswith(str(folder))
    except OSError:
        # (it has ended)
        return False


def arguments():
    parser = argparse.ArgumentParser(description=__doc__.split("\n")[0])
    for name in ("isoslab", "isobench"):
        parser.add_argument("--" + name, default=str(TOP / "crates" / name / "out" / name), help="a built program")
    parser.add_argument("--beside", metavar="PROGRAM", help="another program with the commands of isoslab, compared on all slabs")
    parser.add_argument("--volumes", type=int, default=500)
    parser.add_argument("--seed", type=int, default=1)
    given = parser.parse_args()
    for name in ("isoslab", "isobench", "beside"):
        if getattr(given, name):
            setattr(given, name, os.path.abspath(getattr(given, name)))
    return given


def main():
    given = arguments()
    chance = random.Random(given.seed)
    cases = [Case(chance) for _ in range(given.volumes)]
    failures = [*refusals(given.isoslab), *failing_files(given.isoslab), *want_of_memory(given.isoslab), *of_the_script(given)]
    with concurrent.futures.ThreadPoolExecutor(os.cpu_count()) as pool:
        failures += [why for why in pool.map(lambda case: compare(given, case), cases) if why]
        if given.beside:
            failures += [why for why in pool.map(lambda numbered: differences(given, numbered[1], numbered[0]), enumerate(cases)) if why]
    for why in failures:
        print(why)
    padded = sum(case.pad is not None for case in cases)
    print(f"slabs: {len(cases)} volumes, {padded} with padding, {sum(len(case.cuts) for case in cases)} slabs, {len(failures)} failures")
    return 1 if failures else 0


if __name__ == "__main__":
    sys.exit(main())

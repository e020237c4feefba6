#!/usr/bin/env python3
"""Tests of the built program where it meets the system: closed streams, named pipes, two sessions, little stack.

    python3 tools/test_edges.py [PROGRAM]

PROGRAM is a built isobench, without it the one of this checkout. Ends with 1 where a test fails.
"""
import os
import pathlib
import resource
import shutil
import subprocess
import sys
import tempfile
import threading
import unittest

TOP = pathlib.Path(__file__).resolve().parent.parent
PROGRAM = str(TOP / "crates" / "isobench" / "out" / "isobench")
SCRIPT = b"ply a.ply\nset 0 0 0 9\nreport\nsave s.nrrd\nquit\n"
PLY_REPLY = b"ok vertices 3 faces 1 bytes 216\n"


class Edges(unittest.TestCase):
    def setUp(self):
        room = tempfile.TemporaryDirectory()
        self.addCleanup(room.cleanup)
        self.folder = pathlib.Path(room.name)
        shutil.copy(TOP / "examples" / "corner.nrrd", self.folder / "volume")
        self.words = ["session", "--level=5", "volume"]
        self.assertEqual(self.ended(*self.words, given=SCRIPT)[0], 0)
        self.mesh, self.saved = (self.read(name) for name in ("a.ply", "s.nrrd"))
        for name in ("a.ply", "s.nrrd"):
            (self.folder / name).unlink()

    def read(self, name):
        return (self.folder / name).read_bytes()

    def ended(self, *words, given=b"", closed=(), stack=None, output=subprocess.PIPE):
        """The status, the output and the message of a run, with these descriptors closed and so many KB of stack."""

        def prepare():
            resource.setrlimit(resource.RLIMIT_CORE, (0, 0))
            if stack:
                resource.setrlimit(resource.RLIMIT_STACK, (stack * 1024, stack * 1024))
            for descriptor in closed:
                os.close(descriptor)

        ran = subprocess.run([PROGRAM, *words], input=given, stdout=output, stderr=subprocess.PIPE, cwd=self.folder, preexec_fn=prepare, timeout=600)
        return ran.returncode, ran.stdout, ran.stderr

    def files(self):
        return sorted(file.name for file in self.folder.iterdir())


class ClosedStreams(Edges):
    def test_replies_go_into_no_file(self):
        status, _, message = self.ended(*self.words, given=SCRIPT, closed=[1])
        self.assertEqual((status, message), (6, b"isobench: output fault\n"))
        self.assertEqual((self.files(), self.read("a.ply")), (["a.ply", "volume"], self.mesh))

    def test_messages_go_into_no_file(self):
        with open("/dev/full", "wb") as full:
            status, _, _ = self.ended(*self.words, given=SCRIPT, closed=[2], output=full)
        self.assertEqual((status, self.read("a.ply")), (6, self.mesh))

    def test_a_session_needs_no_messages(self):
        status, output, _ = self.ended(*self.words, given=SCRIPT, closed=[2])
        self.assertEqual((status, output[: len(PLY_REPLY)]), (0, PLY_REPLY))
        self.assertEqual((self.read("a.ply"), self.read("s.nrrd")), (self.mesh, self.saved))

    def test_no_script(self):
        status, output, message = self.ended(*self.words, closed=[0])
        self.assertEqual((status, output, message), (4, b"", b"isobench: input fault\n"))

    def test_no_stream(self):
        status, _, _ = self.ended(*self.words, closed=[0, 1, 2])
        self.assertEqual((status, self.files()), (4, ["volume"]))

    def test_soak(self):
        for closed, wanted in (([0], 0), ([1], 6), ([2], 0), ([0, 1, 2], 6)):
            with self.subTest(closed=closed):
                status, _, _ = self.ended("soak", "7", closed=closed)
                text = self.read("soak.ply")
                verdict = self.ended("check", "ply", given=text)[1]
                self.assertEqual((status, verdict[:6]), (wanted, b"border"))
                # `check` reads no further than the last face, so that all is counted here.
                vertices, faces = (int(line.split()[2]) for line in text.splitlines()[:8] if line.startswith(b"element"))
                head = text.partition(b"end_header\n")[0].count(b"\n") + 1
                self.assertEqual(text.count(b"\n"), head + vertices + faces)

    def test_commands_without_files(self):
        volume = self.read("volume")
        for words in (["points", "--level=5"], ["extract", "--level=5"], ["check", "ply"], ["gen", "1", "2", "2", "2"]):
            with self.subTest(words=words):
                given = self.mesh if words[0] == "check" else volume
                self.assertEqual(self.ended(*words, given=given, closed=[1])[0], 6)
                if words[0] != "gen":
                    self.assertEqual(self.ended(*words, closed=[0])[0], 4)


class Targets(Edges):
    def test_a_named_pipe(self):
        pipe = self.folder / "pipe"
        os.mkfifo(pipe)
        for _ in range(10):
            got = []
            reader = threading.Thread(target=lambda: got.append(pipe.read_bytes()), daemon=True)
            reader.start()
            status, output, _ = self.ended(*self.words, given=b"ply pipe\n")
            reader.join(10)
            self.assertEqual((status, output, got), (0, PLY_REPLY, [self.mesh]))

    def test_a_named_pipe_is_open_until_another_file_is_written(self):
        pipe = self.folder / "pipe"
        os.mkfifo(pipe)
        reader = os.open(pipe, os.O_RDONLY | os.O_NONBLOCK)
        self.addCleanup(os.close, reader)
        with subprocess.Popen([PROGRAM, *self.words], cwd=self.folder, stdin=subprocess.PIPE, stdout=subprocess.PIPE, bufsize=0) as ran:
            ran.stdin.write(b"ply pipe\n")
            self.assertEqual((ran.stdout.readline(), os.read(reader, 4096)), (PLY_REPLY, self.mesh))
            with self.assertRaises(BlockingIOError):  # (at its end it would give no bytes)
                os.read(reader, 4096)
            ran.stdin.write(b"ply a.ply\n")
            self.assertEqual((ran.stdout.readline(), os.read(reader, 4096)), (PLY_REPLY, b""))
            ran.stdin.close()

    def test_a_full_file_and_a_full_output(self):
        status, output, _ = self.ended(*self.words, given=b"ply /dev/full\nply a.ply\n")
        self.assertEqual((status, output), (0, b"error 9 shelf\n" + PLY_REPLY))
        self.assertEqual(self.read("a.ply"), self.mesh)

    def test_two_sessions_that_write_one_file(self):
        (self.folder / "large").write_bytes(self.ended("gen", "9", "60", "60", "60")[1])
        words = [PROGRAM, "session", "--level=128", "large"]
        self.ended(*words[1:], given=b"ply alone\n")
        how = {"cwd": self.folder, "stdin": subprocess.PIPE, "stdout": subprocess.PIPE}
        for _ in range(5):
            both = [subprocess.Popen(words, **how) for _ in range(2)]
            writers = [threading.Thread(target=one.communicate, args=[b"ply same\n"]) for one in both]
            for writer in writers:
                writer.start()
            for writer in writers:
                writer.join(60)
            self.assertEqual([one.returncode for one in both], [0, 0])
            self.assertTrue(self.read("same") == self.read("alone"))


class LittleStack(Edges):
    def test_a_write_that_has_too_little_leaves_the_file(self):
        old = b"what the file held before\n"
        lines = [b"ply old", b"obj old", b"window 0 0 0 1 1 1 ply old", b"save old", b"savetext old", b"savehex old"]
        for line in lines:
            ended = 0
            for stack in range(64, 1500, 32):
                (self.folder / "old").write_bytes(old)
                status, _, _ = self.ended(*self.words, given=line + b"\n", stack=stack)
                if status == 0:
                    break
                ended += 1
                self.assertEqual((line, stack, status, self.read("old")), (line, stack, -11, old))
            self.assertGreater(ended, 4)


if __name__ == "__main__":
    if len(sys.argv) > 1 and not sys.argv[1].startswith("-"):
        PROGRAM = str(pathlib.Path(sys.argv.pop(1)).resolve())
    unittest.main()

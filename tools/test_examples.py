#!/usr/bin/env python3
"""Tests of the scripts in examples/, over the built program.

    python3 tools/test_examples.py [PROGRAM]

PROGRAM is a built isobench, without it the one of this checkout. Ends with 1 where a test fails.
"""
import os
import pathlib
import shutil
import subprocess
import sys
import tempfile
import unittest

TOP = pathlib.Path(__file__).resolve().parent.parent
EXAMPLES = TOP / "examples"
PROGRAM = str(TOP / "crates" / "isobench" / "out" / "isobench")
sys.path.insert(0, str(EXAMPLES))
import session  # noqa: E402


def extracted(level, volume, *options):
    with open(volume, "rb") as samples:
        return subprocess.run([PROGRAM, "extract", f"--level={level}", *options], stdin=samples, stdout=subprocess.PIPE, check=True).stdout


class Sessions(unittest.TestCase):
    def setUp(self):
        room = tempfile.TemporaryDirectory()
        self.addCleanup(room.cleanup)
        self.folder = pathlib.Path(room.name)
        shutil.copy(EXAMPLES / "ties.nrrd", self.folder)

    def opened(self, *options, **more):
        return session.Session(PROGRAM, "ties.nrrd", *options, folder=self.folder, **more)

    def test_an_edited_mesh_is_a_fresh_extraction(self):
        with self.opened("--level=4.5", "--pad=0") as opened:
            for line in ["ply first.ply", "set 0 1 2 9", "fill 2 2 2 3 3 3 0", "undo", "level 3", "work 5", "ply edited.ply", "save edited.nrrd"]:
                opened.ask(line)
        self.assertEqual((self.folder / "first.ply").read_bytes(), extracted("4.5", EXAMPLES / "ties.nrrd", "--pad=0"))
        self.assertEqual((self.folder / "edited.ply").read_bytes(), extracted("3", self.folder / "edited.nrrd", "--pad=0"))

    def test_replies_of_several_lines_end(self):
        with self.opened("--level=4.5", "--pad=0") as opened:
            lines, rest = opened.ask("report")
            self.assertEqual((len(lines), lines[0].split()[0], rest), (2, "mesh", ""))
            self.assertEqual(opened.ask("contour 2")[0][0].split()[0], "cycle")
            self.assertEqual(opened.ask("ply a.ply")[1].split()[0], "vertices")

    def test_a_file_that_the_client_passes_on(self):
        with open(os.memfd_create("mesh"), "r+b") as file, self.opened("--level=4.5", pass_fds=[file.fileno()]) as opened:
            for level in ("3", "4.5"):
                opened.ask(f"level {level}")
                opened.ask(f"ply /dev/fd/{file.fileno()}")
                file.seek(0)
                self.assertEqual(file.read(), extracted(level, EXAMPLES / "ties.nrrd"))

    def test_a_refused_line_changes_nothing(self):
        with self.opened("--level=4.5") as opened:
            before = opened.ask("report")
            with self.assertRaises(session.Refused) as refused:
                opened.ask("set 5 0 0 1")
            self.assertEqual(refused.exception.code, 3)
            self.assertEqual(opened.ask("report"), before)
            self.assertEqual(opened.close(), 0)

    def test_an_ended_program_is_reported(self):
        opened = self.opened("--level=x")
        with self.assertRaisesRegex(EOFError, "status 2: isobench: bad words"):
            opened.ask("report")
        opened.close()
        opened = self.opened("--level=4.5")
        opened.ask("quit")
        with self.assertRaisesRegex(EOFError, "status 0"):
            opened.ask("report")
        opened.close()

    def test_the_demonstration(self):
        ran = subprocess.run([sys.executable, EXAMPLES / "session.py", PROGRAM], stdout=subprocess.PIPE, check=True, text=True)
        self.assertEqual(ran.stdout.splitlines()[-1], "set 64 0 0 1: refused, 3 outside")


class Places(unittest.TestCase):
    def placed(self, head, mesh, *options):
        with tempfile.NamedTemporaryFile("w") as header:
            header.write("NRRD0005\n" + head + "\n")
            header.flush()
            ran = subprocess.run([sys.executable, EXAMPLES / "place.py", header.name, *options], input=mesh, stdout=subprocess.PIPE, check=True, text=True)
        return ran.stdout

    def refused(self, head, mesh, *options):
        with tempfile.NamedTemporaryFile("w") as header:
            header.write("NRRD0005\n" + head + "\n")
            header.flush()
            ran = subprocess.run([sys.executable, EXAMPLES / "place.py", header.name, *options], input=mesh, capture_output=True, text=True)
        self.assertEqual((ran.returncode, ran.stdout), (1, ""))
        return ran.stderr

    def test_directions_and_origin(self):
        head = "space directions: (0,2,0) (3,0,0) (0,0,4)\nspace origin: (10,20,30)\n"
        self.assertEqual(self.placed(head, "v 1.000 1.000 -0.500\nf 1 2 3\n"), "v 13 22 28\nf 1 3 2\n")

    def test_spacings_and_the_other_space(self):
        self.assertEqual(self.placed("spacings: 0.5 1 2\n", "v 1.000 1.000 1.000\nf 1 2 3\n", "--ras"), "v -0.5 -1 2\nf 1 2 3\n")

    def test_the_space_of_the_header(self):
        for space, place in [("left-posterior-superior", "-1 -2 3"), ("right-anterior-superior", "1 2 3"), ("LAS", "-1 2 3")]:
            head = f"space: {space}\nspacings: 1 1 1\n"
            self.assertEqual(self.placed(head, "v 1.000 2.000 3.000\n", "--ras"), f"v {place}\n")
            self.assertEqual(self.placed(head, "v 1.000 2.000 3.000\n"), "v 1 2 3\n")
        self.assertIn("cannot change", self.refused("space: scanner-xyz\nspacings: 1 1 1\n", "v 1 2 3\n", "--ras"))

    def test_small_voxels_stay_apart(self):
        head = "spacings: 0.0000005 0.0000005 0.0000005\n"
        self.assertEqual(self.placed(head, "v 100.001 100.002 0.000\n"), "v 5.00005e-05 5.0001e-05 0\n")

    def test_a_header_without_spacing_is_refused(self):
        self.assertIn("spacings: ", self.refused("type: uint8\n", "v 1 2 3\n"))

    def test_the_formats_of_windows(self):
        head = "spacings: 2 2 2\n"
        off = "OFF\n3 1 0\n0.000 0.000 0.500\n1.000 0.000 0.000\n0.000 1.000 0.000\n3 0 1 2\n"
        self.assertEqual(self.placed(head, off), "OFF\n3 1 0\n0 0 1\n2 0 0\n0 2 0\n3 0 1 2\n")
        vtk = ("# vtk DataFile Version 3.0\nisobench\nASCII\nDATASET POLYDATA\nPOINTS 3 float\n0.000 0.000 0.500\n"
               "1.000 0.000 0.000\n0.000 1.000 0.000\nPOLYGONS 1 4\n3 0 1 2\n")
        self.assertEqual(self.placed(head, vtk), vtk.replace("0.000 0.000 0.500", "0 0 1").replace("1.000 0.000 0.000", "2 0 0")
                         .replace("0.000 1.000 0.000", "0 2 0"))
        self.assertIn("is not PLY, OBJ, OFF", self.refused(head, "solid part\n"))

    def test_a_mesh_without_vertices(self):
        empty_ply = "ply\nformat ascii 1.0\nelement vertex 0\nelement face 0\nend_header\n"
        self.assertEqual(self.placed("spacings: 2 2 2\n", empty_ply), empty_ply)
        self.assertEqual(self.placed("spacings: 2 2 2\n", ""), "")

    def test_ply_and_obj_are_the_same_mesh(self):
        head = "space directions: (1,0,0) (0,1,0) (0,0,-2)\n"
        ply = self.placed(head, extracted("5", EXAMPLES / "corner.nrrd").decode()).splitlines()
        obj = self.placed(head, extracted("5", EXAMPLES / "corner.nrrd", "--format=obj").decode()).splitlines()
        body = ply[ply.index("end_header") + 1:]
        self.assertEqual([f"v {line}" for line in body[:3]], obj[:3])
        self.assertEqual([f"f {' '.join(str(int(n) + 1) for n in line.split()[1:])}" for line in body[3:]], obj[3:])


if __name__ == "__main__":
    if len(sys.argv) > 1 and not sys.argv[1].startswith("-"):
        PROGRAM = str(pathlib.Path(sys.argv.pop(1)).resolve())
    unittest.main()

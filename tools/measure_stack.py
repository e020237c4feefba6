#!/usr/bin/env python3
"""Measures how much stack each command takes, and what becomes of a file where there is less.

    python3 tools/measure_stack.py [--program PATH] [--slabs PATH] [--check] [--write]

prints the smallest `ulimit -s`, in KB, with which each command and each line of a session works, with an empty environment
and, where setarch can do that, at fixed addresses; with --write the table of docs/limits.md, rounded up, is put there. With
--check it ends with 1 where a command takes more than that table says or than the page allows, or where a line that writes a
file ends for want of stack and the file is not as it was. PATH is a built isobench, and with --slabs a built isoslab; without
the options those of this checkout.
"""
import argparse
import pathlib
import resource
import shutil
import subprocess
import sys
import tempfile

TOP = pathlib.Path(__file__).resolve().parent.parent
PAGE = TOP / "docs" / "limits.md"
BEGIN, END = "<!-- written by tools/measure_stack.py -->\n", "<!-- end of what is written -->"

# With all of these each command works; what it takes does not grow with the volume.
MOST = 8192
# With so many, docs/limits.md says, every command of isobench works, and of isoslab, in any environment.
ENOUGH, ENOUGH_FOR_SLABS = 640, 768
LEVEL = "--level=128"
COMMANDS = {
    "`points`": (["points", LEVEL], "volume"),
    "`extract`": (["extract", LEVEL], "volume"),
    "`extract --pad`": (["extract", LEVEL, "--pad=0"], "volume"),
    "`extract --format=obj`": (["extract", LEVEL, "--format=obj"], "volume"),
    "`extract --pad --format=obj`": (["extract", LEVEL, "--pad=0", "--format=obj"], "volume"),
    "`check`": (["check", "ply"], "mesh"),
    "`gen`": (["gen", "3", "9", "9", "9"], None),
    "`soak`": (["soak", "7"], None),
}
SLAB = [LEVEL, "--from=0", "--last"]
SLAB_COMMANDS = {
    "`isoslab count`": ["count", *SLAB],
    "`isoslab write`": ["write", *SLAB, "--edges=0", "--centres=0", "file"],
}
SLAB_FILES = ["file.edges", "file.centres", "file.triangles"]
ASKING = ["set 0 0 0 9", "report", "measure", "contour 3"]
WRITING = ["ply file", "obj file", "window 0 0 0 9 9 9 ply file", "save file", "savetext file", "savehex file"]
OLD = b"what the file held before\n"


class Bench:
    """The program in a folder of its own, with a volume and its mesh."""

    def __init__(self, program, slabs, folder):
        self.program, self.slabs, self.folder = program, slabs, folder
        volume = subprocess.run([program, "gen", "3", "40", "40", "40"], stdout=subprocess.PIPE, check=True).stdout
        (folder / "volume").write_bytes(volume)
        (folder / "mesh").write_bytes(subprocess.run([program, "extract", LEVEL], input=volume, stdout=subprocess.PIPE, check=True).stdout)
        self.fixed = ["setarch", "-R"] if self.can_fix() else []

    def can_fix(self):
        return shutil.which("setarch") is not None and subprocess.run(["setarch", "-R", "true"], stderr=subprocess.DEVNULL).returncode == 0

    def run(self, words, given, size, program=None):
        """The status and the output with so many KB of stack."""
        words = [program or self.program, *words]
        words = [shutil.which(self.fixed[0]), *self.fixed[1:], *words] if self.fixed else words

        def limit():
            resource.setrlimit(resource.RLIMIT_STACK, (size * 1024, size * 1024))
            resource.setrlimit(resource.RLIMIT_CORE, (0, 0))

        ran = subprocess.run(words, input=given, stdout=subprocess.PIPE, stderr=subprocess.DEVNULL, env={}, cwd=self.folder, preexec_fn=limit)
        return ran.returncode, ran.stdout

    def does_command(self, name, size):
        words, given = COMMANDS[name]
        status, _ = self.run(words, (self.folder / given).read_bytes() if given else b"", size)
        return status in (0, 1)

    def does_slab(self, name, size):
        status, _ = self.run(SLAB_COMMANDS[name], (self.folder / "volume").read_bytes(), size, self.slabs)
        return status == 0

    def does_line(self, line, size):
        status, output = self.run(["session", LEVEL, "volume"], line.encode() + b"\n", size)
        return status == 0 and output.splitlines()[-1].startswith(b"ok")

    def changes_file(self, line, size):
        """Whether the line ends the program with so little stack, and the file is not as it was."""
        file = self.folder / "file"
        file.write_bytes(OLD)
        return not self.does_line(line, size) and file.read_bytes() != OLD

    def changes_slab(self, size):
        """Whether `isoslab write` ends with so little stack, and one of its files is not as it was."""
        for name in SLAB_FILES:
            (self.folder / name).write_bytes(OLD)
        return not self.does_slab("`isoslab write`", size) and any((self.folder / name).read_bytes() != OLD for name in SLAB_FILES)


def least(works):
    low, high = 0, MOST
    if not works(high):
        sys.exit(f"does not even work with {high} KB")
    while high - low > 1:
        middle = (low + high) // 2
        low, high = (low, middle) if works(middle) else (middle, high)
    return high


def measured(bench):
    sizes = {name: least(lambda size: bench.does_command(name, size)) for name in COMMANDS}
    for line in ASKING + WRITING:
        sizes[f"session, `{line.split()[0]}`"] = least(lambda size: bench.does_line(line, size))
    for name in SLAB_COMMANDS:
        sizes[name] = least(lambda size: bench.does_slab(name, size))
    return sizes


def rounded(size):
    """Room for addresses that are not fixed and for an environment, in steps of 64 KB."""
    return -(-(size + 32) // 64) * 64


def table(sizes):
    rows = "".join(f"| {name} | {size} |\n" for name, size in sizes.items())
    return f"| command, line of a session | KB of stack |\n|---|---|\n{rows}"


def told(page):
    rows = [row.split("|") for row in page.partition(BEGIN)[2].partition(END)[0].splitlines()[2:]]
    return {row[1].strip(): int(row[2]) for row in rows}


def faults(bench, sizes):
    known = told(PAGE.read_text())
    for name, size in sizes.items():
        if size > known.get(name, 0):
            yield f"{name} takes {size} KB of stack, and docs/limits.md says {known.get(name, 'nothing')}"
        enough = ENOUGH_FOR_SLABS if name in SLAB_COMMANDS else ENOUGH
        if rounded(size) > enough:
            yield f"{name} takes {size} KB of stack, and is to work with {enough}"
    for line in WRITING:
        changed = [size for size in range(16, sizes[f"session, `{line.split()[0]}`"], 4) if bench.changes_file(line, size)]
        if changed:
            yield f"{line}: with {changed[0]} to {changed[-1]} KB of stack it ends, and the file is not as it was"
    changed = [size for size in range(16, sizes["`isoslab write`"], 4) if bench.changes_slab(size)]
    if changed:
        yield f"isoslab write: with {changed[0]} to {changed[-1]} KB of stack it ends, and its files are not as they were"


def main():
    options = argparse.ArgumentParser()
    options.add_argument("--program", default=str(TOP / "crates" / "isobench" / "out" / "isobench"))
    options.add_argument("--slabs", default=str(TOP / "crates" / "isoslab" / "out" / "isoslab"))
    options.add_argument("--check", action="store_true")
    options.add_argument("--write", action="store_true")
    given = options.parse_args()
    with tempfile.TemporaryDirectory() as folder:
        bench = Bench(str(pathlib.Path(given.program).resolve()), str(pathlib.Path(given.slabs).resolve()), pathlib.Path(folder))
        sizes = measured(bench)
        print(table(sizes), end="")
        if given.write:
            before, _, rest = PAGE.read_text().partition(BEGIN)
            PAGE.write_text(before + BEGIN + table({name: rounded(size) for name, size in sizes.items()}) + END + rest.partition(END)[2])
        found = list(faults(bench, sizes)) if given.check else []
    for fault in found:
        print(fault, file=sys.stderr)
    return 1 if found else 0


if __name__ == "__main__":
    sys.exit(main())

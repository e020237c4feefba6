#!/usr/bin/env python3
"""A client of isobench sessions, and a small demonstration of it.

    python3 session.py PROGRAM

runs PROGRAM (a built isobench) on knot.nrrd, which is beside this script: it asks for a report, cuts the knot, asks
again, undoes the cut and writes the mesh. docs/session.md describes the protocol. It wants Python alone; for numpy there
is the package of docs/python.md.

Use it as a module too:

    with Session("isobench", "knot.nrrd", "--level=100.5") as session:
        lines, rest = session.ask("report")
"""
import io
import pathlib
import subprocess
import sys
import tempfile


class Refused(Exception):
    """The reply was an error: `code` is its number, `text` all of it. The session continues."""

    def __init__(self, text):
        super().__init__(text)
        self.code, self.text = int(text.split(" ")[0]), text


class Session:
    """A running session. One line is asked at a time, and its whole reply is read before the next one is sent."""

    def __init__(self, program, volume, *options, folder=None, pass_fds=()):
        words = [program, "session", *options, volume]
        pipes = {"stdin": subprocess.PIPE, "stdout": subprocess.PIPE, "stderr": subprocess.PIPE}
        self.process = subprocess.Popen(words, bufsize=0, cwd=folder, pass_fds=pass_fds, **pipes)
        self.replies = io.BufferedReader(self.process.stdout)

    def ask(self, line):
        """Sends one command (no comment and no blank line: these have no reply). Returns the lines before the one that
        begins with `ok`, and what that one says after `ok`. Raises Refused if the reply is an error, and EOFError if the
        program has ended."""
        try:
            self.process.stdin.write(line.encode("ascii") + b"\n")
        except BrokenPipeError:
            self.ended()
        lines = []
        while True:
            reply = self.replies.readline().decode("ascii")
            if not reply.endswith("\n"):
                self.ended()
            word, _, rest = reply.rstrip("\n").partition(" ")
            if word == "ok":
                return lines, rest
            if word == "error":
                raise Refused(rest)
            lines.append(reply.rstrip("\n"))

    def ended(self):
        """Raises EOFError with the program's exit status and message."""
        status = self.process.wait()
        raise EOFError(f"the session ended with status {status}: {self.process.stderr.read().decode().strip()}")

    def close(self):
        """Ends the session, and returns the program's exit status."""
        self.process.stdin.close()
        status = self.process.wait()
        self.replies.close()
        self.process.stderr.close()
        return status

    def __enter__(self):
        return self

    def __exit__(self, *_):
        self.close()


def main():
    if len(sys.argv) != 2:
        sys.exit(__doc__)
    volume = pathlib.Path(__file__).resolve().parent / "knot.nrrd"
    with tempfile.TemporaryDirectory() as folder:
        # NAME in a session may have no spaces, so the folder gets a link to the volume.
        (pathlib.Path(folder) / "volume.nrrd").symlink_to(volume)
        with Session(sys.argv[1], "volume.nrrd", "--level=100.5", folder=folder) as session:
            for line in ["report", "fill 50 24 26 62 37 36 0", "report", "undo", "ply knot.ply"]:
                lines, rest = session.ask(line)
                print(f"{line}: {(lines or ['ok ' + rest])[0].strip()}")
            try:
                session.ask("set 64 0 0 1")
            except Refused as refused:
                print(f"set 64 0 0 1: refused, {refused.text}")


if __name__ == "__main__":
    main()

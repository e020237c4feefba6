"""The exceptions of the package.

Each of them is also a `ValueError`, an `IndexError` or an `OSError`, so that code which catches what numpy and the
system raise catches these too.
"""
from __future__ import annotations

import signal

__all__ = ["MeshTextError", "ProgramFailed", "ProgramNotFound", "Refused", "VolumeRefused"]

MEANINGS = {
    2: "it does not know these arguments; is it another version?",
    4: "its input could not be read",
    5: "its input is too long: take a part of the volume, or every second sample",
    6: "its output could not be written; is the disk or the memory full?",
    7: "out of memory: close other programs, take a part of the volume, or every second sample",
    8: "its file could not be read",
    -signal.SIGSEGV: "is the stack too small? It needs 2 MB (`ulimit -s`)",
    -signal.SIGXFSZ: "its mesh is larger than a file may be (`ulimit -f`)",
    -signal.SIGKILL: "another process or the system ended it, as the system does when memory runs out",
}
# What other statuses of isoslab mean, or the same ones.
SLAB_MEANINGS = {
    5: "its input is too long: take more slabs",
    7: "out of memory: take more slabs, or fewer processes at a time",
    8: "a file could not be written: make room, or write to another folder",
}


class ProgramNotFound(FileNotFoundError):
    """There is no program `isobench`, or `isoslab`, to run."""


class ProgramFailed(OSError):
    """The program ended with a status that is not 0.

    Attributes
    ----------
    status : int
        Its exit status, or minus the number of the signal that ended it.
    message : str
        What it wrote to standard error, without its name.
    name : str
        The program's name.
    """

    def __init__(self, status: int, message: str = "", name: str = "isobench") -> None:
        self.status, self.message, self.name = status, message.strip().removeprefix(f"{name}: "), name
        ending = f"was ended by signal {-status}" if status < 0 else f"ended with status {status}"
        said = f" ({self.message})" if self.message else ""
        meanings = {**MEANINGS, **SLAB_MEANINGS} if name == "isoslab" else MEANINGS
        super().__init__(f"the program {name} {ending}{said}: {meanings.get(status, 'this is not expected')}")

    def __reduce__(self) -> tuple:
        return type(self), (self.status, self.message, self.name)


class VolumeRefused(ValueError):
    """The program refused the volume, the level or the padding."""


class MeshTextError(ValueError):
    """A text is not a mesh in the form in which the program writes it, or it is cut short."""


CURES = {
    1: "out of memory; the session goes on",
    2: "no such command",
    3: "a point is not in the volume",
    5: "the level's absolute value is 2**33 or more",
    6: "the level must be above the padding: open a session with a lower `pad`",
    7: "nothing to undo: the newest 128 edits can be undone",
    8: "a box of more than 1,048,576 points: fill it in parts",
    9: "the file could not be written; is the disk or the memory full?",
    10: "the line is too long",
    11: "there is no such plane in the volume",
    12: "nothing to redo",
    13: "a box needs two points or more along each axis",
}


class Refused(ValueError):
    """A session refused a command, and nothing changed. The session goes on.

    Attributes
    ----------
    code : int
        The number of the reply; docs/session.md lists them.
    text : str
        The reply without its first word, such as ``"4 value 0 255"``.
    """

    def __init__(self, text: str) -> None:
        number, *words = text.split(" ")
        self.code, self.text = int(number), text
        if self.code == 4:
            cure = f"the samples of this session lie between {words[-2]} and {words[-1]}, and the value does not"
        else:
            cure = CURES.get(self.code, "this is not expected")
        super().__init__(f"{cure} (error {text})")

    def __reduce__(self) -> tuple:
        return type(self), (self.text,)

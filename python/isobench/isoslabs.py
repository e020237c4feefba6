"""The command `isoslabs`: a mesh by slabs in four steps, for schedulers such as Slurm and GNU parallel.

``plan`` cuts a volume into slabs, ``count`` counts one, ``write`` writes one, ``join`` puts the mesh together. What they know lies
in one folder, which all machines see. Each step can be done again, and leaves no half file under a name that the next one reads.
"""
from __future__ import annotations

import argparse
import contextlib
import hashlib
import json
import os
import secrets
import sys
import zlib
from collections.abc import Iterable, Iterator, Sequence
from dataclasses import asdict, dataclass
from typing import Any

import numpy as np

from ._endings import end_of, print_text
from ._slab_runs import PARTS, Counts, Slab, Surface, counts_by, head_text, numbers_of, part_path, pieces_of, slabs_of, written_by
from ._slab_sources import KNOWN, Source, mark_of, source_of
from ._writers import in_place
from .slabs import FORMATS, level_text, lowest_in, pad_value, parts_in, put_together

__all__ = ["main"]

PLAN = "plan.json"
VERSION = 1


@dataclass(frozen=True)
class Plan:
    """What is extracted of which volume, by which slabs."""

    version: int
    volume: str
    volume_hash: str
    surface: Surface
    slabs: list[Slab]

    def text(self) -> str:
        """As it is kept."""
        return json.dumps(asdict(self), indent=1) + "\n"

    def mark(self) -> str:
        """A hash by which another plan is told."""
        return hashlib.sha256(self.text().encode()).hexdigest()

    def slab(self, number: int) -> Slab:
        """One of the slabs."""
        if not 0 <= number < len(self.slabs):
            raise ValueError(f"there is no slab {number}: the plan has slabs 0 to {len(self.slabs) - 1}")
        return self.slabs[number]

    def source(self) -> Source:
        """The volume, if it is still the one that the plan is of."""
        source = source_of(self.volume)
        if mark_of(source) != self.volume_hash:
            raise ValueError(f"{self.volume} is not the volume that the plan was made of: make the plan again")
        return source


class Summed:
    """Pieces of a file, and a sum over those that were taken."""

    def __init__(self, pieces: Iterable[bytes | np.ndarray]) -> None:
        self._pieces, self.sum = pieces, 0

    def __iter__(self) -> Iterator[bytes | np.ndarray]:
        for piece in self._pieces:
            self.sum = zlib.crc32(piece.view(np.uint8).data if isinstance(piece, np.ndarray) else piece, self.sum)
            yield piece


def main(words: Sequence[str] | None = None) -> int:
    """Run the command.

    Parameters
    ----------
    words : sequence of str, optional
        Its arguments; without them those of the process.

    Returns
    -------
    int
        Its exit status: 0 done, 1 refused, failed or interrupted. Wrong arguments end the process with 2.
    """
    asked = _parser().parse_args(words)
    return end_of("isoslabs", lambda: asked.run(asked), "take more slabs")


def _parser() -> argparse.ArgumentParser:
    parser = argparse.ArgumentParser(
        prog="isoslabs",
        description="Writes the surface of a volume of any depth by slabs, each counted and written by a process of its own.",
        epilog="K=$(isoslabs plan scan.nrrd --level 100.5 -o DIR); then `isoslabs count DIR I` for each I from 0 to K - 1; when all are "
               "done, `isoslabs write DIR I` for each; and then `isoslabs join DIR -o scan.ply`. Each can be run again.",
    )
    commands = parser.add_subparsers(metavar="COMMAND", required=True)
    plan = commands.add_parser("plan", help="cut a volume into slabs, and print how many there are")
    plan.add_argument("volume", metavar="VOLUME", help=f"{KNOWN}, of any size")
    plan.add_argument("-l", "--level", type=float, required=True, metavar="V", help="samples at or above it are inside; three decimals at most")
    plan.add_argument("--pad", type=_pad_of, metavar="P", help="the value around the volume, below the level: a whole number, or auto")
    plan.add_argument("--format", choices=sorted(FORMATS.values(), reverse=True), default="ply")
    plan.add_argument("--slabs", type=int, default=1, metavar="N", help="at least so many slabs (1)")
    plan.add_argument("-o", "--output", required=True, metavar="DIR", dest="folder", help="the folder of the plan, and of all parts")
    plan.set_defaults(run=_plan)
    for name, run, text in (("count", _count, "count what a slab has of the mesh"), ("write", _write, "write a slab's part, when all are counted")):
        command = commands.add_parser(name, help=text)
        command.add_argument("folder", metavar="DIR")
        command.add_argument("number", metavar="I", type=int, help="the slab's number, from 0 on")
        command.set_defaults(run=run)
    join = commands.add_parser("join", help="put the mesh together, when all are written")
    join.add_argument("folder", metavar="DIR")
    join.add_argument("-o", "--output", required=True, metavar="MESH")
    join.set_defaults(run=_join)
    return parser


def _pad_of(word: str) -> float | str:
    return word if word == "auto" else float(word)


def _plan(asked: argparse.Namespace) -> None:
    volume = os.path.abspath(asked.volume)
    source = source_of(volume)
    slabs = slabs_of(source.shape, asked.pad is not None, 1, asked.slabs)
    pad = pad_value(asked.pad, asked.level, lambda: min(lowest_in(source, slab) for slab in slabs))
    surface = Surface(level_text(asked.level), pad, asked.format)
    os.makedirs(asked.folder, exist_ok=True)
    _put(os.path.join(asked.folder, PLAN), Plan(VERSION, volume, mark_of(source), surface, slabs).text())
    print_text(f"{len(slabs)}\n")


def _count(asked: argparse.Namespace) -> None:
    plan = _plan_in(asked.folder)
    slab = plan.slab(asked.number)
    pieces = Summed(pieces_of(plan.source(), slab))
    counts = counts_by(slab, plan.surface, pieces)
    _keep(asked.folder, slab, "counted", {"plan": plan.mark(), "counts": asdict(counts), "sum": pieces.sum})
    print_text(counts.line())


def _write(asked: argparse.Namespace) -> None:
    plan = _plan_in(asked.folder)
    slab = plan.slab(asked.number)
    kept = [_kept(asked.folder, plan, each, "counted") for each in plan.slabs]
    numbers = numbers_of([Counts(**each["counts"]) for each in kept])
    pieces = Summed(pieces_of(plan.source(), slab))
    with contextlib.suppress(FileNotFoundError):
        os.remove(_kept_path(asked.folder, slab, "written"))
    counts = written_by(slab, plan.surface, numbers[slab.number], pieces, asked.folder)
    counted = kept[slab.number]
    if (asdict(counts), pieces.sum) != (counted["counts"], counted["sum"]):
        raise ValueError(f"slab {slab.number} is not what was counted: was {plan.volume} changed meanwhile? Make the plan again")
    lengths = {part: os.path.getsize(part_path(asked.folder, slab.number, part)) for part in PARTS}
    _keep(asked.folder, slab, "written", {"plan": plan.mark(), "counts": asdict(counts), "lengths": lengths})
    print_text(counts.line())


def _join(asked: argparse.Namespace) -> None:
    plan = _plan_in(asked.folder)
    ending = os.path.splitext(asked.output)[1].lower()
    if FORMATS.get(ending, plan.surface.format) != plan.surface.format:
        raise ValueError(f"{asked.output} ends with {ending}, and the plan is of {plan.surface.format}: choose another name, or make the plan again")
    counts = []
    for slab in plan.slabs:
        counted, written = (_kept(asked.folder, plan, slab, what) for what in ("counted", "written"))
        if written["counts"] != counted["counts"]:
            raise ValueError(f"slab {slab.number} was written before it was counted again: run `isoslabs write {asked.folder} {slab.number}`")
        _check_lengths(asked.folder, slab, written["lengths"])
        counts.append(Counts(**counted["counts"]))
    with in_place(asked.output, ending) as beside:
        put_together(beside, head_text(plan.surface, counts), parts_in(asked.folder, len(counts)), is_last_use=False)
    edges, centres, triangles = (sum(getattr(count, part) for count in counts) for part in PARTS)
    print_text(f"{asked.output}: {edges + centres} vertices, {triangles} triangles\n")


def _check_lengths(folder: str, slab: Slab, lengths: dict[str, int]) -> None:
    """Refuse parts that are not there, or are not as long as they were when they were written."""
    again = f"run `isoslabs write {folder} {slab.number}`"
    for part in PARTS:
        path = part_path(folder, slab.number, part)
        try:
            found = os.path.getsize(path)
        except FileNotFoundError as fault:
            raise ValueError(f"{path} is missing: {again}") from fault
        if found != lengths[part]:
            raise ValueError(f"{path} has {found} bytes, and {lengths[part]} were written: {again}")


def _plan_in(folder: str) -> Plan:
    """The plan in a folder."""
    path = os.path.join(folder, PLAN)
    try:
        with open(path, encoding="utf-8") as file:
            found = json.load(file)
        if found["version"] != VERSION:
            raise ValueError(f"version {found['version']}")
        slabs = [Slab(**slab) for slab in found["slabs"]]
        return Plan(VERSION, found["volume"], found["volume_hash"], Surface(**found["surface"]), slabs)
    except FileNotFoundError as fault:
        raise ValueError(f"there is no plan {path}: make it by `isoslabs plan`") from fault
    except (ValueError, KeyError, TypeError) as fault:
        raise ValueError(f"{path} is no plan of this version ({fault}): make it again by `isoslabs plan`") from fault


def _kept_path(folder: str, slab: Slab, what: str) -> str:
    return os.path.join(folder, f"{slab.number}.{what}.json")


def _keep(folder: str, slab: Slab, what: str, fields: dict[str, Any]) -> None:
    """Keep what is known of a slab."""
    _put(_kept_path(folder, slab, what), json.dumps(fields) + "\n")


def _kept(folder: str, plan: Plan, slab: Slab, what: str) -> dict[str, Any]:
    """What is known of a slab by this plan."""
    command = f"run `isoslabs {'count' if what == 'counted' else 'write'} {folder} {slab.number}`"
    try:
        with open(_kept_path(folder, slab, what), encoding="utf-8") as file:
            found = json.load(file)
        if found["plan"] != plan.mark():
            raise ValueError(f"slab {slab.number} was {what} by another plan: {command}")
        return found
    except FileNotFoundError as fault:
        raise ValueError(f"slab {slab.number} is not {what} yet: {command}") from fault
    except (json.JSONDecodeError, KeyError, TypeError) as fault:
        raise ValueError(f"what is known of slab {slab.number} is damaged: {command}") from fault


def _put(path: str, text: str) -> None:
    """Write a file under another name, and rename it."""
    beside = f"{path}.{secrets.token_hex(8)}"
    try:
        with open(beside, "w", encoding="utf-8") as file:
            file.write(text)
        os.replace(beside, path)
    finally:
        with contextlib.suppress(OSError):
            os.remove(beside)


if __name__ == "__main__":
    sys.exit(main())

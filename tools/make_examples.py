#!/usr/bin/env python3
"""Writes the volumes under examples/, and for the gate their copies with the scripts, and the replies to all of these.

    python3 tools/make_examples.py            says which are not as it would write them, and ends with 1 if any is not
    python3 tools/make_examples.py --write    writes these

corner.nrrd  2x2x2, one sample above: the least mesh that there is.
ties.nrrd    5x5x5, whose samples take few values, so that many equal a level that is whole.
saddle.nrrd  2x2x2, an ambiguous face whose two products are equal: joined, by the rule on ties.
knot.nrrd    64x64x64, a trefoil knot: each sample falls with its distance from the knot's curve.
head.nrrd    64x64x48, the head phantom of Shepp and Logan in its three-dimensional form, as scanners' files are: 16 bits,
             compressed by gzip, 3 by 3 by 4 millimetres a sample, with an origin. Air is 0, brain 200, bone 1000.

What the gate runs stands in crates/example_runs: the files in data/, and in stdout all that the calls of its program answer,
the replies to each session and then the verdicts on the meshes that it wrote.
"""
import gzip
import math
import pathlib
import struct
import sys


def head(kind, sizes, big_kind=False):
    lines = ["NRRD0004", f"type: {kind}", "dimension: 3", "sizes: %d %d %d" % sizes]
    if big_kind:
        lines.append("endian: little")
    lines += ["encoding: raw", "", ""]
    return "\n".join(lines).encode("ascii")


def corner():
    return head("uint8", (2, 2, 2)) + bytes([10, 0, 0, 0, 0, 0, 0, 0])


def ties():
    """A blob of steps: each sample is 8 less twice its distance from the middle, counted along the axes."""
    samples = []
    for z in range(5):
        for y in range(5):
            for x in range(5):
                samples.append(max(0, 8 - 2 * (abs(x - 2) + abs(y - 2) + abs(z - 2))))
    return head("uint8", (5, 5, 5)) + bytes(samples)


def saddle():
    samples = [2, -1, -4, 2, -1, -1, -1, -1]
    return head("int16", (2, 2, 2), True) + b"".join(s.to_bytes(2, "little", signed=True) for s in samples)


def curve_of_knot(count):
    points = []
    for i in range(count):
        t = 2 * math.pi * i / count
        radius = 2 + math.cos(3 * t)
        points.append((radius * math.cos(2 * t), radius * math.sin(2 * t), 1.6 * math.sin(3 * t)))
    return points


def knot(size=64):
    """The curve in the middle of the grid; 255 on it, and 40 less for each voxel of distance."""
    scale = (size - 1) / 2 / 3.8
    middle = (size - 1) / 2
    curve = [tuple(middle + scale * c for c in point) for point in curve_of_knot(720)]
    reach = 7
    least = {}
    for cx, cy, cz in curve:
        for z in range(max(0, math.ceil(cz - reach)), min(size - 1, math.floor(cz + reach)) + 1):
            for y in range(max(0, math.ceil(cy - reach)), min(size - 1, math.floor(cy + reach)) + 1):
                for x in range(max(0, math.ceil(cx - reach)), min(size - 1, math.floor(cx + reach)) + 1):
                    squared = (x - cx) ** 2 + (y - cy) ** 2 + (z - cz) ** 2
                    index = x + size * (y + size * z)
                    if squared < least.get(index, reach * reach):
                        least[index] = squared
    samples = bytearray(size ** 3)
    for index, squared in least.items():
        samples[index] = max(0, 255 - round(40 * math.sqrt(squared)))
    return head("uint8", (size, size, size)) + bytes(samples)


# Ten ellipsoids: what each adds, half axes, middle, and turn about the third axis in degrees.
ELLIPSOIDS = [
    (1000, (0.69, 0.92, 0.81), (0, 0, 0), 0),
    (-800, (0.6624, 0.874, 0.78), (0, -0.0184, 0), 0),
    (-200, (0.11, 0.31, 0.22), (0.22, 0, 0), -18),
    (-200, (0.16, 0.41, 0.28), (-0.22, 0, 0), 18),
    (100, (0.21, 0.25, 0.41), (0, 0.35, -0.15), 0),
    (100, (0.046, 0.046, 0.05), (0, 0.1, 0.25), 0),
    (100, (0.046, 0.046, 0.05), (0, -0.1, 0.25), 0),
    (100, (0.046, 0.023, 0.05), (-0.08, -0.605, 0), 0),
    (100, (0.023, 0.023, 0.02), (0, -0.606, 0), 0),
    (100, (0.023, 0.046, 0.02), (0.06, -0.605, 0), 0),
]


def head_samples(sizes):
    """The phantom over a grid from -1 to 1 along each axis, with edges that are two samples wide."""
    samples = [0.0] * (sizes[0] * sizes[1] * sizes[2])
    lines = [[2 * i / (size - 1) - 1 for i in range(size)] for size in sizes]
    for value, half, middle, degrees in ELLIPSOIDS:
        turn = math.radians(degrees)
        cos, sin = math.cos(turn), math.sin(turn)
        soft = min(half) * min(sizes) / 4
        index = 0
        for z in lines[2]:
            third = ((z - middle[2]) / half[2]) ** 2
            for y in lines[1]:
                for x in lines[0]:
                    if third < 1.6:
                        dx, dy = x - middle[0], y - middle[1]
                        squared = ((dx * cos + dy * sin) / half[0]) ** 2 + ((dy * cos - dx * sin) / half[1]) ** 2 + third
                        share = 0.5 + soft * (1 - math.sqrt(squared))
                        if share > 0:
                            samples[index] += value * min(1, share)
                    index += 1
    return [round(sample) for sample in samples]


def scan():
    """The phantom as a scanner's program writes it."""
    sizes = (64, 64, 48)
    lines = ["NRRD0005", "# the head phantom of Shepp and Logan", "type: int16", "dimension: 3", "space: left-posterior-superior",
             "sizes: %d %d %d" % sizes, "space directions: (3,0,0) (0,3,0) (0,0,4)", "kinds: domain domain domain",
             "endian: little", "encoding: gzip", "space origin: (-94.5,-94.5,-94)", "", ""]
    samples = head_samples(sizes)
    return "\n".join(lines).encode("ascii") + gzip.compress(struct.pack(f"<{len(samples)}h", *samples), mtime=0)


def unpacked(text):
    """A file as it is compared: compressed samples as what they stand for, since compressors differ."""
    front, blank, packed = text.partition(b"encoding: gzip")
    if not blank:
        return text
    rest, _, samples = packed.partition(b"\n\n")
    return front + rest + gzip.decompress(samples)


VOLUMES = {"corner": corner, "ties": ties, "saddle": saddle, "knot": knot}

# What `check` says of the meshes that a session wrote, in the order in which the gate's program asks.
VERDICTS = {"ties": ["closed", "closed"], "saddle": ["border 6", "border 6"], "knot": ["closed", "closed", "closed"]}


def written(top):
    """All files that this script writes, with their bytes. The scripts and their replies are read where they stand."""
    files = {f"examples/{name}.nrrd": volume() for name, volume in VOLUMES.items()}
    files["examples/head.nrrd"] = scan()
    answers = b""
    for name, verdicts in VERDICTS.items():
        files[f"crates/example_runs/data/{name}.nrrd"] = files[f"examples/{name}.nrrd"]
        files[f"crates/example_runs/data/{name}.session"] = (top / f"examples/{name}.session").read_bytes()
        answers += (top / f"examples/{name}.replies").read_bytes()
        answers += "".join(f"{verdict}\n" for verdict in verdicts).encode("ascii")
    files["crates/example_runs/stdout"] = answers
    return files


def main():
    words = sys.argv[1:]
    if words not in ([], ["--write"], ["--check"]):
        print(__doc__, end="")
        sys.exit(0 if words == ["--help"] else 2)
    top = pathlib.Path(__file__).resolve().parent.parent
    files = written(top)
    differ = [name for name, text in files.items()
              if not (top / name).is_file() or unpacked((top / name).read_bytes()) != unpacked(text)]
    for name in differ:
        if words == ["--write"]:
            (top / name).parent.mkdir(parents=True, exist_ok=True)
            (top / name).write_bytes(files[name])
        else:
            print(f"{name} is not as tools/make_examples.py writes it")
    sys.exit(1 if differ and words != ["--write"] else 0)


main()

"""Builds the C reader of meshes beside this file: ``python3 -m isobench.build``.

Without it the package reads meshes by numpy, into the same arrays, some four times slower. `pip install` builds it too,
and goes on without it where there is no C compiler.
"""
import pathlib
import sys

from ._build_reader import build_reader

if __name__ == "__main__":
    try:
        print(build_reader(pathlib.Path(__file__).parent))
    except OSError as fault:
        sys.exit(f"isobench.build: {fault}")

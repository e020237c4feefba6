"""Isosurfaces of numpy arrays by isobench: marching cubes with the asymptotic decider, meshes that are closed by proof.

What is proved is the program that this package runs, over the text that it reads and writes. This package is not.
"""
from ._version import VERSION
from ._writers import coinciding_in_stl, write_mesh
from .errors import MeshTextError, ProgramFailed, ProgramNotFound, Refused, VolumeRefused
from .meshes import Mesh, extract, marching_cubes
from .sessions import Session
from .slabs import extract_slabs, write_slabs
from .volumes import Volume, read_volume

__all__ = [
    "Mesh",
    "MeshTextError",
    "ProgramFailed",
    "ProgramNotFound",
    "Refused",
    "Session",
    "Volume",
    "VolumeRefused",
    "coinciding_in_stl",
    "extract",
    "extract_slabs",
    "marching_cubes",
    "read_volume",
    "write_mesh",
    "write_slabs",
]
__version__ = VERSION

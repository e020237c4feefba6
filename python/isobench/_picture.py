"""A picture of a mesh, by VTK."""
from __future__ import annotations

import os

import numpy as np

from ._writers import in_place

__all__ = ["draw_mesh"]

SIZE = 800


def draw_mesh(path: str | os.PathLike, points: np.ndarray, faces: np.ndarray) -> None:
    """Write a picture of a mesh as PNG.

    Parameters
    ----------
    path : path
    points : ndarray of float, shape (V, 3)
    faces : ndarray of int, shape (F, 3)

    Raises
    ------
    ImportError
        If VTK is not installed.
    OSError
        If there is no display to draw on, or the file cannot be written.
    """
    try:
        import vtk
        from vtk.util import numpy_support
    except ImportError as fault:
        raise ImportError("to draw pictures, install VTK (pip install vtk; Debian: apt install python3-vtk9)") from fault
    data = vtk.vtkPolyData()
    places, corners = vtk.vtkPoints(), vtk.vtkCellArray()
    places.SetData(numpy_support.numpy_to_vtk(np.ascontiguousarray(points, np.float64), deep=True))
    corners.SetData(3, numpy_support.numpy_to_vtkIdTypeArray(np.ascontiguousarray(faces, np.int64).ravel(), deep=True))
    data.SetPoints(places)
    data.SetPolys(corners)
    window = _window_of(vtk, data)
    window.Render()
    picture = vtk.vtkWindowToImageFilter()
    picture.SetInput(window)
    picture.ReadFrontBufferOff()
    writer = vtk.vtkPNGWriter()
    writer.SetInputConnection(picture.GetOutputPort())
    with in_place(path, ".png") as beside:
        writer.SetFileName(beside)
        writer.Write()
        if writer.GetErrorCode():
            raise OSError(f"the picture {os.fspath(path)} cannot be written: is its folder writable, and the disk not full?")


def _window_of(vtk, data):
    """A window off the screen that shows a mesh from the front, and a bit from above."""
    window = vtk.vtkRenderWindow()
    if window.IsA("vtkXOpenGLRenderWindow") and not os.environ.get("DISPLAY"):
        raise OSError("this VTK draws by an X server, and there is none: put `xvfb-run -a` before the command (Debian: apt install xvfb)")
    mapper, actor, renderer = vtk.vtkPolyDataMapper(), vtk.vtkActor(), vtk.vtkRenderer()
    mapper.SetInputData(data)
    actor.SetMapper(mapper)
    actor.GetProperty().SetColor(0.85, 0.6, 0.35)
    renderer.AddActor(actor)
    renderer.SetBackground(1.0, 1.0, 1.0)
    window.SetOffScreenRendering(1)
    window.SetMultiSamples(4)
    window.SetSize(SIZE, SIZE)
    window.AddRenderer(renderer)
    camera = renderer.GetActiveCamera()
    camera.SetPosition(0.4, -1.0, 0.4)
    camera.SetFocalPoint(0.0, 0.0, 0.0)
    camera.SetViewUp(0.0, 0.0, 1.0)
    renderer.ResetCamera()
    camera.Zoom(1.3)
    renderer.ResetCameraClippingRange()
    return window

"""Reconstructs closed surfaces from laser scans in numpy arrays, by the program `recon`.

    import recon
    surface = recon.build(points, scanners=[[0, 0, 2]], seen_by=0)    # (n, 3) floats, in any unit of length
    surface.vertices, surface.faces                                   # (v, 3) floats in the same units, (f, 3) indices of vertices
    colors[surface.source]                                            # colors of the points, for the vertices
    surface.check()                                                   # verifies mesh and certificate by `recon check`
    surface.contains([[0.1, 0.2, 0.3]])                               # which points are inside
    surface.votes_against_per_sight                                   # over 0.1: check the scanner positions

`recon.surface(points, scanners, colors=colors, out='mesh.glb')` does all that `recon-surface` does: it chooses what is not stated, verifies and finishes.

`recon.Refused` is raised for an error of the program, with its `status`, the `line` that it printed and the `hint` how to fix it.
`recon.Invalid`, a ValueError, is raised before the program runs, with the first invalid `row`. `recon-surface` does all of this on the
command line. The surface is exact for whole numbers: each coordinate is rounded to 1/`surface.unit`.
"""
from __future__ import annotations

import importlib
from typing import TYPE_CHECKING, Any

from recon.toolbox.one_form import VERSION

if TYPE_CHECKING:
    from recon.clouds import Frame, Spacing, frame, lone_points, spacing, thinned
    from recon.library import Sights, Surface, build, check, write_scan
    from recon.meshes import Mesh, pieces, unseen_faces
    from recon.one_call import Reconstruction, surface
    from recon.program import Invalid, Refused, program_path
    from recon.sights import along_normals, estimated_normals
    from recon.toolbox.ply_text import Refusal

__version__ = VERSION
__all__ = ['Frame', 'Invalid', 'Mesh', 'Reconstruction', 'Refusal', 'Refused', 'Sights', 'Spacing', 'Surface', 'along_normals', 'build', 'check',
           'estimated_normals', 'frame', 'lone_points', 'pieces', 'program_path', 'spacing', 'surface', 'thinned', 'unseen_faces', 'write_scan']
# Modules are imported when a name of theirs is used first, so that programs that need none of them start at once.
HOMES = {'clouds': ('Frame', 'Spacing', 'frame', 'lone_points', 'spacing', 'thinned'),
         'library': ('Sights', 'Surface', 'build', 'check', 'write_scan'),
         'meshes': ('Mesh', 'pieces', 'unseen_faces'),
         'one_call': ('Reconstruction',),
         'program': ('Invalid', 'Refused', 'program_path'),
         'sights': ('along_normals', 'estimated_normals'),
         'toolbox.ply_text': ('Refusal',)}


def __getattr__(name: str) -> Any:
    if name == 'surface':
        # the module of this name, which is called as a function
        return importlib.import_module('recon.surface')
    for module, names in HOMES.items():
        if name in names:
            return getattr(importlib.import_module('recon.' + module), name)
    raise AttributeError(f'module recon has no attribute {name}')


def __dir__() -> list[str]:
    return sorted(__all__)

"""Which mesh gets the name that was asked for: the closed one, or the open one without the faces that no scanner saw.

Outdoors the closed mesh is a tent over the site, and nothing is seen from outside. So where unseen faces are over a third of the area, the open mesh
gets the name, and the closed one gets `-closed`. Otherwise the open one gets `-seen`.

Names: is_open_first (and why) · closed_path · write_both.
"""
from __future__ import annotations

import os
from pathlib import Path
from typing import Any

import numpy as np

from recon.choices import Choices
from recon.finish import seen_part, seen_path
from recon.meshes import LEAST_PIECE
from recon.toolbox.mesh_files import Finished, write_mesh

MOST_UNSEEN = 1 / 3


def closed_path(path: str) -> str:
    """mesh-closed.glb for mesh.glb."""
    stem, ending = os.path.splitext(path)
    return stem + '-closed' + ending


def is_open_first(args: Any, unseen: np.ndarray, part: float, choices: Choices) -> bool:
    """Chooses the mesh that gets the name of the output. `part` is that of the area that no scanner saw."""
    is_open = not args.closed and (args.seen or part > MOST_UNSEEN) and len(unseen) - int(unseen.sum()) >= LEAST_PIECE
    why = 'given' if args.closed or args.seen else f'{part:.0%} of the area of the closed mesh spans space that no scanner saw'
    if is_open:
        why += f'; {os.path.basename(closed_path(os.fspath(args.output)))} is the closed mesh'
    choices.choose('mesh', 'seen' if is_open else 'closed', why)
    if not is_open and part > 0.05:
        choices.warn(f'{part:.0%} of the area spans space that no scanner saw ({int(unseen.sum()):,} faces): '
                     f'{os.path.basename(seen_path(os.fspath(args.output)))} is the mesh without them, and is open')
    return is_open


def write_both(mesh: Finished, args: Any, folder: Path, is_open: bool, choices: Choices) -> tuple[dict[Path, Path], int]:
    """Writes the closed and the open mesh into a folder, and returns where they belong, and how many faces that of the output's name has. An open
    mesh without faces is not written."""
    out = Path(args.output)
    closed, left = folder / ('closed' + out.suffix), folder / ('open' + out.suffix)
    write_mesh(os.fspath(closed), mesh)
    part = seen_part(mesh, args.fill)
    if not len(part.faces):
        choices.warn(f'nearly all faces span space that no scanner saw: {os.path.basename(seen_path(os.fspath(out)))} is not written')
        return {closed: out}, len(mesh.faces)
    write_mesh(os.fspath(left), part)
    if is_open:
        return {left: out, closed: Path(closed_path(os.fspath(out)))}, len(part.faces)
    return {closed: out, left: Path(seen_path(os.fspath(out)))}, len(mesh.faces)

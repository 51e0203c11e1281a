"""The program `recon-mesh`: where it is, and meshes that it finishes and simplifies.

Names: mesh_program_path · FinishOptions · Whole (a mesh of whole numbers) · mesh_lines (its text) · finish_mesh · move_mesh ·
simplify_mesh · has_command · run_join (joins tiles).
"""
from __future__ import annotations

import os
import re
import subprocess
from dataclasses import dataclass
from typing import Dict, List, NamedTuple, Optional

import numpy as np

from recon.program import Refused, found_program, run
from recon.toolbox.mesh_files import lines, read_mesh
from recon.toolbox.ply_text import Refusal

# no coordinate of a smoothed mesh is over it
FINEST = 1 << 23


def mesh_program_path(path: str | None = None) -> str | None:
    """Returns the path of the program: `path`, else the value of the variable RECON_MESH, else the one that was built or installed beside this
    package, else `recon-mesh` on the PATH. None if there is none."""
    return path or os.environ.get('RECON_MESH') or found_program('recon-mesh', 'mesh_main')


@dataclass
class FinishOptions:
    """The options of finishing: how many of the largest pieces are kept, whether vertices are split where sheets touch, whether edges are
    flipped, and in how many steps the mesh is smoothed, with the length that a vertex may move."""
    pieces: Optional[int] = None
    manifold: bool = False
    flips: bool = True
    steps: int = 0
    within: float = 0.0

    def words(self) -> List[str]:
        """Returns the options as `recon-mesh finish` takes them; `within` has to be in whole units of the mesh."""
        words = [f'pieces={self.pieces}'] if self.pieces else []
        words += (['manifold=yes'] if self.manifold else []) + ([] if self.flips else ['flips=no'])
        return words + ([f'smooth={self.steps}', f'within={self.within:.0f}'] if self.steps else [])


class Whole(NamedTuple):
    """A mesh of whole numbers: places (n, 3), the corners of all faces one after another, and how many of its units one unit of the mesh has that it
    was made from."""
    places: np.ndarray
    corners: np.ndarray
    fine: int


def mesh_lines(places: np.ndarray, faces: np.ndarray) -> str:
    """Returns a mesh as `recon build` writes it, the smallest index of each face first."""
    first = faces.argmin(axis=1)
    turned = faces[np.arange(len(faces))[:, None], (first[:, None] + np.arange(3)) % 3]
    rows = b''.join([*lines('%d %d %d\n', places), *lines('3 %d %d %d\n', turned)])
    return (f'ply\nformat ascii 1.0\nelement vertex {len(places)}\nproperty int x\nproperty int y\nproperty int z\n'
            f'element face {len(faces)}\nproperty list uchar int vertex_indices\nend_header\n' + rows.decode('ascii'))


def finish_mesh(path: str, options: FinishOptions, out: str, program: Optional[str] = None) -> Whole:
    """Finishes the mesh of a file into another file without comments, and returns it. Raises `Refusal` with the program's error, or without the program."""
    done = changed(['finish', path, out, *options.words()], program)
    return Whole(*read_mesh(out, FINEST), done.get('fine', 1))


def move_mesh(path: str, targets: np.ndarray, options: FinishOptions, out: str, program: Optional[str] = None) -> Whole:
    """As `finish_mesh`, but vertices move toward these places (n, 3), whole numbers in units of the result; they are in a file beside it."""
    name = out + '.targets'
    with open(name, 'w', encoding='ascii') as file:
        file.write(mesh_lines(np.clip(targets, -FINEST, FINEST), np.zeros((0, 3), np.int64)))
    done = changed(['move', path, name, out, *options.words()], program)
    return Whole(*read_mesh(out, FINEST), done.get('fine', 1))


def simplify_mesh(path: str, within: int, faces: int, out: str, program: Optional[str] = None, surface: bool = False) -> tuple[np.ndarray, np.ndarray]:
    """Simplifies the mesh of a file into another file without comments, down to a number of faces, while no corner, or with `surface` no point of either
    mesh, is farther than `within` whole units from the other. Vertices move. Returns its places and corners, as `read_mesh` does; raises `Refusal` as
    `finish_mesh` does."""
    options = [*([f'faces={faces}'] if faces else []), *(['surface=yes'] if surface else []), 'move=yes']
    changed(['simplify', path, out, f'within={within}', *options], program)
    return read_mesh(out, FINEST)


def changed(words: List[str], program: Optional[str]) -> dict[str, int]:
    """Runs the program, without comments in what it writes, and returns the numbers of its line."""
    found = mesh_program_path(program)
    if found is None:
        raise Refusal('the program recon-mesh was not found: add it to the PATH, or set the environment variable RECON_MESH to its path')
    try:
        return run([*words, 'comments=no'], found)
    except Refused as error:
        is_open = error.line.startswith('refused 28 unbalanced')
        raise Refusal(f'the mesh is not closed: recon-mesh printed {error.line}' if is_open else f'recon-mesh: {error}') from None


def has_command(name: str) -> bool:
    """Returns whether the program is there and has a command."""
    found = mesh_program_path()
    if found is None:
        return False
    said = subprocess.run([found, 'help'], stdin=subprocess.DEVNULL, stdout=subprocess.PIPE, stderr=subprocess.STDOUT, text=True).stdout
    return re.search(rf'recon-mesh {name}\b', said) is not None


def run_join(tiles: str, out: str) -> Dict[str, int]:
    """Joins the meshes of a list of tiles, which are in its folder, into another file, and returns the numbers of the program's line."""
    folder, name = os.path.split(os.path.abspath(tiles))
    program = mesh_program_path()
    try:
        return run(['join', name, os.path.abspath(out)], os.path.abspath(program) if program and os.sep in program else program, folder=folder)
    except Refused as error:
        raise Refusal(f'recon-mesh: {error}') from None

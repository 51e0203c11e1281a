"""A mesh with fewer faces beside a finished one: `recon-mesh simplify move=yes` on its whole coordinates, with its colors, and without the faces that the open
mesh of it lacks.

Names: light_path · light_mesh · open_light (without the faces that no scanner saw).
"""
from __future__ import annotations

import os
import tempfile
from typing import Optional, Sequence

import numpy as np
from scipy.spatial import cKDTree

from recon.finish import is_in_open, with_used
from recon.mesh_program import FINEST, mesh_lines, simplify_mesh
from recon.meshes import longest_edges
from recon.toolbox.mesh_files import Finished
from recon.toolbox.output_files import passing_folder
from recon.toolbox.ply_text import Refusal

# the greatest factor of the grid of a smoothed mesh, and how far its coordinates reach
MOST_FINE, REACH = 1024, 1 << 22
# where on a light face it is looked up what the full mesh has there
SPOTS = np.array([(1, 1, 1), (4, 1, 1), (1, 4, 1), (1, 1, 4), (5, 5, 1), (1, 5, 5), (5, 1, 5)], float)
SPOTS /= SPOTS.sum(axis=1, keepdims=True)
# how many places of the full mesh are looked at around a spot, and into how many parts a side of a large face of it is divided at most
NEAR, PARTS, CHUNK = 8, 8, 1 << 16


def light_path(path: str) -> str:
    """Returns the path of the light mesh beside that of a mesh."""
    stem, ending = os.path.splitext(path)
    return stem + '-light' + ending


def whole_places(mesh: Finished, unit: int, origin: Sequence[float]) -> tuple[np.ndarray, int]:
    """Returns the whole coordinates of a finished mesh, and how many of their units one unit of the mesh before has: as `recon-mesh finish`
    chose it, so that no coordinate is rounded, or 1."""
    scaled = (mesh.places - np.asarray(origin, float)) * unit
    farthest = float(np.abs(scaled).max(initial=0.0))
    fine = MOST_FINE
    while fine > 1 and farthest * fine > REACH:
        fine //= 2
    return np.rint(scaled * fine).astype(np.int64), fine


def normals_of(places: np.ndarray, faces: np.ndarray) -> np.ndarray:
    corners = places[faces]
    return np.cross(corners[:, 1] - corners[:, 0], corners[:, 2] - corners[:, 0])


def spots_of(count: int) -> np.ndarray:
    """The middles of the `count` * `count` equal parts of a triangle, as shares of its corners (n, 3)."""
    i, j = np.mgrid[:count, :count]
    rows = [((i + third) / count, (j + third) / count, i + j < count - k) for k, third in ((0, 1 / 3), (1, 2 / 3))]
    one, other = (np.concatenate([row[k][row[2]] for row in rows]) for k in (0, 1))
    return np.stack([1 - one - other, one, other], axis=1)


class Covered:
    """Places on the faces of a full mesh: the middle of each, and more on large ones."""

    def __init__(self, places: np.ndarray, faces: np.ndarray, is_left: np.ndarray) -> None:
        self.is_left, self.normals = is_left, normals_of(places, faces)
        longest = longest_edges(places, faces)
        ratio = longest / max(2 * float(np.median(longest)), 1e-300)
        parts = np.minimum(2 ** np.ceil(np.log2(np.maximum(ratio, 1))).astype(int), PARTS)
        spots, owners = [], []
        for count in np.unique(parts).tolist():
            rows, shares = np.flatnonzero(parts == count), spots_of(count)
            spots.append(np.einsum('sk,nkj->nsj', shares, places[faces[rows]]).reshape(-1, 3))
            owners.append(np.repeat(rows, len(shares)))
        self.tree, self.owner = cKDTree(np.concatenate(spots)), np.concatenate(owners)

    def lacks(self, spots: np.ndarray, normals: np.ndarray) -> np.ndarray:
        """Returns at which places the open mesh has no face: by the nearest face that faces the same side."""
        count = min(NEAR, len(self.owner))
        near = self.owner[self.tree.query(spots, count, workers=-1)[1].reshape(len(spots), count)]
        is_alike = np.einsum('nkj,nj->nk', self.normals[near], normals) > 0
        first = near[np.arange(len(near)), is_alike.argmax(axis=1)]
        return np.asarray(~self.is_left[first] | ~is_alike.any(axis=1))


def spans_unseen(mesh: Finished, fill: float, places: np.ndarray, faces: np.ndarray) -> np.ndarray:
    """Returns which faces of a light mesh lie for the most part where the open mesh of the full one has none."""
    unseen = np.zeros(len(faces), bool)
    if not len(faces) or not len(mesh.faces):
        return unseen
    full = Covered(mesh.places, mesh.faces, is_in_open(mesh, fill))
    for start in range(0, len(faces), CHUNK):
        rows = slice(start, start + CHUNK)
        corners, normals = places[faces[rows]], normals_of(places, faces[rows])
        found = sum(full.lacks(np.einsum('k,nkj->nj', part, corners), normals).astype(int) for part in SPOTS)
        unseen[rows] = 2 * found > len(SPOTS)
    return unseen


def placed(mesh: Finished, whole: np.ndarray, places: np.ndarray, scale: int, origin: Sequence[float]) -> tuple[np.ndarray, np.ndarray]:
    """Returns where the vertices of a light mesh are, from their whole coordinates, and for each the nearest vertex of the full mesh."""
    row = cKDTree(whole).query(places, workers=-1)[1] if len(places) else np.zeros(0, np.int64)
    has_moved = (whole[row] != places).any(axis=1)
    spots = mesh.places[row].astype(float)
    spots[has_moved] = places[has_moved] / scale + np.asarray(origin, float)
    return spots, row


def light_mesh(mesh: Finished, unit: int, origin: Sequence[float], within: float, faces: int, fill: float = 0.0,
               surface: bool = False) -> Finished:
    """Returns a mesh of about `faces` faces from which no vertex of a finished mesh is farther than `within`, a length of the scan; with `surface` no
    point of either mesh is farther from the other. A vertex has the columns of the nearest one of the finished mesh. Faces have the column `unseen`: 1
    where the open mesh, whose holes are filled up to `fill`, has none. Raises `Refusal` if `within` is less than one unit of the mesh."""
    whole, fine = whole_places(mesh, unit, origin)
    units = min(int(within * unit * fine), FINEST)
    if units < 1:
        raise Refusal(f'{within:g} is less than one unit of the mesh, {1 / (unit * fine):g}')
    with passing_folder(os.path.join(tempfile.gettempdir(), 'light')) as folder:
        path = os.path.join(folder, 'full.ply')
        with open(path, 'w', encoding='ascii') as file:
            file.write(mesh_lines(whole, mesh.faces))
        places, corners = simplify_mesh(path, units, faces, os.path.join(folder, 'light.ply'), surface=surface)
    spots, row = placed(mesh, whole, places, unit * fine, origin)
    light = corners.reshape(-1, 3)
    columns = [(name, kind, values[row]) for name, kind, values in mesh.columns]
    unseen = spans_unseen(mesh, fill, spots, light)
    return Finished(spots, light, columns, [('unseen', 'uchar', unseen)], mesh.vertex_of[row])


def open_light(light: Finished) -> Finished:
    """Returns a light mesh without its unseen faces, with the vertices that are left."""
    used, faces = with_used(light.faces[~np.asarray(light.face_columns[0][2], bool)], len(light.places))
    return Finished(light.places[used], faces, [(name, kind, values[used]) for name, kind, values in light.columns], vertex_of=light.vertex_of[used])

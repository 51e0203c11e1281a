"""The meshes of tiles as arrays, in scaled units, kept in files that the system maps into memory.

Names: Places (different places, found by a hash) · TileMesh (a tile's mesh, and which faces are its core's) · EdgeFaces (the faces at an edge) ·
turned (a face from its least place on).
"""
from __future__ import annotations

import os
from typing import Dict, List, Tuple

import numpy as np

from recon.toolbox.mesh_files import read_mesh
from recon.toolbox.ply_text import Refusal
from recon.toolbox.tile_boxes import Core

Place = Tuple[int, int, int]
Edge = Tuple[Place, Place]
Face = Tuple[Place, Place, Place]
OUTSIDE, SEAM, DEEP = 0, 1, 2
FACTORS = ((0x9E3779B97F4A7C15, 0xC2B2AE3D27D4EB4F, 0x165667B19E3779F9), (0xD6E8FEB86659FD93, 0xA0761D6478BD642F, 0xE7037ED1A0B428DB))


class Places:
    """Different places: `places` (k, 3), and `numbers` (n,) of the rows that they were made of."""

    def __init__(self, rows: np.ndarray) -> None:
        for self.factors in FACTORS:
            keys = self.keys_of(rows)
            order = np.argsort(keys, kind='stable')
            keys, rows_in_order = keys[order], rows[order]
            is_first = np.r_[True, keys[1:] != keys[:-1]][:len(keys)]
            number = np.cumsum(is_first) - 1
            self.keys, self.places = keys[is_first], rows_in_order[is_first]
            if (self.places[number] == rows_in_order).all():
                break
        else:
            raise ArithmeticError
        self.numbers = np.empty(len(rows), np.int64)
        self.numbers[order] = number

    def keys_of(self, rows: np.ndarray) -> np.ndarray:
        """A hash of each place. `FACTORS` has others for places that have the same one."""
        wide = rows.astype(np.int64).view(np.uint64)
        mixed = [wide[:, k] * np.uint64(factor) for k, factor in enumerate(self.factors)]
        return np.asarray(mixed[0] + mixed[1] + mixed[2])

    def find(self, rows: np.ndarray) -> np.ndarray:
        """Returns the numbers of places (n, 3); -1 for one that is not there."""
        if not len(self.keys):
            return np.full(len(rows), -1)
        keys = self.keys_of(rows)
        at = np.minimum(np.searchsorted(self.keys, keys), len(self.keys) - 1)
        found = np.flatnonzero(self.keys[at] == keys)
        numbers = np.full(len(rows), -1)
        found = found[(self.places[at[found]] == rows[found]).all(axis=1)]
        numbers[found] = at[found]
        return numbers


def kinds_of(core: Core, places: np.ndarray, faces: np.ndarray) -> np.ndarray:
    """Returns for each face whether none, some or all of its edges have their middles in the core."""
    sides = np.zeros(len(places), np.uint8)
    for k in range(3):
        sides |= np.where(places[:, k] < core.low[k], np.uint8(1 << 2 * k), np.uint8(0))
        sides |= np.where(places[:, k] >= core.high[k], np.uint8(2 << 2 * k), np.uint8(0))
    a, b, c = (sides[faces[:, k]] for k in range(3))
    kinds = np.where(a | b | c, OUTSIDE, DEEP).astype(np.uint8)
    unsure = np.flatnonzero((a | b | c != 0) & (a & b & c == 0))
    corners = places[faces[unsure]].astype(np.int64)
    inside = [core.holds(corners[:, k] + corners[:, (k + 1) % 3], 2) for k in range(3)]
    count = inside[0].astype(np.uint8) + inside[1] + inside[2]
    kinds[unsure] = np.where(count == 3, DEEP, np.where(count, SEAM, OUTSIDE))
    return kinds


class TileMesh:
    """A tile's mesh: places (n, 3), faces (m, 3), and their kinds. The arrays are kept in files in a folder."""

    def __init__(self, core: Core, path: str, folder: str) -> None:
        self.core, self.stem = core, os.path.join(folder, core.name)
        places, corners = read_mesh(path)
        faces = corners.reshape(-1, 3).astype(np.int32)
        if (faces[:, 0] == faces[:, 1]).any() or (faces[:, 1] == faces[:, 2]).any() or (faces[:, 2] == faces[:, 0]).any():
            raise Refusal(f'{path}: a face has a vertex twice: recon did not write it')
        self.count = len(faces)
        self.keep('places', places.astype(np.int32))
        self.keep('faces', faces)
        self.keep('kinds', kinds_of(core, places, faces))

        self.load()

    def keep(self, name: str, values: np.ndarray) -> None:
        np.save(f'{self.stem}.{name}.npy', values)

    def load(self) -> None:
        self.places, self.faces, self.kinds = (np.asarray(np.load(f'{self.stem}.{name}.npy', 'r')) for name in ('places', 'faces', 'kinds'))

    def of_kind(self, kind: int) -> np.ndarray:
        """Returns the faces (k, 3) of a kind."""
        return self.faces[self.kinds == kind]


def turned(face: Face) -> Face:
    """Returns a face from its least place on."""
    a, b, c = face
    return face if a < b and a < c else (b, c, a) if b < c else (c, a, b)


def edges_of(face: Face) -> List[Edge]:
    a, b, c = face
    return [(a, b) if a < b else (b, a), (b, c) if b < c else (c, b), (c, a) if c < a else (a, c)]


def face_tuples(corners: np.ndarray) -> List[Face]:
    """Returns faces, (k, 3, 3) coordinates, as tuples from the least place on."""
    rows: List[List[Place]] = [[(x, y, z) for x, y, z in face] for face in corners.tolist()]
    return [turned((a, b, c)) for a, b, c in rows]


class EdgeFaces:
    """The faces of a tile's mesh at an edge: the mesh is indexed by its vertices when it is asked for the first time."""

    def __init__(self, mesh: TileMesh) -> None:
        self.mesh = mesh
        places, faces = mesh.places, mesh.faces
        self.vertices = Places(places)
        if len(self.vertices.places) < len(places):
            raise Refusal(f'tile {mesh.core.name}: a vertex occurs twice: recon did not write it')
        self.rows = np.argsort(self.vertices.numbers)
        self.order = np.argsort(faces.ravel(), kind='stable').astype(np.int32) // 3
        self.starts = np.searchsorted(np.sort(faces.ravel()), np.arange(len(places) + 1)) if len(faces) else np.zeros(len(places) + 1, np.int64)
        self.known: Dict[Place, List[Face]] = {}

    def around(self, place: Place) -> List[Face]:
        """Returns the faces at a vertex."""
        found = self.known.get(place)
        if found is None:
            number = int(self.vertices.find(np.array([place]))[0])
            row = self.rows[number]
            faces = self.mesh.faces[self.order[self.starts[row]:self.starts[row + 1]]] if number >= 0 else self.mesh.faces[:0]
            found = self.known[place] = face_tuples(self.mesh.places[faces])
        return found

    def at(self, edge: Edge) -> List[Face]:
        """Returns the faces at an edge."""
        one, other = edge
        return [face for face in self.around(one) if other in face]

    def has(self, face: Face) -> bool:
        return face in self.around(face[0])

"""The meshes of tiles put together into one that is closed.

Names: join · JoinReport · read_tiles (the tiles of a folder whose jobs are done) · Seams (faces with edges of several cores) · Joined (the mesh that is
written).
"""
from __future__ import annotations

import os
import shutil
from concurrent.futures import ThreadPoolExecutor
from dataclasses import dataclass
from typing import Any, Dict, List, NamedTuple, TextIO, Tuple

import numpy as np

from recon.mesh_program import has_command, run_join
from recon.toolbox.output_files import passing_file, passing_folder, whole_file
from recon.toolbox.ply_text import CHUNK, Refusal
from recon.toolbox.progress import step
from recon.toolbox.tile_boxes import Core, Division, core_numbers, cores_of, read_list
from recon.toolbox.tile_gaps import Gaps
from recon.toolbox.tile_jobs import is_done
from recon.toolbox.tile_meshes import DEEP, SEAM, Edge, Face, Places, TileMesh, face_tuples
from recon.toolbox.tile_moves import Owners
from recon.toolbox.tool import Report, number_of

LINES = 20000
HEAD = """ply
format ascii 1.0
element vertex {}
property int x
property int y
property int z
element face {}
property list uchar int vertex_indices
end_header
"""


def read_tiles(folder: str) -> Tuple[Division, List[Core]]:
    """Returns the tiles of a folder, all of whose jobs are done."""
    division = read_list(os.path.join(folder, 'tiles.txt'))
    tiles = cores_of(division)
    undone = [tile.name for tile in tiles if not os.path.exists(os.path.join(folder, tile.name + '.done'))]
    if undone:
        raise Refusal(f'{number_of(len(undone), "tile")} of {len(tiles)} not done yet: {" ".join(undone[:9])}')
    stale = [tile.name for tile in tiles if not is_done(folder, tile.name)]
    if stale:
        raise Refusal(f'the scan or the mesh of {number_of(len(stale), "tile")} does not match NAME.done: remove NAME.done and '
                      f'run the jobs again: {" ".join(stale[:9])}')
    return division, tiles


class Seams(NamedTuple):
    """Faces with edges whose middles lie in several cores, (k, 3, 3) coordinates: those that all their edges' tiles have, and those that some have."""
    agreed: np.ndarray
    others: List[Face]


def seams_of(division: Division, meshes: List[TileMesh]) -> Seams:
    """Finds the faces at seams, and which of them tiles disagree about."""
    parts = [mesh.places[mesh.of_kind(SEAM)] for mesh in meshes]
    tiles = np.repeat(np.arange(len(meshes)), [len(part) for part in parts])
    corners = np.concatenate(parts).astype(np.int64)
    numbers = Places(corners.reshape(-1, 3)).numbers.reshape(-1, 3)
    first = (numbers.argmin(axis=1)[:, None] + np.arange(3)) % 3
    numbers = np.take_along_axis(numbers, first, axis=1)
    order = np.lexsort((tiles, *numbers.T))
    numbers, corners, tiles = numbers[order], corners[order], tiles[order]
    is_new = np.r_[True, (numbers[1:] != numbers[:-1]).any(axis=1)][:len(numbers)]
    starts = np.flatnonzero(is_new)
    has_repeat = ~is_new[1:] & (tiles[1:] == tiles[:-1])
    if has_repeat.any():
        raise Refusal(f'tile {meshes[tiles[1:][has_repeat][0]].core.name}: a face occurs twice: recon did not write it')
    corners, holders = corners[starts], np.diff(np.r_[starts, len(tiles)])
    a, b, c = (core_numbers(division, corners[:, k] + corners[:, (k + 1) % 3], 2) for k in range(3))
    agree = holders == 1 + (b != a).astype(np.int64) + ((c != a) & (c != b))
    return Seams(corners[agree], face_tuples(corners[~agree]))


class MovedEdges:
    """The moved edges, to ask which faces have one."""

    def __init__(self, moved: Dict[Edge, int]) -> None:
        ends = np.array([*moved], np.int64).reshape(-1, 3)
        self.places = Places(ends)
        self.keys = np.sort(self.keys_of(self.places.numbers.reshape(-1, 2)))

    @staticmethod
    def keys_of(pairs: np.ndarray) -> np.ndarray:
        return np.asarray(pairs.min(axis=1) << 32 | pairs.max(axis=1))

    def are_free(self, places: np.ndarray, faces: np.ndarray) -> np.ndarray:
        """Returns which faces (k, 3), rows of places (n, 3), have no moved edge."""
        are_free = np.ones(len(faces), bool)
        if not len(self.keys):
            return are_free
        numbers = self.places.find(places)
        some = np.flatnonzero((numbers[faces] >= 0).sum(axis=1) >= 2)
        corners = numbers[faces[some]]
        for k in range(3):
            pair = corners[:, [k, (k + 1) % 3]]
            are_free[some] &= ~(np.isin(self.keys_of(pair), self.keys) & (pair >= 0).all(axis=1))
        return are_free


def seam_faces(seams: Seams, stuck: List[Face], owners: Owners, moved: MovedEdges) -> np.ndarray:
    """Returns the faces of the joined mesh that no tile has alone, (k, 3, 3): the agreed ones without a moved edge, those that the owners of moved edges
    have at them, and of the stuck ones those that two of three owners have."""
    corners = seams.agreed
    free = corners[moved.are_free(corners.reshape(-1, 3), np.arange(3 * len(corners)).reshape(-1, 3))]
    found = {face for edge, tile in owners.moved.items() for face in owners.faces(tile).at(edge)} | set(stuck)
    voted = [face for face in sorted(found) if owners.votes(face) >= 2]
    return np.concatenate([free, np.array(voted, np.int64).reshape(-1, 3, 3)])


class Joined:
    """The mesh that is written. Vertices that several tiles may have get a number where they are first used, and all others with their tile."""

    def __init__(self, vertices: TextIO, faces: TextIO, shared: np.ndarray, others: np.ndarray) -> None:
        self.vertices, self.faces = vertices, faces
        self.places = Places(np.concatenate([shared.reshape(-1, 3), others]))
        self.numbers = np.full(len(self.places.places), -1)
        self.vertex_count = self.face_count = self.filled = 0
        self.pairs: List[np.ndarray] = []
        labels = self.places.numbers[:3 * len(shared)].reshape(-1, 3)
        self.number_shared(np.unique(labels))
        self.add_faces(labels, self.numbers[labels])

    def number_shared(self, labels: np.ndarray) -> None:
        """Writes those vertices of several tiles that have no number."""
        new = labels[self.numbers[labels] < 0]
        self.numbers[new] = self.written(self.places.places[new])

    def written(self, places: np.ndarray) -> np.ndarray:
        """Writes vertices, and returns their numbers."""
        write_lines(self.vertices, '%d %d %d\n', places)
        self.vertex_count += len(places)
        return np.arange(self.vertex_count - len(places), self.vertex_count)

    def add_faces(self, labels: np.ndarray, faces: np.ndarray) -> None:
        """Writes faces by the numbers of their vertices, the smallest first. Edges between vertices of several tiles, whose labels are the rows of
        their places, are kept, to be compared at the end; at all others a tile's faces have to be closed."""
        turned = np.take_along_axis(faces, (faces.argmin(axis=1)[:, None] + np.arange(3)) % 3, axis=1)
        write_lines(self.faces, '3 %d %d %d\n', turned)
        self.face_count += len(faces)
        pairs = labels[:, [0, 1, 1, 2, 2, 0]].reshape(-1, 2)
        is_shared = (pairs < len(self.numbers)).all(axis=1)
        self.pairs.append(pairs[is_shared])
        if len(unbalanced(pairs[~is_shared])):
            raise Refusal('the mesh of a tile is not closed: recon did not write it')

    def add_tile(self, places: np.ndarray, faces: np.ndarray) -> None:
        """Takes in faces of a tile, rows of its places."""
        used = np.flatnonzero(np.bincount(faces.ravel(), minlength=len(places)))
        labels = self.places.find(places[used])
        own, shared = np.flatnonzero(labels < 0), np.flatnonzero(labels >= 0)
        self.number_shared(labels[shared])
        numbers = np.empty_like(labels)
        numbers[shared], numbers[own] = self.numbers[labels[shared]], self.written(places[used[own]])
        labels[own] = len(self.numbers) + np.arange(len(own))
        both = np.zeros((2, len(places)), np.int64)
        both[:, used] = labels, numbers
        self.add_faces(both[0][faces], both[1][faces])

    def fill(self) -> None:
        """Writes triangles over what is still open, so that each directed edge occurs as often as its reverse."""
        gaps = Gaps()
        for start, end, count in unbalanced(np.concatenate(self.pairs)).tolist():
            (a, b, c), (d, e, f) = self.places.places[[start, end]].tolist()
            gaps.add(start, end, ((a, b, c), (d, e, f)), count)
        labels = np.array([*gaps.faces()], np.int64).reshape(-1, 3)
        self.filled = len(labels)
        self.add_faces(labels, self.numbers[labels])
        if len(unbalanced(np.concatenate(self.pairs))):
            raise ArithmeticError


def unbalanced(pairs: np.ndarray) -> np.ndarray:
    """Returns the directed edges that are missing, as rows of start, end and how often, of those (n, 2) that are there."""
    low, high = pairs.min(axis=1), pairs.max(axis=1)
    keys = (low << 33 | high << 1) + (pairs[:, 0] == low)
    keys.sort()
    starts = np.flatnonzero(np.r_[True, keys[1:] >> 1 != keys[:-1] >> 1][:len(keys)])
    if not len(starts):
        return np.zeros((0, 3), np.int64)
    counts = np.add.reduceat(2 * (keys & 1) - 1, starts)
    wrong = np.flatnonzero(counts)
    edges, counts = keys[starts[wrong]] >> 1, counts[wrong]
    ends = np.stack([edges >> 32, edges & 0xFFFFFFFF], axis=1)
    ends[counts > 0] = ends[counts > 0, ::-1]
    return np.c_[ends, np.abs(counts)]


def write_lines(file: TextIO, form: str, rows: np.ndarray) -> None:
    for start in range(0, len(rows), LINES):
        part = rows[start:start + LINES]
        file.write(form * len(part) % tuple(part.ravel().tolist()))


def deep_faces(mesh: TileMesh, moved: MovedEdges) -> Tuple[np.ndarray, np.ndarray]:
    """Returns the places of a tile, and its faces all of whose edges are at home and not moved."""
    places, faces = np.asarray(mesh.places).astype(np.int64), mesh.of_kind(DEEP)
    return places, faces[moved.are_free(places, faces)]


def outside_places(mesh: TileMesh) -> np.ndarray:
    """Returns the places of a tile's inner faces that are not in its core: other tiles may have them."""
    used = mesh.places[np.flatnonzero(np.bincount(mesh.of_kind(DEEP).ravel(), minlength=len(mesh.places)))]
    return np.asarray(used[~mesh.core.holds(used)]).astype(np.int64)


def write_joined(out: str, moved: MovedEdges, shared: np.ndarray, stuck: List[Face], meshes: List[TileMesh]) -> Joined:
    """Writes the joined mesh. At the vertices of stuck faces it may be open until it is filled."""
    others = [np.array(stuck, np.int64).reshape(-1, 3), *map(outside_places, meshes)]
    with whole_file(out) as file, passing_file(out) as vertices, passing_file(out) as faces:
        joined = Joined(vertices, faces, shared, np.concatenate(others))
        for mesh in meshes:
            joined.add_tile(*deep_faces(mesh, moved))
        joined.fill()
        file.write(HEAD.format(joined.vertex_count, joined.face_count))
        for part in (vertices, faces):
            part.seek(0)
            shutil.copyfileobj(part, file, CHUNK)
    return joined


@dataclass
class JoinReport(Report):
    """A mesh that was joined: its tiles, its points and faces, the edges whose faces are those of another tile than the one in whose core they lie,
    and the triangles that no tile has. `is_verified` where `recon-mesh` has joined it."""
    folder: str
    out: str
    tiles: int
    points: int
    faces: int
    moved: int
    filled: int
    is_verified: bool = False

    def __str__(self) -> str:
        return (f'joined {number_of(self.tiles, "tile")} of {self.folder}; wrote {number_of(self.points, "point")} and '
                f'{number_of(self.faces, "face")} to {self.out}; closed; moved {number_of(self.moved, "edge")}; filled by {number_of(self.filled, "face")}')


def join_here(folder: str, out: str, division: Division, tiles: List[Core], jobs: int) -> JoinReport:
    """Joins by arrays."""
    with passing_folder(out) as kept:
        meshes: List[Any] = [None] * len(tiles)

        def read(number: int) -> None:
            meshes[number] = TileMesh(tiles[number], os.path.join(folder, tiles[number].name + '.mesh.ply'), kept)

        with step('reading meshes', lambda: sum(mesh is not None for mesh in meshes) / len(meshes)), ThreadPoolExecutor(jobs) as pool:
            for result in [pool.submit(read, number) for number in range(len(tiles))]:
                result.result()
        with step('joining'):
            seams, owners = seams_of(division, meshes), Owners(division, meshes)
            stuck = owners.settle_groups(seams.others)
            moved = MovedEdges(owners.moved)
            shared = seam_faces(seams, stuck, owners, moved)
        owners.indexed.clear()
        with step('writing the joined mesh'):
            joined = write_joined(out, moved, shared, stuck, meshes)
    return JoinReport(folder, out, len(tiles), joined.vertex_count, joined.face_count, len(owners.moved), joined.filled)


def join(folder: str, out: str, jobs: int = 1) -> JoinReport:
    """Puts the meshes of a folder's tiles together, by `recon-mesh join` where the program has it."""
    division, tiles = read_tiles(folder)
    if not has_command('join'):
        return join_here(folder, out, division, tiles, jobs)
    with step('joining'):
        done = run_join(os.path.join(folder, 'tiles.txt'), out)
    return JoinReport(folder, out, done['tiles'], done['points'], done['faces'], done['moved'], done['filled'], True)


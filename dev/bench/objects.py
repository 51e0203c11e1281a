"""Meshes of objects to measure by: files read, places drawn on them, and distances to them, by numpy and scipy.

Names: read_object (places and faces of an OFF or PLY file) · draw_places (drawn evenly on the surface) · distances (from
places to the nearest triangle, exact) · depths_from, are_seen (what a scanner sees).
"""
from __future__ import annotations

import numpy as np
from scipy.spatial import cKDTree

from recon.toolbox.ply_text import Reader, Refusal

VIEW = 1200
PART = 5000


def read_object(path: str) -> tuple[np.ndarray, np.ndarray]:
    """Places and faces of an OFF or a PLY file of triangles."""
    with open(path, 'rb') as file:
        start = file.readline().strip()
    return read_off(path) if start == b'OFF' else read_ply(path)


def read_off(path: str) -> tuple[np.ndarray, np.ndarray]:
    with open(path, encoding='ascii') as file:
        words = [word for line in file for word in line.partition('#')[0].split()][1:]
    count, faces = int(words[0]), int(words[1])
    places = np.array(words[3:3 + 3 * count], float).reshape(-1, 3)
    rows = np.array(words[3 + 3 * count:3 + 3 * count + 4 * faces], int).reshape(-1, 4)
    return places, rows[:, 1:]


def read_ply(path: str) -> tuple[np.ndarray, np.ndarray]:
    reader = Reader(path)
    try:
        places = faces = None
        for element in reader.elements:
            rows = list(reader.rows(element))
            if element.name == 'vertex':
                columns = element.point_columns()
                places = np.array([[row[k] for k in columns] for row in rows], float)
            elif element.name == 'face':
                if any(row[0] != '3' for row in rows):
                    raise Refusal(f'{path}: a face is no triangle')
                faces = np.array([row[1:4] for row in rows], int)
    finally:
        reader.close()
    if places is None or faces is None:
        raise Refusal(f'{path} has no vertices or no faces')
    return places, faces.reshape(-1, 3)


def joined(places: np.ndarray, faces: np.ndarray) -> tuple[np.ndarray, np.ndarray]:
    """Returns the same mesh with equal places as one, without faces that have two corners at one place."""
    places, number = np.unique(places, axis=0, return_inverse=True)
    faces = number.reshape(-1)[faces]
    whole = (faces[:, 0] != faces[:, 1]) & (faces[:, 1] != faces[:, 2]) & (faces[:, 2] != faces[:, 0])
    return places, faces[whole]


def vectors_across(places: np.ndarray, faces: np.ndarray) -> np.ndarray:
    a, b, c = (places[faces[:, k]] for k in range(3))
    return np.cross(b - a, c - a)


def draw_places(draw: np.random.Generator, places: np.ndarray, faces: np.ndarray, count: int) -> tuple[np.ndarray, np.ndarray]:
    """Places drawn evenly on the surface, and their faces."""
    areas = np.linalg.norm(vectors_across(places, faces), axis=1)
    chosen = draw.choice(len(faces), count, p=areas / areas.sum())
    u, v = draw.random(count), draw.random(count)
    u, v = np.where(u + v > 1, 1 - u, u), np.where(u + v > 1, 1 - v, v)
    a, b, c = (places[faces[chosen, k]] for k in range(3))
    return a + u[:, None] * (b - a) + v[:, None] * (c - a), chosen


class Surface:
    """A mesh that distances are taken to."""

    def __init__(self, places: np.ndarray, faces: np.ndarray) -> None:
        self.corners = [places[faces[:, k]] for k in range(3)]
        self.vertices = cKDTree(places[np.unique(faces)])
        middles = sum(self.corners) / 3
        radius = np.stack([np.linalg.norm(corner - middles, axis=1) for corner in self.corners]).max(axis=0)
        sizes = np.frexp(radius)[1]
        # faces of about one size: their numbers, a tree of their middles, and how far their corners are from these at most
        self.groups = [(group, cKDTree(middles[group]), radius[group].max()) for group in (np.flatnonzero(sizes == size) for size in np.unique(sizes))]

    def distances(self, places: np.ndarray) -> tuple[np.ndarray, np.ndarray]:
        """Returns the distance of each place to the nearest triangle, and that triangle's number."""
        found, nearest = np.full(len(places), np.inf), np.zeros(len(places), int)
        for start in range(0, len(places), PART):
            part = np.arange(start, min(start + PART, len(places)))
            reach = self.vertices.query(places[part])[0] * (1 + 1e-9)
            for group, tree, radius in self.groups:
                lists = tree.query_ball_point(places[part], reach + radius)
                row = np.repeat(part, [len(it) for it in lists])
                face = group[np.concatenate([np.asarray(it, int) for it in lists])]
                far = to_triangles(places[row], *(corner[face] for corner in self.corners))
                # the last of a row that is assigned is the least
                order = np.lexsort((-far, row))
                order = order[far[order] <= found[row[order]]]
                found[row[order]], nearest[row[order]] = far[order], face[order]
        return found, nearest


def to_triangles(p: np.ndarray, a: np.ndarray, b: np.ndarray, c: np.ndarray) -> np.ndarray:
    """Returns the distance of each place to its triangle."""
    across = np.cross(b - a, c - a)
    area = (across ** 2).sum(axis=1)
    height = ((p - a) * across).sum(axis=1)
    is_over = area > 0          # a triangle without area is its edges alone
    least = np.full(len(p), np.inf)
    for start, end in ((a, b), (b, c), (c, a)):
        edge = end - start
        is_over &= (np.cross(edge, p - start) * across).sum(axis=1) >= 0
        part = ((p - start) * edge).sum(axis=1) / np.maximum((edge ** 2).sum(axis=1), 1e-300)
        foot = start + np.clip(part, 0, 1)[:, None] * edge
        least = np.minimum(least, ((p - foot) ** 2).sum(axis=1))
    return np.where(is_over, np.abs(height) / np.sqrt(np.maximum(area, 1e-300)), np.sqrt(least))


class Camera:
    """What a scanner sees of a mesh: depths in a square of pixels about the middle of the mesh."""

    def __init__(self, place: np.ndarray, places: np.ndarray, faces: np.ndarray) -> None:
        self.place = place
        self.toward = places.mean(axis=0) - place
        self.toward /= np.linalg.norm(self.toward)
        self.right = np.cross(self.toward, [0.3, 0.2, 1.0])
        self.right /= np.linalg.norm(self.right)
        self.up = np.cross(self.right, self.toward)
        seen = self.pixels(places, 1.0)
        self.reach = np.abs(np.stack(seen[:2])).max() * 1.01
        self.depths = np.full(VIEW * VIEW, np.inf)
        columns = self.pixels(places, self.reach)
        wide = np.maximum(*(np.ptp(column[faces], axis=1) for column in columns[:2])) * VIEW / 2
        sizes = np.frexp(wide)[1]
        for size in np.unique(sizes):
            self.draw(columns, faces[sizes == size], 2 ** max(int(size), 0) + 1)

    def pixels(self, places: np.ndarray, reach: float) -> tuple[np.ndarray, np.ndarray, np.ndarray]:
        far = places - self.place
        depth = far @ self.toward
        return far @ self.right / depth / reach, far @ self.up / depth / reach, depth

    def draw(self, columns: tuple[np.ndarray, np.ndarray, np.ndarray], faces: np.ndarray, side: int) -> None:
        """Keeps the least depth of the faces at each pixel, by points spread over them, a given number along a side."""
        x, y, depth = (column[faces] for column in columns)
        i, j = (part.ravel() for part in np.mgrid[0:side + 1, 0:side + 1])
        parts = np.stack([i, j, side - i - j], axis=1)[i + j <= side].T / side
        at = ((y @ parts + 1) / 2 * VIEW).astype(int) * VIEW + ((x @ parts + 1) / 2 * VIEW).astype(int)
        at, depth = at.ravel(), (depth @ parts).ravel()
        order = np.argsort(-depth)
        deepest = np.full(VIEW * VIEW, np.inf)
        deepest[at[order]] = depth[order]
        self.depths = np.minimum(self.depths, deepest)

    def are_seen(self, places: np.ndarray, slack: float) -> np.ndarray:
        x, y, depth = self.pixels(places, self.reach)
        at = ((y + 1) / 2 * VIEW).astype(int) * VIEW + ((x + 1) / 2 * VIEW).astype(int)
        return depth <= self.depths[at] + slack

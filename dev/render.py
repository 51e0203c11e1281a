"""Points and meshes drawn from one side, with numpy alone: a depth for each pixel, and shading by the angle to a light.

Names: View (where one looks from) · points_image, mesh_image (arrays of colours) · read_points (of a
text PLY).
"""
from __future__ import annotations

from typing import Callable, Sequence

import numpy as np

WHITE = np.array([1.0, 1.0, 1.0])
FRONT, BACK = np.array([0.95, 0.80, 0.62]), np.array([0.45, 0.60, 0.80])


class View:
    """A parallel view along `toward`, with z up: a square of the half side `reach` about `centre`, of `size` pixels."""

    def __init__(self, toward: Sequence[float], centre: Sequence[float], reach: float, size: int) -> None:
        self.toward = np.array(toward, float) / np.linalg.norm(toward)
        self.right = np.cross(self.toward, [0.0, 0.0, 1.0])
        self.right /= np.linalg.norm(self.right)
        self.up = np.cross(self.right, self.toward)
        self.centre, self.reach, self.size = np.array(centre, float), reach, size
        self.light = -self.toward * 0.7 + self.up * 0.5 - self.right * 0.5
        self.light /= np.linalg.norm(self.light)

    def pixels(self, places: np.ndarray) -> tuple[np.ndarray, np.ndarray, np.ndarray]:
        """Columns, rows and depths."""
        q = np.asarray(places, float) - self.centre
        half = self.size / 2
        return half + q @ self.right * half / self.reach, half - q @ self.up * half / self.reach, q @ self.toward


def read_points(path: str) -> np.ndarray:
    """Returns the coordinates of the points of a scan."""
    with open(path, encoding='ascii') as file:
        head, body = file.read().split('end_header\n')
    count = int(head.split('element vertex ')[1].split()[0])
    return np.array([line.split()[:3] for line in body.splitlines()[:count]], float)


def points_image(view: View, places: np.ndarray, tint: tuple[float, float, float] = (0.25, 0.3, 0.4)) -> np.ndarray:
    """Points as dots of one pixel each, the nearer ones darker."""
    image = np.ones((view.size, view.size, 3))
    column, row, depth = view.pixels(places)
    column, row = column.astype(int), row.astype(int)
    seen = (column >= 0) & (row >= 0) & (column < view.size) & (row < view.size)
    order = np.argsort(-depth[seen])
    near = 1 - (depth[seen] - depth[seen].min()) / max(np.ptp(depth[seen]), 1e-9)
    colours = WHITE + (np.array(tint) - WHITE) * (0.25 + 0.75 * near)[:, None]
    image[row[seen][order], column[seen][order]] = colours[order]
    return image


def corner_normals(places: np.ndarray, faces: np.ndarray) -> np.ndarray:
    """Normals at the vertices, as the sum of their faces' normals, so that noise of one point does not decide a shade."""
    a, b, c = (places[faces[:, k]] for k in range(3))
    across = np.cross(b - a, c - a)
    normals = np.zeros_like(places)
    for k in range(3):
        np.add.at(normals, faces[:, k], across)
    return normals / np.maximum(np.linalg.norm(normals, axis=1), 1e-12)[:, None]


def mesh_image(view: View, places: np.ndarray, faces: np.ndarray, keep: Callable[[np.ndarray], np.ndarray] | None = None,
               is_flat: bool = False, colors: np.ndarray | None = None) -> np.ndarray:
    """Returns a mesh, its front sides warm, or in the colors of its vertices (n, 3), and its back sides cold. `keep` tells by the middle of a face whether
    it is drawn. Flat, each face has the shade of its own direction, as printers, and viewers at their defaults, show it."""
    tints = np.broadcast_to(FRONT, (len(faces), 3)) if colors is None else colors[faces].mean(axis=1) / 255
    if is_flat:
        places, faces = places[faces].reshape(-1, 3), np.arange(faces.size).reshape(-1, 3)
    image, deepest = np.ones((view.size, view.size, 3)), np.full((view.size, view.size), np.inf)
    normals = corner_normals(places, faces)
    if keep is not None:
        is_kept = keep(places[faces].mean(axis=1))
        faces, tints = faces[is_kept], tints[is_kept]
    column, row, depth = view.pixels(places)
    corners = np.stack([column[faces], row[faces], depth[faces], (normals @ view.light)[faces]])
    width = np.maximum(np.ptp(corners[0], axis=1), np.ptp(corners[1], axis=1))
    least = 0.0
    for side in 2 ** np.arange(1, 12):
        group, step = np.flatnonzero((width >= least) & (width < side - 1)), max(1, 4000000 // side ** 2)
        for start in range(0, len(group), step):
            rows = group[start:start + step]
            draw_faces(image, deepest, corners[:, rows], tints[rows], side)
        least = side - 1
    return image


def draw_faces(image: np.ndarray, deepest: np.ndarray, corners: np.ndarray, tints: np.ndarray, side: int) -> None:
    """Draws triangles in their tints that each fit in a square of a given number of pixels. Of all that meet a pixel the nearest is kept."""
    x, y, z, light = (corners[k][:, :, None] for k in range(4))
    offset = np.arange(side * side)
    px = np.floor(x.min(axis=1)) + offset % side + 0.5
    py = np.floor(y.min(axis=1)) + offset // side + 0.5
    x0, y0, x1, y1, x2, y2 = x[:, 0], y[:, 0], x[:, 1], y[:, 1], x[:, 2], y[:, 2]
    area = (x1 - x0) * (y2 - y0) - (x2 - x0) * (y1 - y0)
    area = np.where(area == 0, 1e-300, area)
    u = ((px - x0) * (y2 - y0) - (x2 - x0) * (py - y0)) / area
    v = ((x1 - x0) * (py - y0) - (px - x0) * (y1 - y0)) / area
    size = deepest.shape[0]
    met = (u >= 0) & (v >= 0) & (u + v <= 1) & (px > 0) & (py > 0) & (px < size) & (py < size)
    far = z[:, 0] + u * (z[:, 1] - z[:, 0]) + v * (z[:, 2] - z[:, 0])
    shade = light[:, 0] + u * (light[:, 1] - light[:, 0]) + v * (light[:, 2] - light[:, 0])
    is_front = np.broadcast_to(area < 0, met.shape)[met]
    shade = np.clip(np.where(is_front, shade[met], -shade[met]), 0, 1)
    colours = (0.25 + 0.75 * shade)[:, None] * np.where(is_front[:, None], tints[np.nonzero(met)[0]], BACK)
    place, far = py[met].astype(int) * size + px[met].astype(int), far[met]
    order = np.lexsort((far, place))
    first = order[np.unique(place[order], return_index=True)[1]]
    first = first[far[first] < deepest.ravel()[place[first]]]
    deepest.ravel()[place[first]] = far[first]
    image.reshape(-1, 3)[place[first]] = colours[first]

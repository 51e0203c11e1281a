"""Values at the vertices of a mesh that formats of meshes store: normals, and colors in linear numbers.

Names: vertex_normals · linear_colors.
"""
from __future__ import annotations

import numpy as np

from recon.toolbox.vectors import TINY, across, columns_of, unit

MOST_LINEAR = 65535
# faces whose normals are computed at a time, so that all that this takes stays in the cache
CHUNK = 1 << 14


def vertex_normals(places: np.ndarray, faces: np.ndarray) -> np.ndarray:
    """Returns the normal of each vertex, of length 1, (n, 3) as float32: the sum of the normals of its faces, each as long as twice the area of its face. A vertex
    without a face, or whose sum is 0, gets 0 0 1."""
    middle = places.mean(axis=0) if len(places) else np.zeros(3)
    columns, corners = columns_of(places - middle), columns_of(faces)
    ways = np.empty((3, len(faces)))
    for rows in (slice(start, start + CHUNK) for start in range(0, len(faces), CHUNK)):
        ways[:, rows] = across(*([column[corner[rows]] for column in columns] for corner in corners))
    sums = [sum(np.bincount(corner, way, len(places)) for corner in corners) for way in ways]
    is_none = np.sqrt(sum(part * part for part in sums)) <= TINY
    sums[2] = np.where(is_none, 1.0, sums[2])
    return np.stack([part.astype(np.float32) for part in unit(sums)], axis=1)


def linear_table() -> np.ndarray:
    """The linear value, of 65,535, of each byte of a color as screens take it (sRGB, IEC 61966-2-1)."""
    share = np.arange(256) / 255
    linear = np.where(share <= 0.04045, share / 12.92, ((share + 0.055) / 1.055) ** 2.4)
    return np.asarray(np.rint(linear * MOST_LINEAR), np.uint16)


def linear_colors(colors: np.ndarray) -> np.ndarray:
    """Returns colors (n, 3) of bytes as the linear ones of glTF: (n, 4) as uint16 of 65,535, the last column full."""
    table = linear_table()
    return np.concatenate([table[colors], np.full((len(colors), 1), MOST_LINEAR, np.uint16)], axis=1)

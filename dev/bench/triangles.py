"""Triangles that are near each other and triangles that cross, for large meshes, as columns of numpy.

Names: boxes_of (boxes of triangles) · Grid (boxes that meet a box) · crossing (which pairs of triangles cross, exactly).
"""
from __future__ import annotations

from typing import Iterator

import numpy as np

from bench.crossing import cross
from recon.toolbox.vectors import across, dot

CHUNK = 200000
SMALL = 1 << 19


class Rows:
    """Places as triples of whole numbers without limits."""

    def __init__(self, places: np.ndarray) -> None:
        self.places = places

    def __getitem__(self, number: int) -> tuple[int, ...]:
        return tuple(map(int, self.places[number]))


def ranges(starts: np.ndarray, counts: np.ndarray) -> tuple[np.ndarray, np.ndarray]:
    """Returns all numbers of ranges, one range after another, and the number of the range of each."""
    owner = np.repeat(np.arange(len(counts)), counts)
    first = np.cumsum(counts) - counts
    return np.arange(len(owner)) - first[owner] + starts[owner], owner


class Grid:
    """Boxes in a grid of cubes, for each of a few sizes of cubes, so that a box lies in eight cubes at most."""
    MOST = 512

    def __init__(self, low: np.ndarray, high: np.ndarray, names: np.ndarray) -> None:
        self.low, self.high, self.names = low, high, names
        sizes = np.frexp((high - low).max(axis=1, initial=1).astype(float))[1]
        least = int(np.median(sizes)) if len(sizes) else 1
        self.levels = []
        for size in np.unique(np.maximum(sizes, least)):
            shift = int(size)
            cells, owner = cells_of(low, high, np.flatnonzero(np.maximum(sizes, least) == size), shift)
            keys = mixed(cells)
            order = np.argsort(keys, kind='stable')
            self.levels.append((shift, keys[order], owner[order]))

    def meet(self, low: np.ndarray, high: np.ndarray) -> tuple[np.ndarray, np.ndarray]:
        """Returns all pairs of a box that is asked for and a box of the grid that have a place in common, as two columns."""
        found = [part for level in self.levels for part in self.meet_level(low, high, *level)]
        return (np.concatenate([part[0] for part in found] or [np.zeros(0, int)]),
                self.names[np.concatenate([part[1] for part in found] or [np.zeros(0, int)])])

    def meet_level(self, low: np.ndarray, high: np.ndarray, shift: int, keys: np.ndarray,
                   owner: np.ndarray) -> Iterator[tuple[np.ndarray, np.ndarray]]:
        span = ((high >> shift) - (low >> shift) + 1).astype(float).prod(axis=1)
        boxes = np.unique(owner) if (span > self.MOST).any() else owner
        for row in np.flatnonzero(span > self.MOST):
            near = np.all((self.low[boxes] <= high[row]) & (self.high[boxes] >= low[row]), axis=1)
            yield np.full(near.sum(), row), boxes[near]
        asked = np.flatnonzero(span <= self.MOST)
        for start in range(0, len(asked), CHUNK // 4):
            yield self.meet_cells(low, high, asked[start:start + CHUNK // 4], shift, keys, owner)

    def meet_cells(self, low: np.ndarray, high: np.ndarray, asked: np.ndarray, shift: int, keys: np.ndarray,
                   owner: np.ndarray) -> tuple[np.ndarray, np.ndarray]:
        """Returns the same for boxes that meet few cubes. A pair is taken in the cube of the least corner of what both have."""
        cells, row = cells_of(low, high, asked, shift)
        key = mixed(cells)
        left = np.searchsorted(keys, key)
        count = np.searchsorted(keys, key, 'right') - left
        at, which = ranges(left, count)
        row, box, cells = row[which], owner[at], cells[which]
        for k in range(3):
            least = np.maximum(low[row, k], self.low[box, k])
            near = (least <= np.minimum(high[row, k], self.high[box, k])) & (least >> shift == cells[:, k])
            row, box, cells = row[near], box[near], cells[near]
        return row, box


def cells_of(low: np.ndarray, high: np.ndarray, rows: np.ndarray, shift: int) -> tuple[np.ndarray, np.ndarray]:
    """Returns the cubes that some boxes meet, and the number of the box of each."""
    first, last = low[rows] >> shift, high[rows] >> shift
    wide = last - first + 1
    at, owner = ranges(np.zeros(len(rows), int), wide.prod(axis=1))
    wide, first = wide[owner], first[owner]
    step = np.stack([at % wide[:, 0], at // wide[:, 0] % wide[:, 1], at // wide[:, 0] // wide[:, 1]], axis=1)
    return first + step, rows[owner]


def mixed(cells: np.ndarray) -> np.ndarray:
    """Returns a number for each cube; two cubes may have the same."""
    keys = cells.astype(np.uint64)
    return ((keys[:, 0] * np.uint64(0x9E3779B97F4A7C15)) ^ (keys[:, 1] * np.uint64(0xC2B2AE3D27D4EB4F))
            ^ (keys[:, 2] * np.uint64(0x165667B19E3779F9)))


def boxes_of(places: np.ndarray, triangles: np.ndarray) -> tuple[np.ndarray, np.ndarray]:
    """Returns the least and the greatest corner of the box of each triangle."""
    a, b, c = places[triangles[:, 0]], places[triangles[:, 1]], places[triangles[:, 2]]
    return np.minimum(np.minimum(a, b), c), np.maximum(np.maximum(a, b), c)


def sides(places: np.ndarray, triangles: np.ndarray, others: np.ndarray) -> np.ndarray:
    """Returns the signs of the sides of the planes of `triangles` on which the corners of `others` lie, in three columns; 0 for
    common corners. Coordinates are near each other."""
    base = places[triangles[:, 0]]
    one, two = (tuple((places[triangles[:, k]] - base).T) for k in (1, 2))
    away = across((0, 0, 0), one, two)
    columns = []
    for k in range(3):
        far = places[others[:, k]] - base
        sign = np.sign(away[0] * far[:, 0] + away[1] * far[:, 1] + away[2] * far[:, 2])
        sign[(triangles == others[:, k:k + 1]).any(axis=1)] = 0
        columns.append(sign)
    return np.stack(columns, axis=1)


def sure_sides(places: np.ndarray, triangles: np.ndarray, others: np.ndarray) -> np.ndarray:
    """Returns the same for coordinates that are far from each other, by rounded sums: 0 where their errors may reach the sign."""
    spots = places.astype(float)
    base = spots[triangles[:, 0]]
    one, two = (tuple((spots[triangles[:, k]] - base).T) for k in (1, 2))
    away = across((0, 0, 0), one, two)
    reach = np.abs(np.stack([spots[corner] - base for corner in (*triangles.T[1:], *others.T)])).max(axis=(0, 2), initial=0)
    values = np.stack([dot(away, tuple((spots[others[:, k]] - base).T)) for k in range(3)], axis=1)
    return np.sign(np.where(np.abs(values) > 64 * 2.0 ** -53 * reach[:, None] ** 3, values, 0))


def apart(signs: np.ndarray, others: np.ndarray, triangles: np.ndarray) -> np.ndarray:
    """Returns where all corners that are not common lie strictly on one side, so that the triangles do not cross."""
    own = ~(others[:, :, None] == triangles[:, None, :]).any(axis=2)
    return ((signs > 0) | ~own).all(axis=1) & own.any(axis=1) | ((signs < 0) | ~own).all(axis=1) & own.any(axis=1)


def crossing(places: np.ndarray, triangles: np.ndarray, others: np.ndarray) -> np.ndarray:
    """Returns which pairs of triangles cross, each as the numbers of its three corners."""
    found = np.zeros(len(triangles), bool)
    for start in range(0, len(triangles), CHUNK):
        part = slice(start, start + CHUNK)
        found[part] = crossing_part(places, triangles[part], others[part])
    return found


def crossing_part(places: np.ndarray, triangles: np.ndarray, others: np.ndarray) -> np.ndarray:
    reach = np.abs(places[np.concatenate([triangles, others], axis=1)] - places[triangles[:, :1]]).max(axis=(1, 2), initial=0)
    left = np.flatnonzero(reach < SMALL)
    on_one = sides(places, triangles[left], others[left])
    keep = ~apart(on_one, others[left], triangles[left])
    left, on_one = left[keep], on_one[keep]
    on_other = sides(places, others[left], triangles[left])
    keep = ~apart(on_other, triangles[left], others[left])
    left, on_one, on_other = left[keep], on_one[keep], on_other[keep]
    met, is_open = edges_meet(places, triangles[left], others[left], on_one)
    met_too, is_open_too = edges_meet(places, others[left], triangles[left], on_other)
    found, rows, far = np.zeros(len(triangles), bool), Rows(places), np.flatnonzero(reach >= SMALL)
    found[left] = met | met_too
    for one, other in ((triangles, others), (others, triangles)):
        far = far[~apart(sure_sides(places, one[far], other[far]), other[far], one[far])]
    for k in np.r_[left[(is_open | is_open_too) & ~(met | met_too)], far]:
        found[k] = cross(rows, triangles[k].tolist(), others[k].tolist())
    return found


def edges_meet(places: np.ndarray, triangles: np.ndarray, others: np.ndarray, signs: np.ndarray) -> tuple[np.ndarray, np.ndarray]:
    """Returns whether an edge of `others` without a common corner meets its triangle, where `signs` are the sides of its ends; and
    whether that is left open, since an edge lies in the plane or two corners are common."""
    common = (others[:, :, None] == triangles[:, None, :]).any(axis=2)
    met, is_open = np.zeros(len(triangles), bool), common.sum(axis=1) >= 2
    for i, j in ((0, 1), (1, 2), (2, 0)):
        counts = ~common[:, i] & ~common[:, j] & (signs[:, i] * signs[:, j] <= 0)
        is_open |= counts & (signs[:, i] == 0) & (signs[:, j] == 0)
        rows = np.flatnonzero(counts)
        base = places[others[rows, i]]
        q, a, b, c = (tuple((places[corner] - base).T) for corner in (others[rows, j], *triangles[rows].T))
        turns = np.stack([np.sign(dot(across((0, 0, 0), q, one), other)) for one, other in ((a, b), (b, c), (c, a))])
        met[rows[(turns.min(axis=0, initial=1) >= 0) | (turns.max(axis=0, initial=-1) <= 0)]] = True
    return met & ~is_open, is_open

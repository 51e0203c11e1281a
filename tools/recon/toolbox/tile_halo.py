"""Halo points: points outside of a tile whose lines of sight cross it, and so show where the tile is empty. They are spread over the
tile, for each scanner.

Names: Halo (the lines of sight of a sample).
"""
from __future__ import annotations

from typing import Tuple

import numpy as np

from recon.toolbox.tile_boxes import Core
from recon.toolbox.tile_rows import Rows

PART = 100000
# of a cube, in a number for it and a scanner
FACTORS = (1 << 40, 1 << 28, 1 << 16)


class Halo:
    """The lines of sight of a sample: its points, and the positions of their scanners (k, 3)."""

    def __init__(self, sample: Rows, positions: np.ndarray) -> None:
        self.sample = sample
        self.places = sample.table['place'].astype(float)
        self.owner = np.repeat(np.arange(len(self.places)), sample.table['count'])
        self.ends = positions[sample.scanners].astype(float)

    def points(self, core: Core, own: np.ndarray, overlap: int, most: int) -> Rows:
        """Returns at most `most` points of the sample that are not near a core, whose sights enter the box around its own points (n, 3)."""
        if not len(own) or not most:
            return self.sample.take(np.zeros(0, np.int64))
        low, high = own.min(axis=0), own.max(axis=0)
        sights = np.flatnonzero(~core.within(self.places, overlap)[self.owner])
        parts = [self.entering(low, high, sights[start:start + PART]) for start in range(0, len(sights), PART)]
        found = np.concatenate([np.zeros(0, np.int64), *(part for part, _ in parts)])
        middles = np.concatenate([np.zeros((0, 3)), *(middle for _, middle in parts)])
        size = max(float((high - low).max()), 1.0)
        rows = self.owner[found[spread((middles - low) / size, self.sample.scanners[found], most)]]
        _, first = np.unique(rows, return_index=True)
        return self.sample.take(rows[np.sort(first)[:most]])

    def entering(self, low: np.ndarray, high: np.ndarray, sights: np.ndarray) -> Tuple[np.ndarray, np.ndarray]:
        """Returns those of some sights that meet a box, and the middles (k, 3) of their parts in it."""
        start, ends = self.places[self.owner[sights]], self.ends[sights]
        enters, leaves = spans(low, high, start, ends)
        hit = np.flatnonzero(enters <= leaves)
        middle = (enters[hit] + leaves[hit]) / 2
        return sights[hit], start[hit] + (ends[hit] - start[hit]) * middle[:, None]


def spread(places: np.ndarray, scanners: np.ndarray, most: int) -> np.ndarray:
    """Returns the rows of places (k, 3), from 0 to 1, in an order whose first `most` are spread: first one row of each scanner in each cube, then a second
    one, and so on. A plane through all places has about as many cubes as a scanner may have rows."""
    if not len(places):
        return np.zeros(0, np.int64)
    count = max(2.0, np.sqrt(most / len(np.unique(scanners))))
    keys = np.floor(places * count).astype(np.int64) @ np.array(FACTORS) + scanners
    order = np.argsort(keys, kind='stable')
    is_first = np.r_[True, keys[order[1:]] != keys[order[:-1]]]
    rows = np.arange(len(keys))
    rank = np.empty(len(keys), np.int64)
    rank[order] = rows - np.maximum.accumulate(np.where(is_first, rows, 0))
    return np.argsort(rank, kind='stable')


def spans(low: np.ndarray, high: np.ndarray, start: np.ndarray, ends: np.ndarray) -> Tuple[np.ndarray, np.ndarray]:
    """Returns where segments between two points (n, 3) enter a box and where they leave it, as parts of their lengths; the first is greater where they do
    not meet it."""
    enters, leaves = np.zeros(len(start)), np.ones(len(start))
    for axis in range(3):
        begin, along = start[:, axis], ends[:, axis] - start[:, axis]
        is_flat = along == 0
        with np.errstate(divide='ignore', invalid='ignore'):
            one, two = (low[axis] - begin) / along, (high[axis] - begin) / along
        is_in = (low[axis] <= begin) & (begin <= high[axis])
        enters = np.maximum(enters, np.where(is_flat, np.where(is_in, 0, 2), np.minimum(one, two)))
        leaves = np.minimum(leaves, np.where(is_flat, 1, np.maximum(one, two)))
    return enters, leaves

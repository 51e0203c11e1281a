"""What points say of themselves: how far they are apart, how noisy they are, and which origin and unit fit them.

Names: spacing (distance and noise) · centered (blocks of points) · tree_of (to find nearest points) · curve_of (an order in which near points are
near each other) · box_of · frame (origin and unit) · lone_points · surrounding (how much of the directions around a scanner has points) ·
thinning_side, thinned (one point a cube).
"""
from __future__ import annotations

from typing import NamedTuple

import numpy as np
from scipy.spatial import cKDTree

from recon.program import Invalid
from recon.toolbox.orders import curve_order

LIMIT = 2_097_151
MOST_UNIT = 1_000_000
SAMPLE = 4000
NEAR = 6
AROUND = 24
DIRECTIONS = 200
CURVE_BITS = 14
REACH = 8
CHUNK = 1 << 13
BLOCK = 32


class Spacing(NamedTuple):
    """The median distance of a point to its six nearest neighbors, and the noise: the median deviation of 24 neighbors from a
    quadratic surface fitted to them. Both in the units of the points."""
    distance: float
    noise: float


class Frame(NamedTuple):
    """An origin (3,) and a unit: a coordinate x is rounded to the integer nearest to (x - origin) * unit."""
    origin: np.ndarray
    unit: int


def spacing(points: np.ndarray, tree: cKDTree | None = None) -> Spacing:
    """Estimates the spacing and the noise of the points (n, 3) from a sample of 4,000 of them. Detail as small as the spacing counts as
    noise. Both are 0 for fewer than two different points; the noise is 0 for fewer than 12. `tree` is `tree_of(points)`, if it is
    known."""
    points = np.asarray(points, float)
    if len(points) < 2:
        return Spacing(0.0, 0.0)
    some = points[np.sort(np.random.default_rng(1).permutation(len(points))[:SAMPLE])]
    apart, near = (tree_of(points) if tree is None else tree).query(some, min(AROUND + 1, len(points)), workers=-1)
    width = apart[:, 1:NEAR + 1].mean(axis=1)
    # points that are too far out for a distance are left out
    near_ones, whole = width[np.isfinite(width)], np.isfinite(apart).all(axis=1)
    distance = float(np.median(near_ones)) if len(near_ones) else 0.0
    if near.shape[1] < 12 or not distance or not whole.any():
        return Spacing(distance, 0.0)
    return Spacing(distance, float(np.median(deviations(points[near[whole]]))))


def centered(blocks: np.ndarray) -> tuple[np.ndarray, np.ndarray]:
    """Returns blocks of points (n, k, 3) moved to their middles and divided so that coordinates are at most 1, and what each was divided by. So no
    square of a coordinate overflows."""
    block = blocks - blocks.mean(axis=1, keepdims=True)
    reach = np.maximum(np.abs(block).max(axis=(1, 2)), 1e-300)
    return block / reach[:, None, None], reach


def deviations(blocks: np.ndarray) -> np.ndarray:
    """The deviation of each block of points (n, k, 3) from the surface of second degree through it. Deviations from a plane would
    count curvature as noise."""
    block, reach = centered(blocks)
    turned = np.einsum('nki,nij->nkj', block, np.linalg.eigh(np.einsum('nki,nkj->nij', block, block))[1])
    z, x, y = (turned[:, :, k] for k in range(3))
    terms = np.stack([np.ones_like(x), x, y, x * x, x * y, y * y], axis=2)
    left = z - np.einsum('nki,ni->nk', terms, np.einsum('nij,nj->ni', np.linalg.pinv(terms), z))
    return np.sqrt((left ** 2).sum(axis=1) / (blocks.shape[1] - 6)) * reach


def box_of(points: np.ndarray) -> tuple[np.ndarray, np.ndarray]:
    """Returns the least and the greatest coordinates of points, column by column, which numpy does four times as fast as by rows."""
    return np.array([points[:, k].min() for k in range(3)]), np.array([points[:, k].max() for k in range(3)])


def frame(points: np.ndarray, scanners: np.ndarray, apart: float | None = None) -> Frame:
    """Returns an origin, 0 if all coordinates are in range without one, and a unit: the power of ten at which the spacing is 100 to 1000
    units, or the largest below it at which points and scanners are in range. `apart` is the spacing, if it is known. Raises `Invalid`
    if the extent is over 4,194,302."""
    boxes = [box_of(rows) for rows in (np.asarray(points, float).reshape(-1, 3), np.asarray(scanners, float).reshape(-1, 3)) if len(rows)]
    if not boxes:
        return Frame(np.zeros(3), 1)
    apart = spacing(points).distance if apart is None else apart
    low, high = np.min([box[0] for box in boxes], axis=0), np.max([box[1] for box in boxes], axis=0)
    size = max(float((high - low).max()), apart)
    unit = 10 ** int(np.clip(np.floor(np.log10(1000 / apart)) if apart > 0 else 0, 0, 6))
    while unit > 1 and size / 2 * unit * 1.05 > LIMIT:
        unit //= 10
    if max(np.abs(low).max(), np.abs(high).max()) * unit * 1.01 <= LIMIT:
        return Frame(np.zeros(3), unit)
    return Frame(origin_for(low, high, unit), unit)


def origin_for(low: np.ndarray, high: np.ndarray, unit: int) -> np.ndarray:
    """The middle of a box, rounded as coarsely as all still fits."""
    middle, size = (low + high) / 2, float((high - low).max())
    coarse = 10.0 ** np.floor(np.log10(size / 2)) if size else 1.0
    for origin in (np.round(middle / coarse) * coarse, np.round(middle), middle):
        if max(np.abs(low - origin).max(), np.abs(high - origin).max()) * unit <= LIMIT:
            return np.asarray(origin, float)
    raise Invalid(f'the scan is {size * unit:.4g} units across at unit={unit}, over the limit of {2 * LIMIT:,}',
                  hint='divide its coordinates' if unit == 1 else 'use a smaller unit')


def tree_of(points: np.ndarray) -> cKDTree:
    """Returns the tree by which nearest points are found. To balance it and to shrink its boxes would double the time to make it."""
    return cKDTree(points, balanced_tree=False, compact_nodes=False)


def curve_of(points: np.ndarray) -> np.ndarray:
    """Returns an order of the points along a curve, on which near ones are mostly near each other."""
    some = points[::max(1, len(points) // SAMPLE)]
    low, high = np.percentile(some, 1, axis=0), np.percentile(some, 99, axis=0)
    side = max(float((high - low).max()), 1e-300)
    with np.errstate(over='ignore'):
        cells = np.clip((points - low) / side + 0.5, 0, 2) * (((1 << CURVE_BITS) - 1) / 2)
    return curve_order(cells.astype(np.int32), CURVE_BITS)


def curve_widths(points: np.ndarray) -> np.ndarray:
    """Returns the mean distance of each point to the six nearest of the sixteen that are around it in their order. Along a curve that is a sixth more
    than to the six nearest of all on the median, and never less."""
    scale = max(float(np.abs(points).max()), 1e-300)
    beyond = np.full((3, REACH), np.inf, np.float32)
    columns = np.concatenate([beyond, (points / scale).T.astype(np.float32), beyond], axis=1)
    widths = np.empty(len(points))
    for start in range(0, len(points), CHUNK):
        count = min(CHUNK, len(points) - start)
        nearest = np.full((NEAR, count), np.inf, np.float32)
        for step in (*range(REACH), *range(REACH + 1, 2 * REACH + 1)):
            way = columns[:, start + step:start + step + count] - columns[:, start + REACH:start + REACH + count]
            far = way[0] * way[0] + way[1] * way[1] + way[2] * way[2]
            for least in nearest:
                later = np.maximum(least, far)
                np.minimum(least, far, out=least)
                far = later
        widths[start:start + count] = np.sqrt(nearest).mean(axis=0)
    return widths * scale


def medians(values: np.ndarray, count: int) -> np.ndarray:
    """Returns the median of each `count` values that follow on each other, for each of them; of what is left at the end that of the ones before."""
    whole = len(values) // count * count
    if not whole:
        return np.full(len(values), np.median(values))
    usual = np.repeat(np.median(values[:whole].reshape(-1, count), axis=1), count)
    return np.r_[usual, np.full(len(values) - whole, usual[-1])]


def lone_points(points: np.ndarray, factor: float = 4.0, tree: cKDTree | None = None, order: np.ndarray | None = None) -> np.ndarray:
    """Returns which points are more than `factor` times as far from their six nearest as the neighborhoods of their twelve nearest are wide on the
    median, and as one of the six is. Nearest points are searched for points alone that are half as many times as far from those around them on a
    curve as is usual there, or in a hundredth of the curve. `tree` is `tree_of(points)` and `order` is `curve_of(points)`, if they are known."""
    tree, order = tree_of(points) if tree is None else tree, curve_of(points) if order is None else order
    widths = np.empty(len(points))
    widths[order] = along = curve_widths(points[order] - np.median(points[::max(1, len(points) // SAMPLE)], axis=0))
    usual = factor / 2 * np.minimum(medians(along, BLOCK), medians(along, max(BLOCK, len(points) // 100)))
    at = np.flatnonzero(~(along <= usual))
    own = tree.query(points[order[at]], min(NEAR + 1, len(points)), workers=-1)[0][:, 1:].mean(axis=1)
    is_wide = ~(own <= usual[at])
    rows, own, lone = order[at[is_wide]], own[is_wide], np.zeros(len(points), bool)
    if len(rows):
        near = np.minimum(tree.query(points[rows], min(2 * NEAR + 1, len(points)), workers=-1)[1][:, 1:], len(points) - 1)
        others = np.unique(near)
        widths[others] = tree.query(points[others], min(NEAR + 1, len(points)), workers=-1)[0][:, 1:].mean(axis=1)
        lone[rows] = own > factor * np.maximum(np.median(widths[near], axis=1), widths[near[:, :NEAR]].min(axis=1))
    return lone


def surrounding(points: np.ndarray, scanner: np.ndarray) -> float:
    """Returns in which part of 200 directions around a scanner there are points: about 1 in a room, under 0.6 outdoors."""
    with np.errstate(over='ignore', invalid='ignore'):
        way = points - scanner
        long = np.linalg.norm(way, axis=1)
    is_usual = (long > 0) & (long < 1e150)
    way = way[is_usual] / long[is_usual][:, None]
    if not len(way):
        return 0.0
    k = np.arange(DIRECTIONS) + 0.5
    z, turn = 1 - 2 * k / DIRECTIONS, np.pi * (1 + 5 ** 0.5) * k
    ball = np.stack([np.cos(turn) * np.sqrt(1 - z * z), np.sin(turn) * np.sqrt(1 - z * z), z], axis=1)
    some = way[np.random.default_rng(1).permutation(len(way))[:50_000]]
    return len(np.unique(cKDTree(ball).query(some)[1])) / DIRECTIONS


def cubes_of(points: np.ndarray, side: float) -> np.ndarray:
    """A number for the cube of each point."""
    cube = np.floor(points / side).astype(np.int64)
    cube -= cube.min(axis=0)
    return np.asarray((cube[:, 0] << 42) + (cube[:, 1] << 21) + cube[:, 2])


def thinned(points: np.ndarray, side: float) -> np.ndarray:
    """Returns the rows of the first point in each cube of this side, ascending."""
    return np.sort(np.unique(cubes_of(points, side), return_index=True)[1])


def thinning_side(points: np.ndarray, most: int, apart: float) -> float:
    """Returns the side of the cubes that leave at most `most` points, nearly as many, rounded up to three digits."""
    low, high = apart / 4, apart * 4
    while len(np.unique(cubes_of(points, high))) > most:
        high *= 2
    for _ in range(12):
        side = (low * high) ** 0.5
        low, high = (low, side) if len(np.unique(cubes_of(points, side))) <= most else (side, high)
    digit = 10.0 ** (np.floor(np.log10(high)) - 2)
    return float(f'{np.ceil(high / digit) * digit:.3g}')

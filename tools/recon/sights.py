"""Scanners for points without known ones: along normals, from far above, or along normals that are estimated.

Names: along_normals (one spacing off, at most 65,536 positions) · lies_flat, above (airborne scans) · estimated_normals.
"""
from __future__ import annotations

import numpy as np
from scipy.sparse import coo_matrix
from scipy.sparse.csgraph import breadth_first_order, connected_components, minimum_spanning_tree
from scipy.spatial import cKDTree

from recon.clouds import centered
from recon.program import Invalid

SCANNER_LIMIT = 65_536
TURNS = 3


def along_normals(points: np.ndarray, normals: np.ndarray, far: float) -> tuple[np.ndarray, np.ndarray]:
    """Returns scanner positions (k, 3) `far` off the points along their normals, and the row of the scanner of each point. Over 65,536
    points share positions: those whose positions lie in one cube and whose normals point the same way (in one of 27 sectors) get the
    mean. Raises `Invalid` for a normal of length 0."""
    long = np.linalg.norm(normals, axis=1)
    if not (long > 0).all():
        row = int(np.flatnonzero(~(long > 0))[0])
        raise Invalid(f'the normal of point {row} is 0 0 0 or nan', row, 'remove the point')
    ways = normals / long[:, None]
    spots = points + ways * far
    if len(spots) <= SCANNER_LIMIT:
        return spots, np.arange(len(spots))
    sector = np.minimum(np.floor((ways + 1) * TURNS / 2), TURNS - 1).astype(np.int64) @ np.array([TURNS * TURNS, TURNS, 1])
    side, groups = far / 2, np.zeros(0, np.int64)
    while True:
        cube = np.floor((spots - spots.min(axis=0)) / side).astype(np.int64)
        shape = [int(x) + 1 for x in cube.max(axis=0)]
        if shape[0] * shape[1] * shape[2] < 1 << 57:
            keys = (cube[:, 0] * shape[1] + cube[:, 1]) * shape[2] + cube[:, 2]
            groups = np.unique(keys * TURNS ** 3 + sector, return_inverse=True)[1]
            if groups.max() < SCANNER_LIMIT:
                break
        side *= 1.2
    counts = np.bincount(groups)
    return np.stack([np.bincount(groups, spots[:, k]) / counts for k in range(3)], axis=1), groups


def lies_flat(points: np.ndarray, apart: float) -> float:
    """Returns in which part of the columns of three spacings the points have one height, if they lie as ground seen from above does: at
    least 50 columns, and less than 0.6 times as high as wide. Else 0."""
    side = 3 * apart
    cell = np.floor((points[:, :2] - points[:, :2].min(axis=0)) / side).astype(np.int64)
    at = np.unique(cell[:, 0] << 32 | cell[:, 1], return_inverse=True)[1]
    low, high = np.full(at.max() + 1, np.inf), np.full(at.max() + 1, -np.inf)
    np.minimum.at(low, at, points[:, 2])
    np.maximum.at(high, at, points[:, 2])
    size = np.ptp(points, axis=0)
    if size[2] >= 0.6 * size[:2].max() or len(low) <= 50:
        return 0.0
    return float(np.mean(high - low <= 2 * side))


def above(points: np.ndarray) -> np.ndarray:
    """Returns a position (3,) over the middle of the points, three times as high over them as they are wide."""
    low, high = points.min(axis=0), points.max(axis=0)
    size = max(high[0] - low[0], high[1] - low[1])
    return np.round([(low[0] + high[0]) / 2, (low[1] + high[1]) / 2, high[2] + 3 * size + 1e-4], 4)


def estimated_normals(points: np.ndarray, around: int = 16) -> np.ndarray:
    """Returns normals (n, 3) of planes through the nearest points, turned alike along a least spanning tree, and so that most point away
    from the middle. They are a guess: sheets nearer to each other than a few spacings may come out wrong."""
    near = cKDTree(points).query(points, min(around, len(points)))[1]
    block, _ = centered(points[np.minimum(near, len(points) - 1)])
    normals = np.linalg.eigh(np.einsum('nki,nkj->nij', block, block))[1][:, :, 0]
    one, other = np.repeat(np.arange(len(points)), near.shape[1] - 1), near[:, 1:].ravel()
    cost = 1.0001 - np.abs(np.einsum('ij,ij->i', normals[one], normals[other]))
    tree = minimum_spanning_tree(coo_matrix((cost, (one, other)), (len(points),) * 2).tocsr())
    count, part = connected_components(tree, directed=False)
    starts = np.unique(part, return_index=True)[1]
    for number in range(count):
        order, before = breadth_first_order(tree, starts[number], directed=False)
        turn_alike(normals, order, before)
        away = np.einsum('ij,ij->i', normals[order], points[order] - points[order].mean(axis=0)).mean()
        normals[order] *= -1 if away < 0 else 1
    return np.asarray(normals)


def turn_alike(normals: np.ndarray, order: np.ndarray, before: np.ndarray) -> None:
    """Turns each normal to the side of the one that it was reached from."""
    later = order[1:]
    agree = np.einsum('ij,ij->i', normals[later], normals[before[later]]) >= 0
    sign = np.ones(len(normals), np.int8)
    for point, parent, is_alike in zip(later.tolist(), before[later].tolist(), agree.tolist()):
        sign[point] = sign[parent] if is_alike else -sign[parent]
    normals[order] *= sign[order][:, None]

"""Places for the vertices of a smoothed mesh at which it has back what smoothing took away beside the noise.

A scanned point errs along its line of sight, so across the surface it errs by the noise times the cosine between sight and normal. The
residual of a vertex is how far its scanned place is from the smoothed surface, along the normal. `twiced` adds the mean of the residuals
around, weighted by the inverse of their variances (twicing: Tukey 1977). `filtered` returns a vertex further toward its scanned place
where the residuals around are larger than the noise explains (a local Wiener filter: Lee 1980).

Names: Residuals · twiced · filtered · wanted_places (what `recon-surface` asks of `recon-mesh`).
"""
from __future__ import annotations

from dataclasses import dataclass

import numpy as np
from scipy.sparse import csr_matrix

# the least part of the noise that a point errs across the surface, however its line of sight runs
FLOOR = 0.15
# a squared residual of normal distribution has this median, in parts of its variance
MEDIAN = 0.455
# by how much a variance that is estimated by medians is too small, as some of the noise went into the smoothed surface
RAISED = 2.4
# how much larger than the noise explains residuals have to be before they count as detail
OVER = 1.2
CLASSES = 10


@dataclass
class Residuals:
    """A smoothed mesh beside its scanned places: the normals of length 1 at vertices (n, 3), the residual of each vertex along its normal (n), the
    variance of its error in parts of the squared noise (n), and the neighbors of vertices, weighted by how alike their normals are."""
    normals: np.ndarray
    across: np.ndarray
    variance: np.ndarray
    alike: csr_matrix
    next_to: csr_matrix


def unit_rows(rows: np.ndarray) -> np.ndarray:
    """Returns the rows with length 1; rows of length 0 stay."""
    long = np.linalg.norm(rows, axis=1)
    return np.asarray(rows / np.where(long > 0, long, 1)[:, None])


def normals_at(places: np.ndarray, faces: np.ndarray) -> np.ndarray:
    """Returns the normals of length 1 at vertices, means of those of the faces by area."""
    a, b, c = (places[faces[:, k]] for k in range(3))
    across = np.cross(b - a, c - a)
    sums = [np.bincount(faces.ravel(), np.repeat(across[:, k], 3), len(places)) for k in range(3)]
    return unit_rows(np.stack(sums, axis=1))


def neighbors(faces: np.ndarray, count: int) -> tuple[np.ndarray, np.ndarray]:
    """Returns both ends of each half edge of faces (m, 3)."""
    return faces.ravel(), faces[:, [1, 2, 0]].ravel()


def residuals(places: np.ndarray, faces: np.ndarray, homes: np.ndarray, sights: np.ndarray | None) -> Residuals:
    """Compares a smoothed mesh with its scanned places `homes`. `sights` are vectors from them to their scanners (n, 3); without them, or
    where one is not finite, a point is taken to err across the surface."""
    normals = normals_at(places, faces)
    across = np.einsum('ij,ij->i', homes - places, normals)
    cosines = np.ones(len(places))
    if sights is not None:
        known = np.isfinite(sights).all(axis=1)
        cosines[known] = np.einsum('ij,ij->i', unit_rows(sights[known]), normals[known]) ** 2
    start, end = neighbors(faces, len(places))
    alike = np.maximum(np.einsum('ij,ij->i', normals[start], normals[end]), 0) ** 4
    shape = (len(places), len(places))
    return Residuals(normals, across, cosines + FLOOR ** 2, csr_matrix((alike, (end, start)), shape),
                     csr_matrix((np.ones(len(start)), (end, start)), shape))


def means(values: np.ndarray, weights: csr_matrix, rounds: int) -> np.ndarray:
    """Returns weighted means of values with those of neighbors, this many rounds."""
    sums = 1 + np.asarray(weights.sum(axis=1)).ravel()
    for _ in range(rounds):
        values = (values + weights @ values) / sums
    return values


def twiced(found: Residuals, rounds: int) -> np.ndarray:
    """Returns how far each vertex moves along its normal: the mean of the residuals around it."""
    return np.asarray(means(found.across / found.variance, found.alike, rounds) / means(1 / found.variance, found.alike, rounds))


def noise_of(found: Residuals, rest: np.ndarray) -> float:
    """Returns the squared noise along lines of sight, by how the medians of squared residuals grow with the squared cosine."""
    order = np.argsort(found.variance)
    classes = [part for part in np.array_split(order, CLASSES) if len(part)]
    x = np.array([found.variance[part].mean() - FLOOR ** 2 for part in classes])
    y = np.array([np.median(rest[part] ** 2) / MEDIAN for part in classes])
    spread = float(((x - x.mean()) ** 2).sum())
    if spread <= 1e-9:
        return 0.0
    return max(RAISED * float(((x - x.mean()) * (y - y.mean())).sum()) / spread, 0.0)


def filtered(found: Residuals, moved: np.ndarray, around: int = 3) -> np.ndarray:
    """Returns how far each vertex moves along its normal: `moved`, and toward its scanned place where residuals around are larger than the
    noise explains. If the residuals do not show the noise, it is `moved` alone."""
    rest = found.across - moved
    noise = noise_of(found, rest)
    if not noise:
        return moved
    squares = means(rest ** 2, found.next_to, around)
    explained = means(found.variance * noise, found.next_to, around)
    detail = np.maximum(squares - OVER * explained, 0)
    kept = detail / np.maximum(detail + noise * found.variance, 1e-300)
    return np.asarray(moved + kept * rest)


def wanted_places(places: np.ndarray, faces: np.ndarray, homes: np.ndarray, sights: np.ndarray | None, is_fine: bool) -> np.ndarray:
    """Returns where the vertices (n, 3) of a smoothed mesh are to go. Where the noise is fine beside the spacing, what was detail
    comes back; else the mean of residuals alone."""
    first = residuals(places, faces, homes, sights)
    once = places + first.normals * twiced(first, 2)[:, None]
    if not is_fine:
        return np.asarray(once)
    second = residuals(once, faces, homes, sights)
    return np.asarray(once + second.normals * filtered(second, twiced(second, 1))[:, None])

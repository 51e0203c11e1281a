"""Places to which the vertices of a smoothed mesh move, so that it comes nearer to the object.

Smoothing averages noise, and blunts detail. So a part of what it took away is given back:

- At each vertex the mean of the residuals around it (twicing, Tukey 1977). A scanner errs along its line of sight: a point that was seen at a
  grazing angle moves along the surface, and its error across the surface is the noise times the cosine of the angle. So each residual has the weight
  of its exactness.
- Of what is then left, the part that is larger than noise explains: a local Wiener filter. The noise is the slope of squared residuals over squared
  cosines. If most of the mesh has detail, smoothing blunted more than it helped, so the filter takes less of the residuals for noise. Where noise is
  large, detail and noise cannot be separated, so this is left out. Where it is less than a twentieth of the spacing, vertices go back to the points.

Names: GivenBack · target_places.
"""
from __future__ import annotations

from dataclasses import dataclass
from enum import Enum

import numpy as np
from scipy.sparse import csr_matrix

from recon.toolbox.vectors import across, columns_of, dot

# the least variance of an error across the surface, in parts of that along the sight
FLOOR = 0.15 ** 2
# squares of residuals are detail where they are over this many times those of the noise
OVER = 1.2
# the median of the squares of a normal distribution of variance 1; and what makes up for residuals that follow the noise
MEDIAN, FOLLOWED = 0.455, 1.2
CLASSES, RINGS = 10, 3
# The median ratio of squared residuals to noise from which on less counts as noise, over how much more of it, and by how much at most: a smooth
# object has about 0.8, one with detail everywhere 0.95
PLAIN, RISE, SPARED = 0.8, 0.15, 0.45
# the noise, in spacings, below which nothing is smoothed
LEAST_NOISE = 0.05


class GivenBack(Enum):
    """What of the residuals is given back."""
    NOTHING = 'no'
    MEANS = 'means'
    MEANS_AND_DETAIL = 'yes'


@dataclass
class Patch:
    """The vertices of a mesh: their normals (n, 3), which are neighbors, and how alike the normals of neighbors are."""
    normals: np.ndarray
    near: csr_matrix
    alike: csr_matrix

    @classmethod
    def of(cls, places: np.ndarray, faces: np.ndarray) -> Patch:
        """The vertices of a mesh; normals are by area."""
        count = len(places)
        columns = columns_of(places)
        ways = across(*([column[corner] for column in columns] for corner in columns_of(faces)))
        sums = [np.bincount(faces.ravel(), np.repeat(way, 3), count) for way in ways]
        long = np.maximum(np.sqrt(sum(part * part for part in sums)), 1e-300)
        axes = [part / long for part in sums]
        one, other = faces.ravel(), np.roll(faces, -1, axis=1).ravel()
        alike = np.maximum(dot([axis[one] for axis in axes], [axis[other] for axis in axes]), 0.0) ** 4
        return cls(np.stack(axes, axis=1), *both_of(alike, other, one, count))


def both_of(alike: np.ndarray, rows: np.ndarray, columns: np.ndarray, count: int) -> tuple[csr_matrix, csr_matrix]:
    """Returns a matrix of ones and one of other values, at the same rows and columns: the order of these is found once, where none occurs twice."""
    order = csr_matrix((np.arange(len(rows)), (rows, columns)), (count, count))
    ones, form = np.ones(len(rows)), (count, count)
    if order.nnz < len(rows):
        return csr_matrix((ones, (rows, columns)), form), csr_matrix((alike, (rows, columns)), form)
    return csr_matrix((ones, order.indices, order.indptr), form), csr_matrix((alike[order.data], order.indices, order.indptr), form)


def averaged(values: np.ndarray, weights: csr_matrix, rounds: int) -> np.ndarray:
    """Averages over each vertex and its neighbors, some rounds."""
    total = 1 + np.asarray(weights.sum(axis=1)).ravel()
    for _ in range(rounds):
        values = (values + weights @ values) / total
    return values


def noise_of(square: np.ndarray, cosine: np.ndarray) -> float:
    """Estimates the variance of the noise along the sights: the slope of squared residuals over squared cosines, by medians, since detail is in few
    places."""
    classes = np.array_split(np.argsort(cosine, kind='stable'), CLASSES)
    x = np.array([cosine[rows].mean() for rows in classes])
    y = np.array([np.median(square[rows]) for rows in classes]) / MEDIAN
    spread = float(((x - x.mean()) ** 2).mean())
    slope = float(((x - x.mean()) * (y - y.mean())).mean()) / spread if spread > 1e-4 else 0.0
    return FOLLOWED * max(slope, 0.0)


def square_of_spacing(places: np.ndarray, faces: np.ndarray) -> float:
    """The area of a mesh for each of its vertices, which is that of two faces: of the median one, since faces across unseen space are large."""
    columns = columns_of(places)
    way = across(*([column[corner] for column in columns] for corner in columns_of(faces)))
    return float(np.median(np.sqrt(dot(way, way))))


def squared_cosines(homes: np.ndarray, normals: np.ndarray, scanners: np.ndarray | None) -> np.ndarray:
    """The squares of the cosines between lines of sight and normals, 1 without a line of sight."""
    if scanners is None:
        return np.ones(len(homes))
    sight = scanners - homes
    square = (sight ** 2).sum(axis=1)
    return np.where(square > 0, np.minimum((sight * normals).sum(axis=1) ** 2 / np.maximum(square, 1e-300), 1.0), 1.0)


def detail_of(rest: np.ndarray, error: np.ndarray, noise: float, near: csr_matrix) -> np.ndarray:
    """Returns the part of residuals that is detail, by a local Wiener filter: what their squares around a vertex are over those of noise."""
    square, usual = averaged(rest ** 2, near, RINGS), averaged(error, near, RINGS)
    noise *= 1 - SPARED * float(np.clip((np.median(square / (noise * usual)) - PLAIN) / RISE, 0, 1))
    detail = np.maximum(square - OVER * noise * usual, 0.0)
    return np.asarray(detail / (detail + noise * error) * rest)


def step_back(homes: np.ndarray, places: np.ndarray, faces: np.ndarray, scanners: np.ndarray | None, rounds: int,
              with_detail: bool) -> np.ndarray:
    """Moves vertices along their normals by the means of residuals around them, and by what is detail of the rest."""
    patch = Patch.of(places, faces)
    residual = ((homes - places) * patch.normals).sum(axis=1)
    cosine = squared_cosines(homes, patch.normals, scanners)
    error = cosine + FLOOR
    back = averaged(residual / error, patch.alike, rounds) / averaged(1 / error, patch.alike, rounds)
    if with_detail:
        rest = residual - back
        noise = noise_of(rest ** 2, cosine)
        if noise <= LEAST_NOISE ** 2 * square_of_spacing(places, faces):
            return homes
        back += detail_of(rest, error, noise, patch.near)
    return places + patch.normals * back[:, None]


def target_places(homes: np.ndarray, places: np.ndarray, faces: np.ndarray, scanners: np.ndarray | None, given: GivenBack) -> np.ndarray:
    """Returns the targets (n, 3) of the vertices of a smoothed mesh. `homes` are the scanned points that they are, and `scanners` from where these were
    seen, if that is known."""
    has_detail = given is GivenBack.MEANS_AND_DETAIL and scanners is not None
    places = step_back(homes, places, faces, scanners, 2, False)
    return step_back(homes, places, faces, scanners, 1, True) if has_detail else places

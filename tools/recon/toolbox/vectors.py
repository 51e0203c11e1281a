"""Vectors of three coordinates, each a column of numpy, or a number.

Names: less, dot, across, unit, normal, angle · axes (columns of some rows of an array) · columns_of (all of it) · turn_of (a turn's matrix).
"""
from __future__ import annotations

import math
from typing import Any, Sequence

import numpy as np

Vector = Sequence[Any]
TINY = 1e-300
ARC_COSINE = (-0.0012624911, 0.0066700901, -0.0170881256, 0.0308918810, -0.0501743046, 0.0889789874, -0.2145988016,
              1.5707963050)


def axes(places: np.ndarray, numbers: np.ndarray) -> Vector:
    """Columns of coordinates."""
    rows = places[numbers]
    return rows[:, 0], rows[:, 1], rows[:, 2]


def columns_of(rows: np.ndarray) -> Vector:
    """The three columns of an array, each in one piece of memory."""
    return [np.ascontiguousarray(rows[:, k]) for k in range(3)]


def less(a: Vector, b: Vector) -> Vector:
    return a[0] - b[0], a[1] - b[1], a[2] - b[2]


def dot(a: Vector, b: Vector) -> Any:
    return a[0] * b[0] + a[1] * b[1] + a[2] * b[2]


def across(a: Vector, b: Vector, c: Vector) -> Vector:
    """Returns the vector across a triangle, as long as twice its area."""
    (x, y, z), (p, q, r) = less(b, a), less(c, a)
    return y * r - z * q, z * p - x * r, x * q - y * p


def unit(v: Vector) -> Vector:
    """Returns the vector at length 1; 0 stays 0."""
    long = np.maximum(np.sqrt(dot(v, v)), TINY)
    return v[0] / long, v[1] / long, v[2] / long


def normal(a: Vector, b: Vector, c: Vector) -> Vector:
    return unit(across(a, b, c))


def angle(n: Vector, m: Vector) -> Any:
    """Returns the angle between two unit vectors, within 2e-8 (Abramowitz and Stegun, 4.4.46)."""
    cosine = dot(n, m)
    positive = np.where(cosine < 0, -cosine, cosine)
    positive = -np.maximum(-positive, -1.0)
    sum_: Any = ARC_COSINE[0]
    for factor in ARC_COSINE[1:]:
        sum_ = sum_ * positive + factor
    acute = np.sqrt(1 - positive) * sum_
    return np.where(cosine < 0, math.pi - acute, acute)


def turn_of(w: float, x: float, y: float, z: float) -> tuple[Vector, Vector, Vector] | None:
    """Returns the rows of the matrix of a turn, given as a quaternion of any length; None of the quaternion 0."""
    long = (w * w + x * x + y * y + z * z) ** 0.5
    if not long:
        return None
    w, x, y, z = w / long, x / long, y / long, z / long
    return ((1 - 2 * (y * y + z * z), 2 * (x * y - z * w), 2 * (x * z + y * w)),
            (2 * (x * y + z * w), 1 - 2 * (x * x + z * z), 2 * (y * z - x * w)),
            (2 * (x * z - y * w), 2 * (y * z + x * w), 1 - 2 * (x * x + y * y)))

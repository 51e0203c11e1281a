"""Points, signs and Delaunay cells, as the page defines them."""
from __future__ import annotations

import itertools
from typing import List, Sequence, Tuple

Point = Tuple[int, int, int]
Facet = Tuple[int, int, int]
Cell = Tuple[int, int, int, int]
# a point over a common denominator
Rational = Tuple[Point, int]

DATA_LIMIT, BOX_LIMIT, CORNERS = 2_097_151, 8_388_608, 8


def step(a: Point, b: Point) -> Point:
    return b[0] - a[0], b[1] - a[1], b[2] - a[2]


def cross(u: Point, v: Point) -> Point:
    return u[1] * v[2] - u[2] * v[1], u[2] * v[0] - u[0] * v[2], u[0] * v[1] - u[1] * v[0]


def dot(u: Point, v: Point) -> int:
    return u[0] * v[0] + u[1] * v[1] + u[2] * v[2]


def orientation(a: Point, b: Point, c: Point, d: Point) -> int:
    return dot(cross(step(a, b), step(a, c)), step(a, d))


def corner(k: int) -> Point:
    x, y, z = (BOX_LIMIT if k & bit else -BOX_LIMIT for bit in (1, 2, 4))
    return x, y, z


def displaced(s: Point) -> Rational:
    """Returns a scanner, perturbed."""
    one = 2 ** 192
    return (one * s[0] + 2 ** 128, one * s[1] + 2 ** 64, one * s[2] + 1), one


def side(a: Point, b: Point, c: Point, q: Rational) -> int:
    at, over = q
    return dot(cross(step(a, b), step(a, c)), (at[0] - over * a[0], at[1] - over * a[1], at[2] - over * a[2]))


def power_sign(vertices: Sequence[Point], cell: Cell, u: int) -> int:
    """Returns the sign of the power of vertex u. The page's power is p * B^n + sum of k_i * B^i with |k_i| < B: its sign is that of the first
    of p, k_n, .., k_0 that is not 0."""
    a, b, c, d = (vertices[v] for v in cell)
    p = vertices[u]
    weights = {u: orientation(a, b, c, d)}
    for v, weight in zip(cell, (orientation(p, b, c, d), orientation(a, p, c, d), orientation(a, b, p, d), orientation(a, b, c, p))):
        weights[v] = weights.get(v, 0) - weight
    plain = sum(weight * dot(vertices[v], vertices[v]) for v, weight in weights.items())
    return next((1 if k > 0 else -1 for k in (plain, *(weights[v] for v in sorted(weights, reverse=True))) if k), 0)


def is_delaunay(vertices: Sequence[Point], cell: Cell, order: List[int]) -> bool:
    """Returns whether no vertex is in conflict with the cell. A vertex that is moves to the front of the order in which they are tried."""
    for at, u in enumerate(order):
        if u not in cell and power_sign(vertices, cell, u) < 0:
            order.insert(0, order.pop(at))
            return False
    return True


def cells_of(vertices: Sequence[Point]) -> List[Cell]:
    """Returns the ascending rows of all Delaunay cells."""
    rows, order = [], list(range(len(vertices) - 1, -1, -1))
    for row in itertools.combinations(range(len(vertices)), 4):
        sign = orientation(*(vertices[v] for v in row))
        if sign and is_delaunay(vertices, row if sign > 0 else (row[0], row[1], row[3], row[2]), order):
            rows.append(row)
    return rows


def written(vertices: Sequence[Point], row: Cell) -> Cell:
    """Returns the cell, positively oriented."""
    a, b, c, d = row
    return row if orientation(vertices[a], vertices[b], vertices[c], vertices[d]) > 0 else (a, b, d, c)


def facets_of(cell: Cell) -> Tuple[Facet, Facet, Facet, Facet]:
    a, b, c, d = cell
    return (b, d, c), (a, c, d), (a, d, b), (a, b, c)


def turned(facet: Facet) -> Facet:
    return facet[0], facet[2], facet[1]

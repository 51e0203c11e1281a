"""Points, and the exact signs that decide everything else.

A point is three whole numbers. `orientation(a, b, c, d)` is six times the signed volume of a tetrahedron: it is positive if a, b, c turn
counterclockwise as seen from d. Python's whole numbers have no limit, so nothing is rounded.
"""
from __future__ import annotations

from typing import Optional, Sequence, Tuple

Point = Tuple[int, int, int]
Cell = Tuple[int, int, int, int]
Facet = Tuple[int, int, int]

BOX = 2 ** 23               # the corners of the box have coordinates of plus or minus this
LIMIT = 2 ** 21 - 1         # the largest absolute value of a scaled coordinate
SHIFT = 2 ** 64             # a scanner stands 1/SHIFT, 1/SHIFT^2, 1/SHIFT^3 beside its position
CORNERS: list[Point] = [(BOX if k & 1 else -BOX, BOX if k & 2 else -BOX, BOX if k & 4 else -BOX) for k in range(8)]


def minus(a: Point, b: Point) -> Point:
    return (a[0] - b[0], a[1] - b[1], a[2] - b[2])


def dot(a: Point, b: Point) -> int:
    return a[0] * b[0] + a[1] * b[1] + a[2] * b[2]


def cross(a: Point, b: Point) -> Point:
    return (a[1] * b[2] - a[2] * b[1], a[2] * b[0] - a[0] * b[2], a[0] * b[1] - a[1] * b[0])


def normal(a: Point, b: Point, c: Point) -> Point:
    return cross(minus(b, a), minus(c, a))


def orientation(a: Point, b: Point, c: Point, d: Point) -> int:
    return dot(normal(a, b, c), minus(d, a))


def side(a: Point, b: Point, c: Point, scanner: Point) -> int:
    """Returns the orientation of a facet and the symbolically perturbed scanner, times SHIFT^3. It is 0 only for three points on a line."""
    n = normal(a, b, c)
    return SHIFT ** 3 * dot(n, minus(scanner, a)) + SHIFT ** 2 * n[0] + SHIFT * n[1] + n[2]


def replaced(four: Sequence[Point], p: Point) -> list[int]:
    """Returns the four orientations in which p stands in the place of one vertex."""
    return [orientation(*(*four[:i], p, *four[i + 1:])) for i in range(4)]


def plain_power(four: Sequence[Point], p: Point) -> int:
    """Negative if p is strictly inside the sphere through four positively oriented points, 0 if it is on the sphere."""
    return orientation(*four) * dot(p, p) - sum(dot(v, v) * o for v, o in zip(four, replaced(four, p)))


def conflict(vertices: Sequence[Point], cell: Cell, new: int) -> bool:
    """Returns whether the vertex with the number `new` is inside the sphere of a positively oriented cell, ties broken by symbolic perturbation.

    Vertex i is lifted to the height |v|^2 + e(i), where each e(i) is positive and outweighs all e(j) with j < i. So where the plain power is
    0, the sign is that of the coefficient of the largest number that has one: `orientation` for `new`, minus `replaced` for a vertex.
    """
    four = [vertices[i] for i in cell]
    power = plain_power(four, vertices[new])
    if power != 0:
        return power < 0
    terms = [(new, orientation(*four))] + [(i, -o) for i, o in zip(cell, replaced(four, vertices[new]))]
    return max(term for term in terms if term[1] != 0)[1] < 0


def positive(vertices: Sequence[Point], four: Cell) -> Optional[Cell]:
    """Four ascending vertex numbers, positively oriented; None if the four points lie in a plane."""
    a, b, c, d = four
    o = orientation(vertices[a], vertices[b], vertices[c], vertices[d])
    return None if o == 0 else (a, b, c, d) if o > 0 else (a, b, d, c)


def rotated(a: int, b: int, c: int) -> Facet:
    """Returns the same directed facet with its smallest number first."""
    return (a, b, c) if a < b and a < c else (b, c, a) if b < c else (c, a, b)


def opposite(f: Facet) -> Facet:
    """Returns the opposite facet, as the adjacent cell has it."""
    return rotated(f[0], f[2], f[1])


def facets_of(cell: Cell) -> list[Facet]:
    """Returns the directed facets of a positively oriented cell; the cell lies on the positive side of each."""
    a, b, c, d = cell
    return [rotated(b, d, c), rotated(a, c, d), rotated(a, d, b), rotated(a, b, c)]

"""Whether two triangles cross, exactly: by signs of determinants of whole numbers, without rounding.

Two triangles cross where they have a place in common that is no corner and no edge of both. So neighbors do not cross
unless one lies on the other, and sheets that touch in a vertex or an edge of both do not.

Names: orient (on which side of a plane a place lies) · cross (whether two triangles cross, by the numbers of their
corners).
"""
from __future__ import annotations

from typing import Any, Sequence

# three coordinates, and whatever has the place of vertex k at [k]
Vector = Sequence[Any]
Places = Any

def orient(a: Vector, b: Vector, c: Vector, d: Vector) -> int:
    """Six times the volume of a tetrahedron: positive where a, b, c turn counterclockwise seen from d, zero where the four lie
    in one plane. Coordinates are whole numbers. (Written out, since nothing is called as often.)"""
    x, y, z = b[0] - a[0], b[1] - a[1], b[2] - a[2]
    p, q, r = c[0] - a[0], c[1] - a[1], c[2] - a[2]
    u, v, w = d[0] - a[0], d[1] - a[1], d[2] - a[2]
    return (y * r - z * q) * u + (z * p - x * r) * v + (x * q - y * p) * w


def cross(places: Places, one: Sequence[int], other: Sequence[int]) -> bool:
    """Returns whether two triangles cross that are given by the numbers of their corners."""
    common = [corner for corner in one if corner in other]
    rest_one = [corner for corner in one if corner not in common]
    rest_other = [corner for corner in other if corner not in common]
    if len(common) == 3:
        return True
    if len(common) == 2:
        return lies_on(places, common, rest_one[0], rest_other[0])
    if apart(places, one, rest_other) or apart(places, other, rest_one):
        return False
    if len(common) == 1:
        return meets(places, rest_one, other) or meets(places, rest_other, one)
    sides = ((0, 1), (1, 2), (2, 0))
    return (any(meets(places, (one[i], one[j]), other) for i, j in sides)
            or any(meets(places, (other[i], other[j]), one) for i, j in sides))


def apart(places: Places, triangle: Sequence[int], corners: Sequence[int]) -> bool:
    """Returns whether these corners lie strictly on one side of the plane of a triangle."""
    a, b, c = (places[corner] for corner in triangle)
    signs = [orient(a, b, c, places[corner]) for corner in corners]
    return min(signs) > 0 or max(signs) < 0


def lies_on(places: Places, edge: Sequence[int], one: int, other: int) -> bool:
    """Returns whether two triangles with a common edge lie in one plane on one side of it."""
    a, b = (places[corner] for corner in edge)
    c, d = places[one], places[other]
    if orient(a, b, c, d):
        return False
    axis = flat_axis(a, b, c)
    return turn(axis, a, b, c) * turn(axis, a, b, d) > 0


def meets(places: Places, segment: Sequence[int], triangle: Sequence[int]) -> bool:
    """Returns whether a segment and a triangle, both with their ends and edges, have a place in common."""
    p, q = (places[corner] for corner in segment)
    a, b, c = (places[corner] for corner in triangle)
    side_p, side_q = orient(a, b, c, p), orient(a, b, c, q)
    if side_p > 0 and side_q > 0 or side_p < 0 and side_q < 0:
        return False
    if side_p == 0 == side_q:
        return meets_flat(p, q, a, b, c)
    signs = orient(p, q, a, b), orient(p, q, b, c), orient(p, q, c, a)
    return min(signs) >= 0 or max(signs) <= 0


def flat_axis(a: Vector, b: Vector, c: Vector) -> int:
    """Returns an axis along which the plane of a triangle is seen as more than a line."""
    for axis in range(3):
        if turn(axis, a, b, c):
            return axis
    return 0


def turn(axis: int, a: Vector, b: Vector, c: Vector) -> int:
    """Twice the area of a triangle seen along an axis, with a sign for its turn."""
    i, j = (axis + 1) % 3, (axis + 2) % 3
    return (b[i] - a[i]) * (c[j] - a[j]) - (b[j] - a[j]) * (c[i] - a[i])


def meets_flat(p: Vector, q: Vector, a: Vector, b: Vector, c: Vector) -> bool:
    """Returns the same in the plane of the triangle."""
    axis = flat_axis(a, b, c)
    way = 1 if turn(axis, a, b, c) > 0 else -1
    if all(turn(axis, one, other, p) * way >= 0 for one, other in ((a, b), (b, c), (c, a))):
        return True
    return any(segments_meet(axis, p, q, one, other) for one, other in ((a, b), (b, c), (c, a)))


def segments_meet(axis: int, p: Vector, q: Vector, a: Vector, b: Vector) -> bool:
    """Returns whether two segments of a plane have a place in common."""
    if separated(turn(axis, p, q, a), turn(axis, p, q, b)) or separated(turn(axis, a, b, p), turn(axis, a, b, q)):
        return False
    return all(max(min(p[k], q[k]), min(a[k], b[k])) <= min(max(p[k], q[k]), max(a[k], b[k])) for k in range(3))


def separated(one: int, other: int) -> bool:
    """Returns whether two ends are strictly on one side."""
    return one > 0 and other > 0 or one < 0 and other < 0

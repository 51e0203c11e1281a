"""What is wrong with a simplified mesh, by fractions: an independent judge of `recon-mesh simplify`.

Distances are computed with fractions of the point of a triangle that is nearest, and crossings with determinants (`crossing.py`).
"""
from __future__ import annotations

from fractions import Fraction
from itertools import combinations
from typing import Sequence

from bench.crossing import cross
from samples import edges_of

Place = Sequence[int]
Face = Sequence[int]
Mesh = tuple[Sequence[Place], Sequence[Face]]
Rational = Sequence['int | Fraction']


def less(a: Rational, b: Rational) -> list[int | Fraction]:
    """Returns the vector from b to a."""
    return [x - y for x, y in zip(a, b)]


def dot(a: Rational, b: Rational) -> int | Fraction:
    """Returns the scalar product."""
    return sum((x * y for x, y in zip(a, b)), 0)


def square_to_segment(p: Rational, a: Rational, b: Rational) -> int | Fraction:
    """Returns the square of the distance from a point to a segment."""
    along, there = less(b, a), less(p, a)
    length = dot(along, along)
    part = min(Fraction(1), max(Fraction(0), Fraction(dot(there, along), length))) if length else Fraction(0)
    gap = [x - part * y for x, y in zip(there, along)]
    return dot(gap, gap)


def square_to_triangle(p: Rational, a: Rational, b: Rational, c: Rational) -> int | Fraction:
    """Returns the square of the distance from a point to a triangle, which may have no area."""
    u, v, w = less(b, a), less(c, a), less(p, a)
    uu, uv, vv, uw, vw = dot(u, u), dot(u, v), dot(v, v), dot(u, w), dot(v, w)
    area = uu * vv - uv * uv
    if area:
        s, t = Fraction(vv * uw - uv * vw, area), Fraction(uu * vw - uv * uw, area)
        if s >= 0 and t >= 0 and s + t <= 1:
            gap = [z - s * x - t * y for x, y, z in zip(u, v, w)]
            return dot(gap, gap)
    return min(square_to_segment(p, a, b), square_to_segment(p, b, c), square_to_segment(p, c, a))


def has_area(a: Place, b: Place, c: Place) -> bool:
    """Returns whether a triangle has an area."""
    u, v = less(b, a), less(c, a)
    return dot(u, u) * dot(v, v) > dot(u, v) * dot(u, v)


def repeats(faces: Sequence[Face]) -> bool:
    """Returns whether two faces have the same vertices."""
    return len({frozenset(face) for face in faces}) < len(faces)


def is_part(new: Sequence[Place], old: Sequence[Place]) -> bool:
    """Returns whether the points of one list stand in another, in this order."""
    rest = iter(old)
    return all(any(tuple(p) == tuple(q) for q in rest) for p in new)


def crossings(mesh: Mesh) -> set[frozenset[tuple[Place, ...]]]:
    """Returns the pairs of faces that cross, by the places of their corners. Faces with the same vertices are no such pair, and faces without
    area are left out, since the determinants say nothing of them."""
    places, faces = mesh[0], [face for face in mesh[1] if has_area(*(mesh[0][v] for v in face))]
    boxes = [[(min(x), max(x)) for x in zip(*(places[v] for v in face))] for face in faces]
    found = set()
    for (i, one), (j, other) in combinations(enumerate(faces), 2):
        if all(low <= high_too and low_too <= high for (low, high), (low_too, high_too) in zip(boxes[i], boxes[j])):
            if set(one) != set(other) and cross(places, one, other):
                found.add(frozenset(tuple(sorted(tuple(places[v]) for v in face)) for face in (one, other)))
    return found


def far_corner(old: Mesh, new: Mesh, within: int) -> int | None:
    """Returns the first corner of the old faces that is farther than a distance from each new face."""
    places, faces = new
    triangles = [tuple(places[v] for v in face) for face in faces]
    at_corner = {tuple(places[v]) for face in faces for v in face}
    for v in sorted({v for face in old[1] for v in face}):
        p = old[0][v]
        if tuple(p) not in at_corner and all(square_to_triangle(p, *t) > within * within for t in triangles):
            return v
    return None


def is_close(p: Rational, triangle: Sequence[Place], within: int) -> bool:
    """Returns whether a point is within a distance of the box of a triangle along each axis."""
    return all(min(axis) - within <= x <= max(axis) + within for x, axis in zip(p, zip(*triangle)))


def far_place(one: Mesh, other: Mesh, within: int, parts: int = 2) -> tuple[int, list[Fraction]] | None:
    """Returns the first face of a mesh with a point farther than a distance from each face of another, and the point, among those that cut its
    sides into equal parts and those between them."""
    triangles = [tuple(other[0][v] for v in face) for face in other[1]]
    for i, face in enumerate(one[1]):
        a, b, c = (one[0][v] for v in face)
        for u in range(parts + 1):
            for v in range(parts + 1 - u):
                p = [Fraction(u * x + v * y + (parts - u - v) * z, parts) for x, y, z in zip(a, b, c)]
                if not any(is_close(p, t, within) and square_to_triangle(p, *t) <= within * within for t in triangles):
                    return i, p
    return None


def far_faults(said: str, old: Mesh, new: Mesh, within: int) -> list[str]:
    """Returns what is wrong with the point that a line of `check` calls far, if it names one."""
    words = said.split()
    if 'far' not in words:
        return []
    one, other = (new, old) if words[1] == '8' else (old, new)
    p: Rational = one[0][int(words[3])] if words[1] == '6' else []
    if not p:
        weights, corners = [int(word) for word in words[5:]], [one[0][v] for v in one[1][int(words[3])]]
        p = [Fraction(sum(w * x for w, x in zip(weights, axis)), sum(weights)) for axis in zip(*corners)]
    near = [i for i, face in enumerate(other[1]) if square_to_triangle(p, *(other[0][v] for v in face)) <= within * within]
    return [f'face {near[0]} is not far from {p}'] if near else []


def faults(old: Mesh, new: Mesh, within: int, surface: bool = False, moves: bool = False) -> list[str]:
    """Returns what is wrong with a simplified mesh, whose vertices may have moved or not."""
    found = []
    edges, old_edges = edges_of(new[1]), edges_of(old[1])
    if any(edges[pair] != edges[pair[::-1]] for pair in list(edges)):
        found.append('it is not closed')
    if max(old_edges.values(), default=0) < 2 <= max(edges.values(), default=0):
        found.append('a directed edge occurs twice')
    if repeats(new[1]) and not repeats(old[1]):
        found.append('two faces have the same vertices')
    if not moves and not is_part(new[0], old[0]):
        found.append('the vertices are not some of the old ones in their order')
    vertex = far_corner(old, new, within)
    if vertex is not None:
        found.append(f'vertex {vertex} is farther than {within}')
    if surface:
        found += [f'{whose} face {far[0]} is farther than {within} at {far[1]}'
                  for whose, far in (('old', far_place(old, new, within)), ('new', far_place(new, old, within))) if far]
    more = crossings(new) - crossings(old)
    if more:
        found.append(f'{len(more)} pairs of faces cross that did not')
    return found

"""The Delaunay tetrahedralization of a scan, by trying every set of four vertices, and what a line of sight meets in it.

Vertices 0 to 7 are the corners of the box, vertex 8 + i is the distinct point i of the scan. Cells are numbered in ascending order of their
sorted vertex tuples.
"""
from __future__ import annotations

from itertools import combinations
from typing import Sequence

from .points import CORNERS, Cell, Facet, Point, conflict, facets_of, opposite, orientation, positive, side


def delaunay(vertices: Sequence[Point]) -> list[Cell]:
    """Returns the sorted vertex tuples of all cells, ascending: of every four vertices, those not in one plane with which no other is in conflict."""
    found = []
    for four in combinations(range(len(vertices)), 4):
        cell = positive(vertices, four)
        if cell is not None and not any(conflict(vertices, cell, p) for p in range(len(vertices)) if p not in four):
            found.append(four)
    return found


def crosses(facet: Sequence[Point], p: Point, scanner: Point) -> bool:
    """Returns whether the line of sight from the perturbed scanner to p crosses a directed facet towards its negative side."""
    a, b, c = facet
    return side(a, b, c, scanner) > 0 > orientation(a, b, c, p) and side(p, a, b, scanner) > 0 \
        and side(p, b, c, scanner) > 0 and side(p, c, a, scanner) > 0


def first_at(cell: Cell, v: int) -> Cell:
    """Returns the same cell, reordered by an even permutation so that the vertex v is first."""
    a, b, c, d = cell
    return {a: (a, b, c, d), b: (b, a, d, c), c: (c, d, a, b), d: (d, c, b, a)}[v]


class Cells:
    """All cells of the corners and some points, with their directed facets."""

    def __init__(self, points: Sequence[Point]) -> None:
        self.vertices = CORNERS + list(points)
        self.rows = self.listed()
        self.cells = [self.oriented(row) for row in self.rows]
        self.number = {row: k for k, row in enumerate(self.rows)}
        self.owner = {f: k for k, cell in enumerate(self.cells) for f in facets_of(cell)}

    def listed(self) -> list[Cell]:
        return delaunay(self.vertices)

    def oriented(self, row: Cell) -> Cell:
        cell = positive(self.vertices, row)
        assert cell is not None
        return cell

    def at(self, numbers: Sequence[int]) -> list[Point]:
        return [self.vertices[i] for i in numbers]

    def holds(self, k: int, scanner: Point) -> bool:
        """Returns whether the perturbed scanner is strictly inside cell k."""
        v = self.vertices
        return all(side(v[a], v[b], v[c], scanner) > 0 for a, b, c in facets_of(self.cells[k]))

    def scanner_cell(self, scanner: Point) -> int:
        """Returns the one cell that holds the perturbed scanner."""
        (found,) = [k for k in range(len(self.cells)) if self.holds(k, scanner)]
        return found

    def sides_at(self, k: int, v: int, scanner: Point) -> list[int]:
        """On which side of the three facets of cell k at its vertex v the perturbed scanner is."""
        p, a, b, c = self.at(first_at(self.cells[k], v))
        return [side(p, a, b, scanner), side(p, b, c, scanner), side(p, c, a, scanner)]

    def behind(self, v: int, scanner: Point) -> int:
        """Returns the one cell into which the line of sight would go on after the vertex v."""
        (found,) = [k for k, row in enumerate(self.rows) if v in row and all(s < 0 for s in self.sides_at(k, v, scanner))]
        return found

    def crossed(self, v: int, scanner: Point) -> list[Facet]:
        """Returns the directed facets that a line of sight crosses: every facet is tried."""
        return [f for f in self.owner if crosses(self.at(f), self.vertices[v], scanner)]

    def across(self, f: Facet) -> int | None:
        """Returns the adjacent cell of a directed facet, None on a wall of the box."""
        return self.owner.get(opposite(f))

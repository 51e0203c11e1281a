"""A scan's cells, sights, weights and best mesh."""
from __future__ import annotations

from dataclasses import dataclass
from typing import Dict, List, NamedTuple, Sequence, Set, Tuple

from .cut import smallest_inside
from .points import CORNERS, Cell, Facet, Point, Rational, cells_of, corner, displaced, facets_of, side, turned, written
from .texts import Scan, mesh_text


class Sight(NamedTuple):
    vertex: int
    scanner: Rational
    weight: int


def facet_side(vertices: Sequence[Point], facet: Facet, q: Rational) -> int:
    a, b, c = (vertices[v] for v in facet)
    return side(a, b, c, q)


def is_crossed(vertices: Sequence[Point], sight: Sight, facet: Facet) -> bool:
    a, b, c = (vertices[v] for v in facet)
    p, s = vertices[sight.vertex], sight.scanner
    return (side(a, b, c, s) > 0 > side(a, b, c, (p, 1)) and side(p, a, b, s) > 0 and side(p, b, c, s) > 0 and side(p, c, a, s) > 0)


def is_behind(vertices: Sequence[Point], sight: Sight, cell: Cell) -> bool:
    if sight.vertex not in cell:
        return False
    return all(v == sight.vertex or facet_side(vertices, facet, sight.scanner) < 0 for v, facet in zip(cell, facets_of(cell)))


def contains(vertices: Sequence[Point], q: Rational, cell: Cell) -> bool:
    return all(facet_side(vertices, facet, q) > 0 for facet in facets_of(cell))


@dataclass
class Solved:
    """The network of a scan and its best surface."""
    vertices: List[Point]
    cells: List[Cell]
    fixed: Dict[Cell, bool]
    facets: List[Facet]
    arcs: List[Tuple[Cell, Cell]]
    caps: List[int]
    sinks: List[int]
    inside: Set[Cell]
    cost: int

    def cut(self) -> List[Facet]:
        return [f for f, (u, v) in zip(self.facets, self.arcs) if u not in self.inside and v in self.inside]

    def mesh(self) -> bytes:
        """Returns the text of the best mesh."""
        cut = self.cut()
        used = sorted({v for f in cut for v in f})
        number = {v: k for k, v in enumerate(used)}
        return mesh_text([self.vertices[v] for v in used], [(number[a], number[b], number[c]) for a, b, c in cut])

    def cost_of(self, inside: Set[Cell]) -> int:
        arcs = sum(cap for cap, (u, v) in zip(self.caps, self.arcs) if u not in inside and v in inside)
        return arcs + sum(sink for sink, cell in zip(self.sinks, self.cells) if cell not in inside)


def solved(scan: Scan, vote: int, smooth: int) -> Solved:
    """Returns the best surface of a scan at these weights."""
    distinct = list(dict.fromkeys(scan.points))
    vertices = [corner(k) for k in range(CORNERS)] + distinct
    number = {p: CORNERS + k for k, p in enumerate(distinct)}
    scanners = [displaced(s) for s in scan.scanners]
    sights = [Sight(number[scan.points[r]], scanners[k], w) for r, k, w in scan.seen]
    cells = cells_of(vertices)
    oriented = {cell: written(vertices, cell) for cell in cells}
    fixed = {cell: cell[0] < CORNERS or any(contains(vertices, q, oriented[cell]) for q in scanners) for cell in cells}
    owner = {facet: cell for cell in cells for facet in facets_of(oriented[cell])}
    facets = sorted(f for f in owner if turned(f) in owner and not fixed[owner[turned(f)]])
    caps = [smooth + vote * sum(s.weight for s in sights if is_crossed(vertices, s, f)) for f in facets]
    sinks = [vote * sum(s.weight for s in sights if is_behind(vertices, s, oriented[cell])) for cell in cells]
    arcs = [(owner[f], owner[turned(f)]) for f in facets]
    inside, cost = smallest_inside(cells, fixed, arcs, caps, sinks)
    return Solved(vertices, cells, fixed, facets, arcs, caps, sinks, inside, cost)

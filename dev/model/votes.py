"""The network of a scan: the weights of its lines of sight and the area weight at each cell and each facet, and the cost of labels.

A label says of each cell whether it is inside. A line of sight says that the cells it passes are outside, and that the cell behind its point
is inside. Labels pay `vote` for each time that a line of sight enters an inside cell through a facet from an outside one, `vote` for each line
of sight whose cell behind is outside, and `smooth` for each facet between an outside and an inside cell.
"""
from __future__ import annotations

from collections import Counter
from typing import AbstractSet, NamedTuple, Sequence

from .cells import Cells
from .points import Facet, Point


class Sight(NamedTuple):
    """A line of sight: the number of its vertex, the index of its scanner, and how much it counts."""
    vertex: int
    scanner: int
    weight: int


class Arc(NamedTuple):
    """A directed facet with its cell and the free adjacent cell. Labels pay `capacity` if the first is outside and the
    second inside."""
    facet: Facet
    own: int
    across: int
    capacity: int


class Network:
    """Arcs in ascending order of their facets, and for each cell whether it is fixed outside, and what it costs outside (`sink`)."""

    def __init__(self, cells: Cells, sights: Sequence[Sight], scanners: Sequence[Point], vote: int, smooth: int) -> None:
        self.cells = cells
        holding = {cells.scanner_cell(s) for s in scanners}
        self.fixed = [row[0] < 8 or k in holding for k, row in enumerate(cells.rows)]
        self.sink = [0] * len(cells.rows)
        crossings: Counter[Facet] = Counter()
        weights: Counter[tuple[int, int]] = Counter()
        for sight in sights:
            weights[sight.vertex, sight.scanner] += sight.weight
        for (v, s), weight in weights.items():
            for f in cells.crossed(v, scanners[s]):
                crossings[f] += weight
            self.sink[cells.behind(v, scanners[s])] += vote * weight
        ways = [(f, cells.owner[f], cells.across(f)) for f in sorted(cells.owner)]
        self.arcs = [Arc(f, own, to, vote * crossings[f] + smooth) for f, own, to in ways if to is not None and not self.fixed[to]]

    def cost(self, inside: AbstractSet[int]) -> int:
        """Returns what it costs that exactly these cells are inside."""
        return sum(arc.capacity for arc in self.arcs if arc.own not in inside and arc.across in inside) \
            + sum(sink for k, sink in enumerate(self.sink) if k not in inside)

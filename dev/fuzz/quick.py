"""The model with quicker ways to the same answers, so that thousands of files can be tried: cells by insertion, lines of sight by walks, a
maximum flow by levels (Dinic 1970), and answers that are kept. dev/model/tests compares each with the model."""
from __future__ import annotations

from collections import OrderedDict
from typing import Any, Callable, Hashable, NamedTuple, Optional, Sequence

from model.cells import Cells, crosses, delaunay
from model.errors import Refused
from model.flow import FROM, TO, Flow, Residual, least_inside, value
from model.points import CORNERS, Cell, Facet, Point, conflict, facets_of, opposite, orientation, positive, side
from model.scans import Scan
from model.solution import Model, Solution, mesh_of
from model.votes import Arc, Network


class Growing:
    """Cells into which vertices are inserted (Bowyer 1981, Watson 1981)."""

    def __init__(self, vertices: Sequence[Point]) -> None:
        self.vertices = vertices
        self.owner: dict[Facet, Cell] = {}
        for row in delaunay(CORNERS):
            self.add(positive(vertices, row) or row)

    def add(self, cell: Cell) -> None:
        self.owner.update((f, cell) for f in facets_of(cell))
        self.last = cell

    def located(self, p: Point) -> Cell:
        """Returns a cell in which a point lies, by a walk."""
        at = self.last
        while True:
            v = self.vertices
            out = next((f for f in facets_of(at) if orientation(v[f[0]], v[f[1]], v[f[2]], p) < 0), None)
            if out is None:
                return at
            at = self.owner[opposite(out)]

    def insert(self, new: int) -> None:
        """Replaces the cells in conflict with a vertex by cells over their boundary."""
        region = [self.located(self.vertices[new])]
        hit = {region[0]}
        for cell in region:
            across = {self.owner[opposite(f)] for f in facets_of(cell) if opposite(f) in self.owner}
            found = [c for c in sorted(across - hit) if conflict(self.vertices, c, new)]
            hit.update(found)
            region += found
        boundary = [f for cell in region for f in facets_of(cell) if self.owner.get(opposite(f)) not in hit]
        for f in [f for cell in region for f in facets_of(cell)]:
            del self.owner[f]
        for a, b, c in boundary:
            self.add((a, b, c, new))


def by_insertion(vertices: Sequence[Point]) -> list[Cell]:
    """Returns what `delaunay` answers."""
    growing = Growing(vertices)
    for new in range(8, len(vertices)):
        growing.insert(new)
    return sorted({(a, b, c, d) for a, b, c, d in (sorted(cell) for cell in growing.owner.values())})


class QuickCells(Cells):
    """Cells by insertion, and walks along lines of sight."""

    def listed(self) -> list[Cell]:
        return by_insertion(self.vertices)

    def __init__(self, points: Sequence[Point]) -> None:
        super().__init__(points)
        self.around: dict[int, list[int]] = {}
        for k, row in enumerate(self.rows):
            for v in row:
                self.around.setdefault(v, []).append(k)
        self.homes: dict[Point, int] = {}

    def scanner_cell(self, scanner: Point) -> int:
        """By a walk, and kept."""
        if scanner not in self.homes:
            at, v = 0, self.vertices
            while True:
                out = next((f for f in facets_of(self.cells[at]) if side(v[f[0]], v[f[1]], v[f[2]], scanner) < 0), None)
                if out is None:
                    break
                at = self.owner[opposite(out)]
            self.homes[scanner] = at
        return self.homes[scanner]

    def behind(self, v: int, scanner: Point) -> int:
        (found,) = [k for k in self.around[v] if all(s < 0 for s in self.sides_at(k, v, scanner))]
        return found

    def crossed(self, v: int, scanner: Point) -> list[Facet]:
        home, p = self.scanner_cell(scanner), self.vertices[v]
        (at,) = [k for k in self.around[v] if all(s > 0 for s in self.sides_at(k, v, scanner))]
        found = []
        while at != home:
            ways = [opposite(f) for f in facets_of(self.cells[at])]
            f = next(f for f in ways if f in self.owner and crosses(self.at(f), p, scanner))
            found.append(f)
            at = self.owner[f]
        return found


class Levels(Residual):
    """A residual network in which paths ascend by levels."""

    def levels(self) -> dict[int, int]:
        found, queue = {FROM: 0}, [FROM]
        for u in queue:
            for e in self.leaving[u]:
                if self.room[e] and self.ends[e] not in found:
                    found[self.ends[e]] = found[u] + 1
                    queue.append(self.ends[e])
        return found

    def send_all(self, level: dict[int, int]) -> None:
        """Sends along ascending paths until there is none."""
        used, u = dict.fromkeys(self.leaving, 0), FROM
        way: list[int] = []
        while True:
            if u == TO:
                self.send(way)
                way, u = [], FROM
            edges = self.leaving[u]
            while used[u] < len(edges) and not (self.room[edges[used[u]]] and level.get(self.ends[edges[used[u]]]) == level[u] + 1):
                used[u] += 1
            if used[u] < len(edges):
                way.append(edges[used[u]])
                u = self.ends[way[-1]]
            elif way:
                u = self.ends[way.pop() ^ 1]
                used[u] += 1
            else:
                return


def by_levels(network: Network) -> Flow:
    """Returns a maximum flow."""
    left = Levels()
    arcs = [left.add(FROM if network.fixed[arc.own] else arc.own, arc.across, arc.capacity) for arc in network.arcs]
    sinks = [None if network.fixed[k] else left.add(k, TO, sink) for k, sink in enumerate(network.sink)]
    level = left.levels()
    while TO in level:
        left.send_all(level)
        level = left.levels()
    return Flow([left.room[e ^ 1] for e in arcs], [0 if e is None else left.room[e ^ 1] for e in sinks])


class Kept:
    """The last answers of calls, by their keys."""

    def __init__(self, most: int) -> None:
        self.most = most
        self.held: OrderedDict[Hashable, Any] = OrderedDict()

    def get(self, key: Hashable, make: Callable[[], Any]) -> Any:
        if key not in self.held:
            self.held[key] = make()
            if len(self.held) > self.most:
                self.held.popitem(last=False)
        self.held.move_to_end(key)
        return self.held[key]


class Asked(NamedTuple):
    """What decides the network of a scan."""
    points: tuple[Point, ...]
    sights: tuple[Any, ...]
    scanners: tuple[Point, ...]


class Quick(Model):
    """The model in its quicker ways."""

    def __init__(self) -> None:
        self.scans, self.triangulations, self.counted, self.solved = Kept(64), Kept(64), Kept(64), Kept(128)

    def read_scan(self, data: bytes, unit: int, fixed: Optional[Point]) -> Scan:
        def read() -> Scan | Refused:
            try:
                return super(Quick, self).read_scan(data, unit, fixed)
            except Refused as error:
                return error

        answer = self.scans.get((data, unit, fixed), read)
        if isinstance(answer, Refused):
            raise Refused(str(answer))
        return answer

    def cells(self, points: Sequence[Point]) -> Cells:
        return self.triangulations.get(tuple(points), lambda: QuickCells(points))

    def asked(self, scan: Scan) -> Asked:
        return Asked(tuple(scan.points()), tuple(scan.sights()), tuple(scan.scanners))

    def network(self, scan: Scan, vote: int, smooth: int) -> Network:
        """Returns the network. That with visibility weight 1 and area weight 0 is kept, and scaled."""
        counted = self.counted.get(self.asked(scan), lambda: super(Quick, self).network(scan, 1, 0))
        network = Network.__new__(Network)
        network.cells, network.fixed = counted.cells, counted.fixed
        network.sink = [vote * sink for sink in counted.sink]
        network.arcs = [Arc(arc.facet, arc.own, arc.across, vote * arc.capacity + smooth) for arc in counted.arcs]
        return network

    def solve(self, scan: Scan, vote: int, smooth: int) -> Solution:
        def make() -> Solution:
            network = self.network(scan, vote, smooth)
            flow = by_levels(network)
            inside = least_inside(network, flow)
            assert network.cost(inside) == value(network, flow)
            return Solution(network, inside, network.cost(inside), mesh_of(network, inside), flow)

        return self.solved.get((self.asked(scan), vote, smooth), make)

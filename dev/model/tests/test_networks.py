"""Cells, lines of sight, visibility weights and cuts on small degenerate scans: what the definitions say of each other, and what wrong ones would answer."""
from __future__ import annotations

import random
import unittest
from fractions import Fraction
from itertools import combinations
from typing import Callable

from common import BLOCK, CUBE, FIVE_SIGHTS, FOUR, TETRAHEDRON
from model.cells import Cells
from model.flow import least_inside, maximum
from model.points import BOX, CORNERS, LIMIT, Facet, Point, conflict, facets_of, opposite, orientation, plain_power, positive, side
from model.scans import Row, Scan, push_scan, read_scan
from model.solution import Model, certificate_of, check, slice_of
from model.texts import Stamp, push_certificate, push_mesh, read_certificate, read_mesh
from model.votes import Arc, Network

KINDS: dict[str, Callable[[random.Random], Point]] = {
    'lattice': lambda draw: (draw.randint(0, 2), draw.randint(0, 2), draw.randint(0, 2)),
    'plane': lambda draw: (draw.randint(0, 3), draw.randint(0, 3), 0),
    'line': lambda draw: (draw.randint(-6, 6), 0, 0),
    'cube': lambda draw: (draw.choice([-1, 1]), draw.choice([-1, 1]), draw.choice([-1, 1])),
    'sphere': lambda draw: draw.choice([(5, 0, 0), (3, 4, 0), (0, 3, 4), (-4, 0, 3), (0, 0, -5), (-3, -4, 0), (0, -3, 4)]),
    'cloud': lambda draw: (draw.randint(-50, 50), draw.randint(-50, 50), draw.randint(-50, 50)),
    'limits': lambda draw: (draw.choice([-LIMIT, LIMIT, 0]), draw.choice([-LIMIT, LIMIT, 1]), draw.choice([-LIMIT, LIMIT]))}


def drawn(draw: random.Random) -> Scan:
    """Returns a small scan of some kind, its scanners far out, among the points and at points."""
    kind = draw.choice(list(KINDS))
    points = list(dict.fromkeys(KINDS[kind](draw) for _ in range(draw.randint(1, 7))))
    scanners = [draw.choice([draw.choice(points), (0, 0, 0), (draw.randint(-8, 8), draw.randint(-8, 8), draw.randint(-8, 8)), (LIMIT, -LIMIT, 7)])
                for _ in range(draw.randint(1, 3))]
    rows = [Row(p, draw.choice([1, 1, 2, 255]), tuple(draw.randrange(len(scanners)) for _ in range(draw.choice([0, 1, 1, 2])))) for p in points]
    return Scan(rows, scanners)


def best_by_trying(network: Network) -> set[int]:
    """Returns the intersection of all labels of least cost, by trying all labels."""
    free = [k for k, fixed in enumerate(network.fixed) if not fixed]
    every = [set(some) for n in range(len(free) + 1) for some in combinations(free, n)]
    least = min(network.cost(labels) for labels in every)
    return set.intersection(*(labels for labels in every if network.cost(labels) == least))


class Networks(unittest.TestCase):
    def test_cells_of_degenerate_scans(self) -> None:
        """They fill the box; no cell is across exactly on a wall; and each line of sight walks from its point to its scanner's cell."""
        draw = random.Random(4)
        for _ in range(12):
            scan = drawn(draw)
            cells = Cells(scan.points())
            self.assertEqual(sum(orientation(*cells.at(cell)) for cell in cells.cells), 6 * (2 * BOX) ** 3)
            for f in cells.owner:
                is_wall = max(f) < 8 and any(len({v[axis] for v in cells.at(f)}) == 1 for axis in range(3))
                self.assertEqual(cells.across(f) is None, is_wall)
            for sight in scan.sights():
                self.walks(cells, sight.vertex, scan.scanners[sight.scanner])

    def walks(self, cells: Cells, v: int, scanner: Point) -> None:
        """The crossed facets, nearest first, lead from a cell at the point to the cell that holds the scanner."""
        def nearness(f: Facet) -> Fraction:
            a, b, c = cells.at(f)
            return Fraction(-orientation(a, b, c, cells.vertices[v]), side(a, b, c, scanner))

        (k,) = [k for k, row in enumerate(cells.rows) if v in row and all(s > 0 for s in cells.sides_at(k, v, scanner))]
        crossed = cells.crossed(v, scanner)
        for f in sorted(crossed, key=nearness):
            self.assertEqual(cells.across(f), k)
            k = cells.owner[f]
        self.assertEqual(k, cells.scanner_cell(scanner))

    def test_a_cut_is_the_smallest_of_least_cost(self) -> None:
        draw, tried = random.Random(5), 0
        for _ in range(24):
            network = Model().network(drawn(draw), draw.choice([1, 2, 8]), draw.choice([0, 1, 3, 20]))
            if sum(not fixed for fixed in network.fixed) <= 9:
                tried += 1
                self.assertEqual(least_inside(network, maximum(network)), best_by_trying(network))
        self.assertGreater(tried, 8)

    def test_surfaces_are_closed_and_accepted(self) -> None:
        draw, stamp = random.Random(6), Stamp('0' * 64, 1, None)
        for _ in range(12):
            scan, vote, smooth = drawn(draw), draw.choice([1, 8]), draw.choice([0, 1])
            solution = Model().solve(scan, vote, smooth)
            mesh, cert = push_mesh(solution.mesh), push_certificate(certificate_of(scan, vote, smooth, solution, stamp))
            self.assertEqual((push_mesh(read_mesh(mesh)), push_certificate(read_certificate(cert))), (mesh, cert))
            found = check(Model(), scan, vote, smooth, stamp, mesh, cert)
            self.assertEqual(found[1:], (len(solution.inside), len(solution.mesh.faces), solution.cost))
            self.assertEqual(read_scan(push_scan(scan)).sights(), scan.sights())
            for height in {p[2] for p in solution.mesh.points}:
                cut = [k for k, f in enumerate(solution.mesh.faces) if len({solution.mesh.points[v][2] > height for v in f}) == 2]
                self.assertEqual(sorted(step.face for loop in slice_of(solution.mesh, height) for step in loop), cut)

    def test_worked_places(self) -> None:
        self.assertEqual(Cells([]).rows[Cells([]).scanner_cell((0, 0, 0))], (3, 4, 5, 6))
        cells = Cells(FOUR)
        self.assertIn((9, 11, 10), cells.crossed(8, (-1000, -1000, -1000)))
        self.assertEqual(cells.rows[cells.across((9, 11, 10)) or 0], (8, 9, 10, 11))
        cells = Cells(CUBE)
        behind = [cells.rows[cells.behind(8 + i, (10 * x, 10 * y, 10 * z))] for i, (x, y, z) in enumerate(CUBE)]
        self.assertEqual(behind, [(8, 9, 10, 12)] + [(9, 10, 11, 12)] * 4 + [(9, 11, 12, 13), (10, 11, 12, 14), (11, 13, 14, 15)])

    def test_a_new_vertex_replaces_cells_that_join(self) -> None:
        draw = random.Random(7)
        for _ in range(6):
            points = list(dict.fromkeys(KINDS['lattice'](draw) for _ in range(5)))
            cells, more = Cells(points[:-1]), CORNERS + points
            hit = {k for k, cell in enumerate(cells.cells) if conflict(more, cell, len(more) - 1)}
            around = [f for k in hit for f in facets_of(cells.cells[k]) if cells.across(f) not in hit]
            self.assertGreater(min(orientation(more[a], more[b], more[c], points[-1]) for a, b, c in around), 0)
            new = {tuple(sorted((*f, len(more) - 1))) for f in around} | {row for k, row in enumerate(cells.rows) if k not in hit}
            self.assertEqual(sorted(new), Cells(points).rows)

    def test_wrong_definitions_answer_otherwise(self) -> None:
        """Visibility weights on the opposite facets, or on the cell before the point; a sphere through eight points, all of them in conflict."""
        def cost(network: Network) -> int:
            return network.cost(least_inside(network, maximum(network)))

        scan = read_scan(FIVE_SIGHTS)
        network = Model().network(scan, 8, 1)
        self.assertEqual(cost(network), 20)
        capacity = {arc.facet: arc.capacity for arc in network.arcs}
        network.arcs = [Arc(f, own, to, capacity.get(opposite(f), 1)) for f, own, to, _ in network.arcs]
        self.assertEqual(cost(network), 12)
        network = Model().network(read_scan(TETRAHEDRON), 8, 1)
        network.fixed = [row[0] < 8 for row in network.cells.rows]
        self.assertEqual(cost(network), 4)
        vertices = CORNERS + read_scan(BLOCK).points()
        inner = [positive(vertices, row) for row in Cells(CUBE[:7]).rows if row[0] >= 8]
        self.assertEqual([plain_power([vertices[i] for i in cell or ()], CUBE[7]) for cell in inner], [0] * len(inner))


if __name__ == '__main__':
    unittest.main()

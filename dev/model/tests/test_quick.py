"""The quicker ways of dev/fuzz beside the model."""
from __future__ import annotations

import random
import unittest

import common
from fuzz.quick import Quick, QuickCells, by_insertion, by_levels
from fuzz.shapes import SMOOTHS, VOTES, drawn_scan
from model.cells import Cells, delaunay
from model.flow import maximum, value
from model.points import CORNERS
from model.scans import read_scan
from model.solution import Model
from model.votes import Network


class QuickWays(unittest.TestCase):
    def test_cells_and_walks(self) -> None:
        draw = random.Random(8)
        for _ in range(25):
            scan = drawn_scan(draw, draw.choice([1, 3, 5, 6])).scan
            points = scan.points()
            self.assertEqual(by_insertion([*CORNERS, *points]), delaunay([*CORNERS, *points]))
            plain, quick = Cells(points), QuickCells(points)
            for sight in scan.sights()[:6]:
                scanner = scan.scanners[sight.scanner]
                self.assertEqual(sorted(quick.crossed(sight.vertex, scanner)), sorted(plain.crossed(sight.vertex, scanner)))
                self.assertEqual((quick.behind(sight.vertex, scanner), quick.scanner_cell(scanner)),
                                 (plain.behind(sight.vertex, scanner), plain.scanner_cell(scanner)))

    def test_flows_and_solutions(self) -> None:
        draw, quick = random.Random(9), Quick()
        for _ in range(20):
            scan, vote, smooth = drawn_scan(draw, 5).scan, draw.choice(VOTES), draw.choice(SMOOTHS)
            one, two = Model().solve(scan, vote, smooth), quick.solve(scan, vote, smooth)
            self.assertEqual((one.inside, one.cost, one.mesh), (two.inside, two.cost, two.mesh))
            network: Network = one.network
            self.assertEqual(two.network.arcs, network.arcs)
            self.assertEqual(value(network, maximum(network)), value(network, by_levels(network)))

    def test_answers_are_kept(self) -> None:
        quick = Quick()
        self.assertIs(quick.read_scan(common.BLOCK, 1, None), quick.read_scan(common.BLOCK, 1, None))
        self.assertEqual(quick.read_scan(common.BLOCK, 1, None), read_scan(common.BLOCK))


if __name__ == '__main__':
    unittest.main()

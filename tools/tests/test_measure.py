"""What measures surfaces: distances to triangles, edges, crossings; with numpy alone."""
from __future__ import annotations

import random
import unittest
from typing import Any, Sequence

from helpers import InFolder, call, equal, read, write
from samples import ball, mesh_text

try:
    import numpy as np
except ImportError:
    np = None

CUBE = 'OFF\n8 12 0\n' + ''.join(f'{k & 1} {k >> 1 & 1} {k >> 2}\n' for k in range(8)) + ''.join(
    f'3 {a} {b} {c}\n' for a, b, c in ((0, 2, 1), (1, 2, 3), (4, 5, 6), (5, 7, 6), (0, 1, 4), (1, 5, 4), (2, 6, 3), (3, 6, 7),
                                       (0, 4, 2), (2, 4, 6), (1, 3, 5), (3, 7, 5)))


def nearest_by_trying(place: list[float], triangle: Sequence[Any], steps: int = 60) -> float:
    """Returns the distance to the nearest of many places of a triangle."""
    best = float('inf')
    for i in range(steps + 1):
        for j in range(steps + 1 - i):
            parts = i / steps, j / steps, (steps - i - j) / steps
            spot = [sum(part * corner[k] for part, corner in zip(parts, triangle)) for k in range(3)]
            best = min(best, sum((x - y) ** 2 for x, y in zip(place, spot)) ** 0.5)
    return best


class Measure(InFolder):
    @unittest.skipUnless(np is not None, 'numpy is not here')
    def test_distances_to_triangles(self) -> None:
        from bench import objects
        draw = random.Random(5)
        for _ in range(40):
            rows = [[draw.uniform(-1, 1) for _ in range(3)] for _ in range(4)]
            far, = objects.to_triangles(*(np.array([row]) for row in rows))
            tried = nearest_by_trying(rows[0], rows[1:])
            equal(tried - 0.06 < far < tried + 1e-9, True)
        rows = np.array([[[5, 0, 0], [0, 0, 0], [1, 0, 0], [2, 0, 0]], [[0, 4, 3], [0, 0, 0], [0, 0, 0], [0, 0, 0]]], float)
        equal(objects.to_triangles(*rows.transpose(1, 0, 2)).tolist(), [3, 5])
        places, faces = ball(5, 1000)
        surface = objects.Surface(np.array(places, float), np.array(faces))
        asked = np.array([[draw.uniform(-1500, 1500) for _ in range(3)] for _ in range(30)])
        corners = np.array(places, float)[np.array(faces)]
        wanted = [objects.to_triangles(np.repeat(place[None], len(faces), axis=0), *corners.transpose(1, 0, 2)).min() for place in asked]
        equal(np.allclose(surface.distances(asked)[0], wanted), True)

    @unittest.skipUnless(np is not None, 'numpy is not here')
    def test_surfaces_beside_their_object(self) -> None:
        write('cube.off', CUBE)
        wide = 1000 / 3 ** 0.5 / 2
        rows = [[(wide if float(word) else -wide) for word in line.split()] for line in CUBE.splitlines()[2:10]]
        faces = [tuple(map(int, line.split()[1:])) for line in CUBE.splitlines()[10:]]
        write('same.ply', mesh_text(rows, faces).replace('property int', 'property double'))
        write('open.ply', mesh_text([[x, y, z + 7] for x, y, z in rows], faces[2:4]).replace('property int', 'property double'))
        status, said, error = call('bench', 'surfaces', 'compare', 'cube.off', 'same.ply', 'open.ply', 'samples=500')
        lines = [line.split(' | ') for line in said.splitlines()]
        equal((status, error), (0, ''))
        equal(lines[1][1:], ['0.000 / 0.00 / 0.0', '0.000 / 0.00 / 0.0', '0', '0', '1', '60.0', '0.0', '0', '12'])
        equal((lines[2][1], lines[2][3:]), ('7.000 / 7.00 / 7.0', ['4', '0', '1', '0.0', '0.0', '0', '2']))

    @unittest.skipUnless(np is not None, 'numpy is not here')
    def test_scans_of_an_object_are_seen_from_outside(self) -> None:
        write('cube.off', CUBE)
        equal(call('bench', 'surfaces', 'scan', 'cube.off', 'out.ply', 'points=300', 'noise=0')[0], 0)
        rows = [list(map(float, row.split())) for row in read('out.ply').split('end_header\n')[1].splitlines()]
        points, scanners = rows[:300], rows[300:]
        wide = 1000 / 3 ** 0.5 / 2
        equal(len(scanners), 12)
        for *place, index in points:
            sides = [k for k in range(3) if abs(abs(place[k]) - wide) < 1e-3]
            equal(bool(sides) and all(scanners[int(index)][k] * place[k] > wide * wide for k in sides), True)

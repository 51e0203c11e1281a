"""Scans from points with normals."""
from __future__ import annotations

import subprocess
import unittest
from typing import Any

from helpers import RECON, InFolder, call, equal, head, read, refuses, write

NORMALS = 'float x, float y, float z, float nx, float ny, float nz'


def scanners_of(name: str) -> Any:
    """Returns the point rows of a scan, and its scanners."""
    text, body = read(name).split('end_header\n')
    count = int(text.split('element vertex ')[1].split()[0])
    rows = body.splitlines()
    return [row.split() for row in rows[:count]], [tuple(map(float, row.split())) for row in rows[count:]]


def grid_text(side: int, step: int) -> str:
    """Points of a level square, each with its normal up."""
    return ''.join(f'{i * step} {j * step} 0 0 0 1\n' for i in range(side) for j in range(side))


class Normals(InFolder):
    def test_a_scanner_for_each_point(self) -> None:
        write('in.ply', head(5, NORMALS + ', uchar red') + '1 2 3 0 0 2 9\n4 5 6 0 0 0 9\n7 8 9 -3 0 0 8\nnan 0 0 0 0 1 7\n'
              '1 1 1 0 nan 1 7\n')
        status, said, error = call('scan', 'in.ply', 'out.ply', 'normals=yes', 'far=0.5')
        equal((status, error), (0, ''))
        equal('left out 2 not finite, 1 without a normal; wrote 2 points and 2 scanners to out.ply; scanners at distance 0.5; '
              'normals are not checked' in said, True)
        equal(scanners_of('out.ply'), ([['1', '2', '3', '0', '0', '2', '9', '0'], ['7', '8', '9', '-3', '0', '0', '8', '1']],
                                       [(1, 2, 3.5), (6.5, 8, 9)]))
        write('in.xyz', '1 2 3 0 0 2\n\n7.10 8 9 -3 0 0\n')
        equal(call('scan', 'in.xyz', 'out.ply', 'normals=yes', 'far=0.5')[0], 0)
        equal(scanners_of('out.ply')[0][1], ['7.10', '8', '9', '-3', '0', '0', '1'])

    def test_normals_of_a_pcd(self) -> None:
        lines = ['VERSION 0.7', 'FIELDS x y z normal_x normal_y normal_z', 'SIZE 4 4 4 4 4 4', 'TYPE F F F F F F', 'COUNT 1 1 1 1 1 1',
                 'WIDTH 2', 'HEIGHT 1', 'VIEWPOINT 9 9 9 1 0 0 0', 'POINTS 2', 'DATA ascii', '1 2 3 0 0 2', '4 5 6 nan nan nan', '']
        write('in.pcd', '\n'.join(lines))
        equal(call('scan', 'in.pcd', 'out.ply', 'normals=yes', 'far=0.5')[0], 0)
        equal(scanners_of('out.ply'), ([['1', '2', '3', '0', '0', '2', '0', '0']], [(1, 2, 3.5)]))

    def test_one_spacing_off_and_scanners_that_are_shared(self) -> None:
        write('in.xyz', grid_text(12, 2))
        equal(call('scan', 'in.xyz', 'out.ply', 'normals=yes')[0], 0)
        high = scanners_of('out.ply')[1][0][2]
        # four neighbors at 2 and two at 2 * 2 ** 0.5
        equal(abs(high - (4 * 2 + 2 * 8 ** 0.5) / 6) < 1e-6, True)
        write('in.xyz', grid_text(270, 1))
        said = call('scan', 'in.xyz', 'out.ply', 'normals=yes', 'far=4')[1]
        rows, scanners = scanners_of('out.ply')
        equal((len(rows), len(scanners), said.count('wrote 72900 points and 18225 scanners to out.ply; scanners at distance 4')), (72900, 18225, 1))
        far = [abs(float(row[k]) - scanners[int(row[6])][k]) for row in rows for k in (0, 1)]
        equal((max(far), {scanner[2] for scanner in scanners}), (0.5, {4.0}))
        # near scanners are shared too
        equal(call('scan', 'in.xyz', 'out.ply', 'normals=yes', 'far=0.25')[0], 0)
        rows, scanners = scanners_of('out.ply')
        equal((30000 < len(scanners) <= 65536, {scanner[2] for scanner in scanners}), (True, {0.25}))
        far = [abs(float(row[k]) - scanners[int(row[6])][k]) for row in rows for k in (0, 1)]
        equal(max(far) <= 0.5, True)

    def test_what_has_no_normals(self) -> None:
        write('in.ply', head(1, 'float x, float y, float z') + '1 2 3\n')
        refuses('scan', 'no properties nx, ny and nz', 'in.ply', 'out.ply', 'normals=yes')
        write('in.xyz', '1 2 3 4\n')
        refuses('scan', 'fewer than six values', 'in.xyz', 'out.ply', 'normals=yes')
        write('in.xyz', '1 2 3 0 0 1\n1 2 3 0 0 1 5\n')
        refuses('scan', 'line 2 has 7 values, the first line has 6', 'in.xyz', 'out.ply', 'normals=yes')
        write('in.xyz', '1 2 3 0 0 x\n')
        refuses('scan', 'point 0: x is not a number', 'in.xyz', 'out.ply', 'normals=yes')
        write('in.xyz', '1 2 3 0 0 0\n')
        refuses('scan', 'no point has a finite normal', 'in.xyz', 'out.ply', 'normals=yes')
        write('in.xyz', '1 2 3 0 0 1\n')
        refuses('scan', 'too few points', 'in.xyz', 'out.ply', 'normals=yes')
        refuses('scan', 'far= (the distance of a scanner from its point)', 'in.xyz', 'out.ply', 'normals=yes', 'far=0')

    @unittest.skipUnless(RECON, 'recon is not built here')
    def test_recon_builds_a_ball_of_points_with_normals(self) -> None:
        golden, rows = 2.399963229728653, []
        from math import cos, sin
        for k in range(400):
            z = 1 - (2 * k + 1) / 400
            ring = (1 - z * z) ** 0.5
            place = f'{ring * cos(golden * k):.5f} {ring * sin(golden * k):.5f} {z:.5f}'
            rows.append(f'{place} {place}\n')
        write('in.xyz', ''.join(rows))
        equal(call('scan', 'in.xyz', 'out.ply', 'normals=yes')[0], 0)
        done = subprocess.run([RECON, 'build', 'out.ply', 'mesh', 'cert', 'unit=1000'], capture_output=True, text=True)
        # 400 points on a closed surface without a handle have 796 faces, and no sight is against them
        equal(done.stdout.split('faces ')[1], '796 cost 796\n')


class Moved(InFolder):
    def test_coordinates_are_divided_exactly(self) -> None:
        write('in.xyz', '123456789 -5 1e3\n0 0 7.25\n')
        equal(call('scan', 'in.xyz=1000,0,0', 'out.ply', 'divide=1000', 'origin=1000,0,0')[0], 0)
        equal(scanners_of('out.ply'), ([['123455.789', '-0.005', '1', '0'], ['-1', '0', '0.00725', '0']], [(0, 0, 0)]))
        refuses('scan', 'divide= must be a power of ten', 'in.xyz=1,2,3', 'out.ply', 'divide=3')

    def test_surround_outdoors_warns(self) -> None:
        write('in.xyz', grid_text(40, 1).replace(' 0 0 1\n', '\n'))
        equal('surround= is for scans from inside, and only' in call('scan', 'in.xyz=20,20,9', 'out.ply', 'surround=3')[1], True)
        draw = __import__('random').Random(1)
        rows = [[draw.gauss(0, 1) for _ in range(3)] for _ in range(3000)]
        write('in.xyz', ''.join(' '.join(f'{x / sum(y * y for y in row) ** 0.5:.5f}' for x in row) + '\n' for row in rows))
        equal('surround= is for scans from inside' in call('scan', 'in.xyz=0,0,0', 'out.ply', 'surround=3')[1], False)

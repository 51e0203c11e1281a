"""Stations put together: of a PTX, of files, of a table."""
from __future__ import annotations

import os
import random
from decimal import Decimal

from helpers import SCAN, InFolder, binary, call, equal, head, holds, read, refuses, says, write
from recon.toolbox.exact import Pose

FIRST_STATION = """2
2
1 2 3
1 0 0
0 1 0
0 0 1
0 1 0 0
-1 0 0 0
0 0 1 0
1 2 3 1
0.5 0.25 0.125 0.5 255 0 0
0 0 0 0.5 0 0 0
1 0 0 0.5 0 0 0
nan 0 0 0.5 0 0 0
"""


PTX = FIRST_STATION + """1
1
0 0 5
1 0 0
0 1 0
0 0 1
1 0 0 0
0 1 0 0
0 0 1 0
0 0 0 1
7.1234567890123456789012345678 8 9 0.1
"""


class Stations(InFolder):
    def test_stations_of_a_ptx_are_brought_to_their_places(self) -> None:
        # a quarter turn about z: x goes to y, and y to -x
        for end in ('\n', '\r\n'):
            write('in.ptx', PTX.replace('\n', end))
            says('scan', 'read 2 stations with 5 rows of in.ptx; left out 1 empty, 1 not finite; wrote 3 points and 2 scanners '
                 'to out.ply', 'in.ptx', 'out.ply')
            holds('out.ply', head(3, SCAN + ', uchar red, uchar green, uchar blue, double intensity', 2)
                  + '0.75 2.5 3.125 0 255 0 0 0.5\n1 3 3 0 0 0 0 0.5\n7.1234567890123456789012345678 8 9 1 0 0 0 0.1\n1 2 3\n0 0 5\n')

    def test_columns_that_not_all_files_have_are_named(self) -> None:
        write('hue.xyz', '1 2 3 9 8 7\n2 3 4 9 8 8\n')
        write('bare.xyz', '1 2 3\n')
        write('gray.xyz', '5 6 7 0.5\n')
        wrote = 'left out nothing; wrote {} points and 2 scanners to out.ply'
        says('scan', 'read 3 points of 2 files; ' + wrote.format(3) + '; colors left out, since bare.xyz has none',
             'hue.xyz=0,0,5', 'bare.xyz=0,0,6', 'out.ply')
        says('scan', 'read 3 points of 2 files; ' + wrote.format(3) + '; colors left out, since gray.xyz has none; intensity left out, since '
             'hue.xyz has none', 'hue.xyz=0,0,5', 'gray.xyz=0,0,6', 'out.ply')
        says('scan', 'read 4 points of 2 files; ' + wrote.format(4), 'hue.xyz=0,0,5', 'hue.xyz=0,0,6', 'out.ply')

    def test_products_of_a_ptx_are_exact(self) -> None:
        # 0.6, 0.8 is a turn; products by hand: 1.000001 * 0.6 = 0.6000006, 1.000001 * 0.8 = 0.8000008
        station = '1\n1\n0 0 0\n1 0 0\n0 1 0\n0 0 1\n0.6 0.8 0 0\n-0.8 0.6 0 0\n0 0 1 0\n1000.5 0 1e-3 1\n1.000001 0 2 0.5\n'
        write('in.ptx', station)
        equal(call('scan', 'in.ptx', 'out.ply')[0], 0)
        holds('out.ply', head(1, SCAN + ', double intensity', 1) + '1001.1000006 0.8000008 2.001 0 0.5\n1000.5 0 1e-3\n')
        # over 30 digits: 1.1 at 1e-40 beside 1000.5 is rounded away, and nothing else is
        write('in.ptx', station.replace('1.000001 0 2', '1e-40 0 2'))
        equal(call('scan', 'in.ptx', 'out.ply')[0], 0)
        equal(read('out.ply').split('end_header\n')[1].split()[0], '1000.5')

    def test_both_ways_to_turn_a_point_agree(self) -> None:
        draw = random.Random(1)
        forms = ('{:.6f}', '{:.3f}', '{:.0f}.', '{:.9f}', '+{:.0f}', '0{:.2f}', '{:.3e}')
        for _ in range(300):
            matrix = [[Decimal(draw.choice(forms[:4]).format(draw.uniform(-3, 3))) for _ in range(3)] for _ in range(4)]
            pose = Pose(matrix)
            for _ in range(10):
                point = [draw.choice(forms).format(draw.uniform(0, 50)) for _ in range(3)]
                equal(pose.transform(point), pose.transform_any(point))
        rows = (('1', '0', '0'), ('0', '-1', '0'), ('0', '0', '0.50'), ('1', '0', '-1'))
        pose = Pose([list(map(Decimal, row)) for row in rows])
        equal(pose.transform(['-1', '0.00', '2.5']), ['0', '0', '0.25'])
        equal(pose.transform(['-.5', '-7', '1' * 40]), ['0.5', '7', '5' * 29 + '6' + '0' * 9])

    def test_where_a_ptx_station_stood(self) -> None:
        def station(place: str, origin: str) -> str:
            return f'1\n1\n{place}\n1 0 0\n0 1 0\n0 0 1\n1 0 0 0\n0 1 0 0\n0 0 1 0\n{origin} 1\n1 1 1 0.5\n'
        for place, origin, words, wanted in (('1 2 3', '1 2 3.0005', (), '1 2 3.0005'), ('0 0 0', '1 2 3', (), '1 2 3'),
                                             ('1 2 3', '0 0 0', (), '1 2 3'), ('1 2 3', '4 5 6', ('position=header',), '1 2 3'),
                                             ('1 2 3', '4 5 6', ('position=matrix',), '4 5 6')):
            write('in.ptx', station(place, origin))
            equal(call('scan', 'in.ptx', 'out.ply', *words)[0], 0)
            equal(read('out.ply').splitlines()[-1], wanted)
        write('in.ptx', station('1 2 3', '4 5 6'))
        refuses('scan', 'choose one with position=', 'in.ptx', 'out.ply')
        refuses('scan', 'position= must be header or matrix', 'in.ptx', 'out.ply', 'position=x')

    def test_ptx_files_that_are_refused(self) -> None:
        for old, new, part in (('1\n1\n0 0 5', '1\n0 0 5', 'line 16 is not the number'), ('1\n1\n0 0 5', 'x\n1\n0 0 5', 'line 15 is not'),
                               ('1 2 3\n', '1 2\n', 'line 3'),
                               ('0 1 0 0', '0 1 0 1', 'last column'), ('0.5 0.25 0.125', '0.5 a 0.125', 'line 11: a is not a number'),
                               ('0.5 0.25 0.125 0.5 255 0 0', '0.5', 'line 11')):
            write('in.ptx', PTX.replace(old, new, 1))
            refuses('scan', part, 'in.ptx', 'out.ply')
        write('in.ptx', '')
        refuses('scan', 'empty', 'in.ptx', 'out.ply')

    def test_files_of_stations(self) -> None:
        write('a b.csv', 'X;Y;Z;I\n1;2.50;3;4\n# a remark\n\n4;5;nan;7\n')
        write('c.pts', '1\n1 2 3 -10 1 2 3\n1\n+4. 5 6 7 8 9 1\n')
        write('d=e.xyz', '// a remark\r\n7\t8\t9e-1\r\n')
        write('f.ply', binary('>', '\n', [(0.5, 2, 3, 4)]))
        write('g.txt', b'\xef\xbb\xbf"X","Y","H\xf6he"\n1.0,2.0,3.0\n')
        line = ('read 7 points of 5 files; left out 1 not finite, 2 heading; wrote 6 points and 5 scanners to out.ply'
                '; colors left out, since a b.csv has none; intensity left out, since d=e.xyz has none')
        rows = '1 2.50 3 0\n1 2 3 1\n+4. 5 6 1\n7 8 9e-1 2\n0.5 2.0 3.0 3\n1.0 2.0 3.0 4\n0 0 0\n-1 2 3\n1 1 1e1\n2 2 2\n3 3 3.50\n'
        says('scan', line, 'a b.csv=0,0,0', 'c.pts=-1,2,3', 'd=e.xyz=1,1,1e1', 'f.ply=2,2,2', 'g.txt=3,3,3.50', 'out.ply')
        holds('out.ply', head(6, SCAN, 5) + rows)
        os.mkdir('folder')
        write('folder/table', '# X Y Z FILE\n0 0 0 ../a b.csv\n-1 2 3 ../c.pts\n1 1 1e1 ../d=e.xyz\n2 2 2\t../f.ply\n'
              '3 3 3.50 ../g.txt\n')
        says('scan', line, 'out.ply', 'table=folder/table')
        holds('out.ply', head(6, SCAN, 5) + rows)

    def test_files_of_stations_that_are_refused(self) -> None:
        for text, part in (('1 2\n', 'line 1 has 2 values, a point has three'),
                           ('1 2 3\n4 5\n', 'line 2 has 2 values, the first row has 3'), ('1 2 3\n4 5 6 7\n', 'line 2 has 4'),
                           ('1 2 3\nx y z\n', 'line 2: x is not a number'), ('1;2,5;3\n', '2,5 is not a number'),
                           ('2\n1 2 3\n', 'row 1 of 2'), ('1\n1 2 3\n4 5 6\n', 'line 3'), ('2\n2\n0 0 0\n', 'a PTX has its own scanner positions'),
                           ('x y z\na b c\n', 'line 2: a is not a number'), ('1 2 3\n' + '4' * 5000, 'too long')):
            write('a.xyz', text)
            refuses('scan', 'a.xyz: ', 'a.xyz=0,0,0', 'out.ply')
            refuses('scan', part, 'a.xyz=0,0,0', 'out.ply')
        refuses('scan', 'the position of a.xyz is not X,Y,Z', 'a.xyz=0,0', 'out.ply')
        refuses('scan', 'No such file', 'none.xyz=0,0,0', 'out.ply')
        write('table', '# none\n')
        refuses('scan', 'no station', 'out.ply', 'table=table')
        refuses('scan', 'no input file', 'out.ply')

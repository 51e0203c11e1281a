"""COLMAP's points, points with normals and points of a flight, read in blocks: the same as row by row."""
from __future__ import annotations

import os
import random
import signal
import struct
from typing import Any
from unittest.mock import patch

from helpers import InFolder, equal, head, write
from recon.toolbox import processes, read_ahead, text_columns
from test_blocks import converted, gathered_with

BOX = {'from': '-5,-5,-5', 'to': '5,5,5'}
MOVED: tuple[dict[str, str], ...] = ({}, {'origin': '1,2,3'}, BOX, {'side': '2'}, {'surround': '2'}, {**BOX, 'outside': 'yes'})
NAN = float('nan')


def numbers(draw: random.Random, count: int) -> list[float]:
    return [NAN if draw.random() < 0.02 else round(draw.uniform(-10, 10), 3) for _ in range(count)]


def same(names: list[str], given: dict[str, str], wanted: bool = True) -> None:
    """The files give the same in blocks and row by row, as arrays and as text; unless `wanted` they are read row by row alone."""
    for moved in MOVED:
        blocks, rows = converted(names, {**given, **moved}, True), converted(names, {**given, **moved}, False)
        equal((moved, blocks), (moved, rows if wanted else None))
    equal(str(gathered_with(names, given, True)), str(gathered_with(names, given, False) if wanted else None))


class Images(InFolder):
    def setUp(self) -> None:
        super().setUp()
        pose = ''.join(f'{number} 1 0 0 0 {number} 0.5 2 1 {number}.jpg\n\n' for number in (7, 3, 12))
        write('images.txt', pose)
        names = [struct.pack('<I7dI', number, 1, 0, 0, 0, number, 0.5, 2, 1) + b'a.jpg\0' + struct.pack('<Q', 0) for number in (7, 3, 12)]
        write('images.bin', struct.pack('<Q', 3) + b''.join(names))

    def test_dense_points(self) -> None:
        draw, count = random.Random(1), 900
        lists = [[draw.randrange(3) for _ in range(draw.choice((0, 1, 2, 5)))] for _ in range(count)]
        vis = struct.pack('<Q', count) + b''.join(struct.pack(f'<I{len(numbers)}I', len(numbers), *numbers) for numbers in lists)
        rows = b''.join(struct.pack('<ddd3B', *numbers(draw, 3), 1, 2, draw.randrange(256)) for _ in range(count))
        columns = 'double x, double y, double z, uchar red, uchar green, uchar blue'
        write('fused.ply', head(count, columns).replace('ascii', 'binary_little_endian').encode('ascii') + rows)
        write('fused.ply.vis', vis)
        same(['fused.ply'], {'images': 'images.txt'})
        for spoiled in (vis[:-1], vis[:9], vis[:4], struct.pack('<Q', 1) + vis[8:], vis[:8] + b'\xff' * 4 + vis[12:]):
            write('fused.ply.vis', spoiled)
            same(['fused.ply'], {'images': 'images.txt'}, converted(['fused.ply'], {'images': 'images.txt'}, False) is not None)

    def test_sparse_points(self) -> None:
        draw, count = random.Random(2), 900
        points = b''
        for k in range(count):
            track = [draw.choice((3, 7, 12)) for _ in range(draw.choice((0, 1, 2, 9)))]
            pairs = [number for picture in track for number in (picture, draw.randrange(99))]
            points += struct.pack(f'<Q3d3BdQ{len(pairs)}I', k, *numbers(draw, 3), 1, 2, draw.randrange(256), 0.5, len(track), *pairs)
        whole = struct.pack('<Q', count) + points
        write('points3D.bin', whole)
        same(['points3D.bin'], {})
        for spoiled in (whole[:-1], whole + b'\0', whole[:60], whole[:5], whole.replace(struct.pack('<I', 12), struct.pack('<I', 13))):
            write('points3D.bin', spoiled)
            equal(os.path.getsize('points3D.bin'), len(spoiled))
            same(['points3D.bin'], {}, False)


    def test_sparse_points_of_a_text(self) -> None:
        draw, count, lines = random.Random(7), 900, ['# 3D points', '']
        for k in range(count):
            track = [draw.choice((3, 7, 12)) for _ in range(draw.choice((0, 1, 2, 9, 500 if k == 20 else 1)))]
            pairs = [number for picture in track for number in (picture, draw.randrange(99))]
            lines.append(' '.join(map(str, [k, *numbers(draw, 3), 1, 2, f'0{draw.randrange(256)}', 0.5, *pairs])))
        text = '\n'.join([*lines, ''])
        for whole in (text, text[:-1], text.replace('\n', '\r\n'), text.replace(' 2 0', '\t2  0')):
            write('points3D.txt', whole)
            same(['points3D.txt'], {})
        for spoiled in (text + '# more\n', text + '7 1 2 3 1 2 3 0.5 13 1\n', text + '7 1 2 3 1 2 256 0.5\n', text + '7 1 2 3 1 2 3.0 0.5\n',
                        text + '7 1 2 3 1 2 3 0.5 7\n', text + '7 1 2 3 1 2 3\n', text + '7 1 x 3 1 2 3 0.5\n', text + '7 1 2 3 1 2 3 0.5 -7 1\n'):
            write('points3D.txt', spoiled)
            same(['points3D.txt'], {}, False)


COLUMNS = 'double x, double y, double z, uchar red, uchar weight, list uchar int scanner'


class Lists(InFolder):
    def rows(self) -> list[list[float]]:
        draw = random.Random(8)
        lists = [[draw.randrange(3) for _ in range(draw.choice((0, 1, 2, 5)))] for _ in range(900)]
        return [[*numbers(draw, 3), draw.randrange(256), 1 + draw.randrange(255), len(seen_by), *seen_by] for seen_by in lists]

    def test_a_text(self) -> None:
        begin, end = head(900, COLUMNS, 3), '1 2 3\n4 5 6\n7 8 9\n'
        lines = [' '.join(map(str, row)) + '\n' for row in self.rows()]
        write('in.ply', begin + ''.join(lines) + end)
        same(['in.ply'], {})
        for line in ('1 2 3 4 1 1 3\n', '1 2 3 4 1 2 0\n', '1 2 3 4 1 1 0.0\n', '1 2 3 4 1 1 nan\n', '1 2 3 4 1 1 -1\n', '1 2 3 4 1.5 1 0\n', '1 2 3 4 1\n', '1 2 3 4 1 0\n0\n'):
            write('in.ply', begin + ''.join([*lines[:-1], line]) + end)
            equal(gathered_with(['in.ply'], {}, True), None)

    def test_binary(self) -> None:
        for order, name in (('<', 'little'), ('>', 'big')):
            begin = head(900, COLUMNS, 3).replace('ascii', f'binary_{name}_endian').encode('ascii')
            rows = [struct.pack(f'{order}3d3B{int(row[5])}i', *row[:3], *map(int, row[3:])) for row in self.rows()]
            end = struct.pack(f'{order}9d', *range(9))
            write('in.ply', begin + b''.join(rows) + end)
            same(['in.ply'], {})
            for spoiled in (struct.pack(f'{order}3d3Bi', 1, 2, 3, 4, 1, 1, 3), struct.pack(f'{order}3d3Bi', 1, 2, 3, 4, 1, 1, -1), struct.pack(f'{order}3d3B', 1, 2, 3, 4, 1, 200)):
                write('in.ply', begin + b''.join([*rows[:-1], spoiled]) + end)
                same(['in.ply'], {}, False)


class Views(InFolder):
    def test_points_that_say_from_where_they_were_seen(self) -> None:
        draw = random.Random(9)
        begin = ('VERSION 0.7\nFIELDS x vp_x y vp_y z vp_z rgb\nSIZE 8 4 8 4 8 4 4\nTYPE F F F F F F U\nCOUNT 1 1 1 1 1 1 1\nWIDTH 900\nHEIGHT 1\n'
                 'VIEWPOINT 0 0 0 1 0 0 0\nPOINTS 900\nDATA ')
        places = [(1.0, 2.0, 3.0), (1.0, -0.0, 3.0), (1.0, 0.0, 3.0), (NAN, 1.0, 1.0), (7.5, 1.0, 1.0)]
        rows = []
        for _ in range(900):
            point, place = numbers(draw, 3), draw.choice(places[:4] if len(rows) < 600 else places)
            rows.append([point[0], place[0], point[1], place[1], point[2], place[2], draw.randrange(1 << 24)])
        text = ''.join(' '.join(map(str, row)) + '\n' for row in rows).replace('1.0 ', '1.00 ', 40)
        for data in ((begin + 'ascii\n' + text).encode('ascii'), (begin + 'binary\n').encode('ascii') + b''.join(struct.pack('<dfdfdfI', *row) for row in rows)):
            write('in.pcd', data)
            write('other.pcd', data)
            same(['in.pcd'], {})
            same(['in.pcd', 'other.pcd', 'in.pcd=1,2,3'], {})


class Ahead(InFolder):
    """Parts that other processes read are the same as those that are read here."""

    def setUp(self) -> None:
        super().setUp()
        self.before = read_ahead.LARGE, text_columns.CHUNK, read_ahead.processors
        read_ahead.LARGE, text_columns.CHUNK, read_ahead.processors = 1, 1 << 11, lambda: 3

    def tearDown(self) -> None:
        read_ahead.LARGE, text_columns.CHUNK, read_ahead.processors = self.before
        super().tearDown()

    def files(self) -> dict[str, str]:
        draw = random.Random(10)
        rows = [[*numbers(draw, 3), round(draw.random(), 3), *(draw.randrange(256) for _ in range(3))] for _ in range(700)]
        text = ''.join(' '.join(map(str, row)) + '\n' for row in rows)
        matrix = '0.6 0.8 0 0\n-0.8 0.6 0 0\n0 0 1 0\n4482.512345678 5411.75 1.25 1\n'
        station = '70\n10\n0 0 0\n1 0 0\n0 1 0\n0 0 1\n' + matrix + text
        ply = head(700, 'double x, double y, double z, double intensity, uchar red, uchar green, uchar blue', 1)
        return {'in.xyz': text, 'in.csv': 'x,y,z,intensity,r,g,b\n' + text.replace(' ', ','), 'in.pts': '700\n' + text + '700\n' + text, 'in.ptx': station * 2,
                'in.ply': ply + text + '7 8 9\n'}

    def test_the_same(self) -> None:
        for name, text in self.files().items():
            lines, draw = text.splitlines(keepends=True), random.Random(11)
            for change in ('', '\n', '1 2 3\n', '1 2\n', 'a b c d e f g\n', '# 1 2\n', '1e400 2 3 4 5 6 7\n', '1.00000000000000000000000001 2 3 4 5 6 7\n'):
                at = draw.randrange(300, 650)
                line = change.replace(' ', ',') if name == 'in.csv' else change
                write(name, ''.join([*lines[:at], line, *lines[at + (change > '\n'):]]))
                names = [name] if name.endswith('.ptx') else [f'{name}=1,2,3']
                given = gathered_with(names, {}, True)
                read_ahead.processors = lambda: 0
                equal((name, change, str(given)), (name, change, str(gathered_with(names, {}, True))))
                read_ahead.processors = lambda: 3
            equal((name, given is None), (name, False))

    def test_helpers_that_end(self) -> None:
        text, rows = self.files()['in.xyz'], 0
        write('in.xyz', text)
        begun: list[processes.Helpers] = []

        class Noted(processes.Helpers):
            def __init__(self, *given: Any) -> None:
                super().__init__(*given)
                begun.append(self)

        with patch.object(read_ahead, 'Helpers', Noted), open('in.xyz', 'rb') as file:
            for part in read_ahead.all_rows(text_columns.LineParts(file, False), lambda part: text_columns.TextRows(part, 7)):
                rows += len(part.floats(1))
                if len(begun) == 1 and rows > 200:
                    for pid in begun[0].pids:
                        os.kill(pid, signal.SIGKILL)
        equal((rows, begun[0].pids), (700, []))


class Counts(InFolder):
    def test_a_count_of_many_digits(self) -> None:
        for name, text in (('in.pts', '1' * 4301 + '\n1 2 3\n'), ('in.ptx', '1\n' + '1' * 4301 + '\n1 2 3\n')):
            write(name, text)
            names = [name] if name == 'in.ptx' else [f'{name}=1,2,3']
            equal((gathered_with(names, {}, True), gathered_with(names, {}, False)), (None, None))


class Ways(InFolder):
    def rows(self) -> list[list[float]]:
        draw = random.Random(3)
        rows = [numbers(draw, 6) for _ in range(900)]
        for row, way in ((5, [0.0, 0.0, 0.0]), (9, [1e308, 1e308, 0.0]), (11, [5e-324, 0.0, 0.0]), (13, [1e300, 1e-300, 0.0])):
            rows[row] = [1.0, 2.0, 3.0, *way]
        return rows

    def test_a_file_of_rows(self) -> None:
        rows = self.rows()
        write('in.ply', head(len(rows), 'double x, double y, double z, double nx, double ny, double nz, uchar red')
              + ''.join(' '.join(map(repr, row)) + ' 7\n' for row in rows))
        for given in ({}, {'far': '0.5'}):
            same(['in.ply'], {'normals': 'yes', **given})
        write('in.ply', head(2, 'double x, double y, double z, double nx, double ny, double nz') + '1 2 3 0 0 0\n' * 2)
        same(['in.ply'], {'normals': 'yes'}, False)

    def test_a_list(self) -> None:
        lines = [' '.join(map(repr, row)) + ' 0.5\n' for row in self.rows()]
        write('in.xyz', ''.join(lines))
        same(['in.xyz'], {'normals': 'yes', 'far': '0.25'})
        write('in.xyz', ''.join(lines[:50]) + '1 2 3\n')
        same(['in.xyz'], {'normals': 'yes'}, False)

    def test_a_flight(self) -> None:
        draw, columns = random.Random(4), 'double x, double y, double z, double gpstime, uchar red'
        rows = [[*numbers(draw, 3), draw.choice((NAN, -1.0, 30.0, *(draw.uniform(0, 25) for _ in range(9)), 10.0, 20.0))] for _ in range(900)]
        write('in.ply', head(len(rows), columns) + ''.join(' '.join(map(repr, row)) + ' 7\n' for row in rows))
        write('flight.txt', '0 0 0 100\n10 50.5 3 101\n20 70 9 99\n25 80 9 99\n')
        same(['in.ply'], {'flight': 'flight.txt'})

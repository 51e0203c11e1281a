"""Where points were seen from, by what other programs write of it: viewpoints of PCD, sparse models of COLMAP, flights; and files that
other Python packages read."""
from __future__ import annotations

import os
import struct
import unittest
from importlib.util import find_spec
from typing import Any
from unittest.mock import patch

from helpers import MESH, InFolder, call, equal, head, holds, read, refuses, says, write
from test_hostile import e57_of, error_of, flat
from samples import las

VIEWED = ('VERSION 0.7\nFIELDS x y rgb vp_x vp_y z vp_z\nSIZE 4 4 4 4 4 4 4\nTYPE F F U F F F F\nCOUNT 1 1 1 1 1 1 1\nWIDTH 4\nHEIGHT 1\n'
          'VIEWPOINT 0 0 0 1 0 0 0\nPOINTS 4\nDATA {}\n')
ROWS = [(1, 2, 0x0A141E, 9, 8, 3, 7), (4, 5, 0xFF, 1, 2, 6, 3), (7, 8, 0, 9, 8, 9, 7), (0.5, 0, 0, float('nan'), 0, 0, 0)]
SEEN = 'float x, float y, uchar red, uchar green, uchar blue, float z, int scanner'
PLAIN = 'VERSION 0.7\nFIELDS x y z\nSIZE 4 4 4\nTYPE F F F\nCOUNT 1 1 1\nVIEWPOINT {} 1 0 0 0\nPOINTS 1\nDATA ascii\n1 2 3\n'
POINTS_TEXT = ('# id x y z r g b error track\n7 1.5 2 3 10 20 30 0.5 9 0 4 1 9 2\n8 4 5 6 255 0 1 0.25 4 0\n9 7 8 9 1 2 3 0\n')
IMAGES_TEXT = '9 1 0 0 0 0 0 -10 1 b.jpg\n\n4 1 0 0 0 -1 -2 -3 1 a.jpg\n1 1 7\n'
SPARSE = 'double x, double y, double z, uchar red, uchar green, uchar blue, list uint int scanner'
LASPY = '''import io
class Points:
    def __init__(self, data):
        self.array = self
        self.data = data
    def tobytes(self):
        return self.data
    def __len__(self):
        return len(self.data) // SIZE
class File:
    def __init__(self, path):
        self.data = io.open(path, 'rb').read()
    def __enter__(self):
        return self
    def __exit__(self, *_):
        pass
    def chunk_iterator(self, _):
        global SIZE
        SIZE = int.from_bytes(self.data[105:107], 'little')
        body = self.data[int.from_bytes(self.data[96:100], 'little'):]
        if body.startswith(b'bad'):
            raise RuntimeError('no backend,\\n  cannot decompress')
        packed = bytes(byte ^ 255 for byte in body)
        for at in range(0, len(packed), 2 * SIZE):
            yield Points(packed[at:at + 2 * SIZE])
def open(path):
    return File(path)
'''
PYE57 = '''import numpy
class Header:
    point_count, point_fields = 3, ['sphericalRange', 'colorRed']
    translation = numpy.array([1.5, 2, 3])
    def has_pose(self):
        return True
class E57:
    scan_count = 1
    def __init__(self, path):
        if 'bad' in path:
            raise RuntimeError('no\\nsuch luck')
    def get_header(self, number):
        return Header()
    def read_scan(self, number, *, intensity, colors, ignore_missing_fields):
        assert colors and not intensity and ignore_missing_fields
        return {'cartesianX': numpy.array([1., 2]), 'cartesianY': numpy.array([3., 4]), 'cartesianZ': numpy.array([5., 6.5]),
                'colorRed': numpy.array([7, 8], 'u1')}
'''
SPHERICAL = ''.join(f'<spherical{name} type="Float"/>' for name in ('Range', 'Azimuth', 'Elevation'))


def viewed(kind: str, rows: Any = tuple(ROWS)) -> bytes:
    """Returns a PCD whose points say each where it was seen from."""
    text = VIEWED.format(kind).replace('POINTS 4', f'POINTS {len(rows)}').encode('ascii')
    if kind == 'ascii':
        return text + ''.join(' '.join(map(str, row)) + '\n' for row in rows).encode('ascii')
    if kind == 'binary':
        return text + b''.join(struct.pack('<ffIffff', *row) for row in rows)
    body = b''.join(struct.pack(f'<{len(rows)}{code}', *(row[k] for row in rows)) for k, code in enumerate('ffIffff'))
    packed = b''.join(bytes([len(body[at:at + 32]) - 1]) + body[at:at + 32] for at in range(0, len(body), 32))
    return text + struct.pack('<II', len(packed), len(body)) + packed


def points_bin(rows: list[tuple[Any, ...]]) -> bytes:
    """points3D.bin: a place, a color and a track each."""
    tracks = [struct.pack('<Q3d3BdQ', k, *place, *color, 0.5, len(track)) + b''.join(struct.pack('<II', one, 0) for one in track)
              for k, (place, color, track) in enumerate(rows)]
    return struct.pack('<Q', len(rows)) + b''.join(tracks)


def images_bin() -> bytes:
    one = struct.pack('<I7dI', 9, 1, 0, 0, 0, 0, 0, -10, 1) + b'b.jpg\0' + struct.pack('<Q', 0)
    return struct.pack('<Q', 2) + one + struct.pack('<I7dI', 4, 1, 0, 0, 0, -1, -2, -3, 1) + b'a\0' + struct.pack('<QddQ', 1, 1, 1, 7)


class Viewpoints(InFolder):
    def test_each_point_says_where_it_was_seen_from(self) -> None:
        for kind, end in (('ascii', ''), ('binary', '.0'), ('binary_compressed', '.0')):
            write('in.pcd', viewed(kind))
            says('scan', 'read 4 points of in.pcd; left out 1 without scanner; wrote 3 points and 2 scanners to out.ply', 'in.pcd', 'out.ply')
            rows = ''.join(f'{x}{end} {y}{end} {color} {z}{end} {scanner}\n' for x, y, color, z, scanner in
                           ((1, 2, '10 20 30', 3, 0), (4, 5, '0 0 255', 6, 1), (7, 8, '0 0 0', 9, 0)))
            holds('out.ply', head(3, SEEN, 2) + rows + f'9{end} 8{end} 7{end}\n1{end} 2{end} 3{end}\n')

    def test_several_files_of_such_points(self) -> None:
        write('a.pcd', viewed('ascii'))
        write('b.pcd', viewed('ascii', [(5, 5, 0, 1, 2, 5, 3)]))
        write('c.pcd', PLAIN.format('4 5 6'))
        says('scan', 'read 6 points of 3 files; left out 1 without scanner; wrote 5 points and 3 scanners to out.ply',
             'a.pcd', 'c.pcd', 'b.pcd', 'out.ply')
        holds('out.ply', head(5, 'double x, double y, double z, int scanner', 3)
              + '1 2 3 0\n4 5 6 1\n7 8 9 0\n1 2 3 2\n5 5 5 1\n9 8 7\n1 2 3\n4 5 6\n')
        says('scan', 'read 1 point of b.pcd; left out nothing; wrote 1 point and 1 scanner to out.ply', 'b.pcd=7,7,7', 'out.ply')
        holds('out.ply', head(1, 'double x, double y, double z, int scanner, uchar red, uchar green, uchar blue', 1) + '5 5 5 0 0 0 0\n7 7 7\n')
        write('a.pcd', viewed('ascii').replace(b'\n1 2 ', b'\nx 2 '))
        refuses('scan', 'a.pcd: vertex row 0: x is not a number', 'a.pcd', 'c.pcd', 'out.ply')

    def test_too_many_places(self) -> None:
        write('in.pcd', viewed('binary', [(k, 0, 0, k, 0, 0, 0) for k in range(65537)]))
        refuses('scan', 'more than 65536 scanner positions', 'in.pcd', 'out.ply')

    def test_viewpoints_that_nobody_knew(self) -> None:
        for name in 'ab':
            write(f'{name}.pcd', PLAIN.format('0 0 0'))
        refuses('scan', 'is 0 0 0 in all 2 files, which PCL writes as VIEWPOINT if it is unknown: pass the positions, for example a.pcd=X,Y,Z',
                'a.pcd', 'b.pcd', 'out.ply')
        equal(call('scan', 'a.pcd', 'out.ply')[0], 0)
        equal(call('scan', 'a.pcd=1,2,3', 'b.pcd=0,0,0', 'out.ply')[0], 0)
        equal(call('scan', 'a.pcd=1,2,3', 'b.pcd', 'out.ply')[0], 0)
        write('a.pcd', PLAIN.format('0 0 1'))
        equal(call('scan', 'a.pcd', 'b.pcd', 'out.ply')[0], 0)


class Models(InFolder):
    def test_sparse_points_of_colmap(self) -> None:
        os.mkdir('text')
        os.mkdir('binary')
        write('text/points3D.txt', POINTS_TEXT)
        write('text/images.txt', IMAGES_TEXT)
        rows = [((1.5, 2, 3), (10, 20, 30), [9, 4, 9]), ((4, 5, 6), (255, 0, 1), [4]), ((7, 8, 9), (1, 2, 3), [])]
        write('binary/points3D.bin', points_bin(rows))
        write('binary/images.bin', images_bin())
        for name, end in (('text/points3D.txt', ''), ('binary/points3D.bin', '.0')):
            for given, more in ((name, []), (os.path.dirname(name), []), (name, ['images=' + name.replace('points3D', 'images')])):
                says('scan', f'read 3 points of {name} and 2 images; left out 1 seen by no image; wrote 2 points and 2 scanners to '
                     'out.ply; 3 sights', given, 'out.ply', *more)
                holds('out.ply', head(2, SPARSE, 2) + f'1.5 2{end} 3{end} 10 20 30 2 0 1\n4{end} 5{end} 6{end} 255 0 1 1 1\n'
                      '-0.0 -0.0 10.0\n1.0 2.0 3.0\n')

    def test_sparse_points_that_are_cut_or_wrong(self) -> None:
        whole = points_bin([((1.5, 2, 3), (10, 20, 30), [9, 4]), ((4, 5, 6), (255, 0, 1), [4])])
        write('images.bin', images_bin())
        write('images.txt', IMAGES_TEXT)
        for length in [*range(0, len(whole), 7), len(whole) - 1]:
            write('points3D.bin', whole[:length])
            error_of('scan', 'points3D.bin', 'out.ply')
        for spoiled in (whole + b'x', b'\xff' * 8 + whole[8:], whole.replace(struct.pack('<Q', 2) + b'\x09', b'\xff' * 8 + b'\x09'),
                        whole.replace(b'\x09\0\0\0', b'\x08\0\0\0')):
            equal(spoiled != whole, True)
            write('points3D.bin', spoiled)
            error_of('scan', 'points3D.bin', 'out.ply')
        for row in ('7 1 2 3 256 0 0 0.5 9 0', '7 1 2 3 1 0 0 0.5 9', '7 1 2 3', '7 x 2 3 1 0 0 0.5 9 0', '7 1 2 3 1 0 0 0.5 -9 0',
                    '7 1 2 3 1 0 0 0.5 3 0', '7 1 2 3 1 0 0 0.5 ' + '9' * 5000 + ' 0'):
            write('points3D.txt', row + '\n')
            error_of('scan', 'points3D.txt', 'out.ply')
        write('points3D.bin', whole)
        refuses('scan', 'far= requires', 'points3D.bin', 'out.ply', 'far=1')
        refuses('scan', 'index= cannot be used with', 'points3D.bin', 'out.ply', 'index=a')
        refuses('scan', 'No such file', 'points3D.bin', 'out.ply', 'images=none.bin')

    def test_colors_come_back_from_scans_with_lists(self) -> None:
        places = [(100, 100, 100), (100, -100, -100), (-100, 100, -100), (-100, -100, 100)]
        write('points3D.bin', points_bin([(place, (k, 2 * k, 200 + k), [9, 4][:1 + k % 2]) for k, place in enumerate(places)]))
        write('images.bin', images_bin())
        equal(call('scan', 'points3D.bin', 'scan.ply')[0], 0)
        write('mesh.ply', MESH)
        status, said, error = call('finish', 'mesh.ply', 'done.ply', 'scan=scan.ply')
        equal((status, 'copied red, green, blue from the scan' in said, error), (0, True, ''))
        with open('done.ply', 'rb') as file:
            text, _, body = file.read().partition(b'end_header\n')
        equal(b'property uchar red\nproperty uchar green\nproperty uchar blue\n' in text, True)
        equal([tuple(body[39 * k + 24:39 * k + 27]) for k in range(4)], [(k, 2 * k, 200 + k) for k in range(4)])

    def test_lists_of_scanners_keep_the_other_properties(self) -> None:
        text = (head(2, 'uchar red, float y, float x, float z, list uchar int other, list uchar int scanner, int weight, uchar n', 2)
                + '7 2 1 3 1 5 2 0 1 9 4\n8 5 4 6 0 1 1 3 5\n0 0 9\n0 9 0\n')
        write('in.ply', text)
        equal(call('scan', 'in.ply', 'out.ply', 'side=0.5')[0], 0)
        holds('out.ply', head(2, 'uchar red, float y, float x, float z, int weight, uchar n, list uint int scanner', 2)
              + '7 2 1 3 9 4 2 0 1\n8 5 4 6 3 5 1 1\n0 0 9\n0 9 0\n')


class Packages(InFolder):
    def setUp(self) -> None:
        super().setUp()
        there = patch.dict(os.environ, PYTHONPATH=os.getcwd())
        there.start()
        self.addCleanup(there.stop)
        rows = [struct.pack('<iiiHBBbBH', k, 2, 3, 4, 5, 6, 7, 8, 9) for k in range(5)]
        self.plain = las(2, 0, rows)
        self.packed = self.plain[:104] + b'\x80' + self.plain[105:227] + bytes(byte ^ 255 for byte in self.plain[227:])

    @unittest.skipIf(find_spec('laspy') or find_spec('pye57'), 'laspy or pye57 is installed')
    def test_packages_that_are_missing_are_named(self) -> None:
        write('in.laz', self.packed)
        refuses('scan', 'this is LAZ, compressed LAS: install laspy and lazrs, or PDAL, or uncompress it by LAStools', 'in.laz=1,1,1', 'out.ply')
        write('in.e57', e57_of(SPHERICAL, [b'\0' * 8] * 3, 1))
        refuses('scan', 'spherical ones are not supported: install pye57 to read it', 'in.e57', 'out.ply')

    def test_laz_by_laspy(self) -> None:
        write('laspy.py', LASPY)
        write('in.las', self.plain)
        write('in.laz', self.packed)
        equal((call('scan', 'in.las=1,1,1', 'a.ply')[0], call('scan', 'in.laz=1,1,1', 'b.ply')[0]), (0, 0))
        equal((read('a.ply') == read('b.ply'), read('b.ply').count('\n')), (True, 20))
        write('in.laz', self.packed[:-20])
        refuses('scan', 'truncated: the LAZ ends in point 4 of 5', 'in.laz=1,1,1', 'out.ply')
        write('in.laz', self.packed[:-3])
        refuses('scan', 'laspy cannot unpack the LAZ', 'in.laz=1,1,1', 'out.ply')
        write('in.laz', self.packed[:227] + b'bad')
        refuses('scan', 'laspy cannot unpack the LAZ: no backend, cannot decompress', 'in.laz=1,1,1', 'out.ply')

    @unittest.skipIf(find_spec('laspy'), 'laspy is installed')
    def test_laz_by_pdal(self) -> None:
        write('in.las', self.plain)
        write('in.laz', self.packed)
        write('pdal', '#!/bin/sh\nfor word; do in=$out; out=$word; done\ntest $in = in.laz && cp in.las "$out"\n')
        os.chmod('pdal', 0o755)
        with patch.dict(os.environ, PATH=os.getcwd() + os.pathsep + os.environ['PATH']):
            equal((call('scan', 'in.las=1,1,1', 'a.ply')[0], call('scan', 'in.laz=1,1,1', 'b.ply')[0], read('a.ply') == read('b.ply')), (0, 0, True))
            write('pdal', '#!/bin/sh\necho no such luck >&2\nexit 1\n')
            refuses('scan', 'pdal cannot unpack the LAZ: no such luck', 'in.laz=1,1,1', 'out.ply')

    def test_e57_by_pye57(self) -> None:
        write('pye57.py', PYE57)
        write('in.e57', e57_of(SPHERICAL + '<colorRed type="Integer" minimum="0" maximum="255"/>', [b'\0' * 8] * 3 + [b'\0'], 1))
        says('scan', 'read 3 points of in.e57; left out 1 not finite; wrote 2 points and 1 scanner to out.ply', 'in.e57', 'out.ply')
        holds('out.ply', head(2, 'double x, double y, double z, int red, int scanner', 1)
              + '1.0 3.0 5.0 7 0\n2.0 4.0 6.5 8 0\n1.5 2.0 3.0\n')
        os.rename('in.e57', 'bad.e57')
        refuses('scan', 'pye57 cannot read the E57: no such luck', 'bad.e57', 'out.ply')
        write('in.e57', e57_of(flat(3), [b'\1'] * 3, 1))
        says('scan', 'read 1 point of in.e57; left out nothing; wrote 1 point and 1 scanner to out.ply', 'in.e57', 'out.ply')


class Flights(InFolder):
    def airborne(self) -> None:
        """A LAS of five points at times 0 to 4."""
        rows = [struct.pack('<iiiHBBbBHd', 1000 * k, 2000 * (k % 2), 4 * k, 4, 5, 6, 7, 8, 9, k) for k in range(5)]
        write('in.las', las(2, 1, rows))

    def test_a_position_above_the_points(self) -> None:
        self.airborne()
        said = ('read 5 points of in.las; left out nothing; wrote 5 points and 1 scanner to out.ply; synthesised scanner position: 3 '
                'widths above the middle of the points')
        says('scan', said, 'in.las', 'out.ply', 'above=yes')
        lines = read('out.ply').splitlines()
        equal(lines[-1], '500002 4000001.5 9')
        equal((lines[-2].split()[:3], lines[-2].split()[-1]), (['500004', '4000000.5', '-3'], '0'))
        write('a.xyz', '0 0 0\n10 0 1\n')
        write('b.xyz', '0 20 2\n')
        says('scan', said.replace('5 points of in.las', '3 points of 2 files').replace('5', '3'), 'a.xyz', 'b.xyz', 'out.ply', 'above=yes')
        holds('out.ply', head(3, 'double x, double y, double z, int scanner', 1) + '0 0 0 0\n10 0 1 0\n0 20 2 0\n5 10 62\n')
        says('scan', said.replace('5 points of in.las', '2 points of a.xyz').replace('5', '2'), 'a.xyz', 'out.ply', 'above=yes', 'origin=1,1,1')
        holds('out.ply', head(2, 'double x, double y, double z, int scanner', 1) + '-1 -1 -1 0\n9 -1 0 0\n4 -1 30\n')

    def test_positions_along_a_flight(self) -> None:
        self.airborne()
        write('flight.txt', '# time x y z\n1 500000 4000000 100\n3 500020 4000000 110\n')
        says('scan', 'read 5 points of in.las; left out 2 before or after the flight; wrote 3 points and 3 scanners to out.ply',
             'in.las', 'out.ply', 'flight=flight.txt')
        lines = read('out.ply').splitlines()
        equal(lines[-3:], ['500000.0 4000000.0 100.0', '500010.0 4000000.0 105.0', '500020.0 4000000.0 110.0'])
        equal([line.split()[-1] for line in lines[-6:-3]], ['0', '1', '2'])

    def test_long_flights_have_no_more_positions_than_a_scan(self) -> None:
        self.airborne()
        write('flight.txt', ''.join(f'{k / 50000} {500000 + k} 4000000 {k}\n' for k in range(200001)))
        equal(call('scan', 'in.las', 'out.ply', 'flight=flight.txt')[0], 0)
        heights = [float(line.split()[2]) for line in read('out.ply').splitlines()[-5:]]
        equal([abs(height - 50000 * k) < 3 for k, height in enumerate(heights)], [True] * 5)

    def test_errors(self) -> None:
        self.airborne()
        write('a.xyz', '0 0 0\n10 0 1\n')
        write('scanned.ply', head(1, 'double x, double y, double z, int scanner', 1) + '1 2 3 0\n1 1 1\n')
        for text, part in (('1 2 3\n', 'line 1 of flight.txt is not TIME X Y Z'), ('1 2 3 nan\n', 'is not TIME X Y Z'),
                           ('1 2 3 1e999\n', 'is not TIME X Y Z'), ('1 2 3 4\n1 2 3 4\n', 'line 2 of flight.txt: the time is not later'),
                           ('1 2 3 4\n', 'fewer than two lines')):
            write('flight.txt', text)
            refuses('scan', part, 'in.las', 'out.ply', 'flight=flight.txt')
        write('flight.txt', '1 2 3 4\n2 3 4 5\n')
        refuses('scan', 'above= must be yes or no', 'in.las', 'out.ply', 'above=5')
        refuses('scan', 'pass one of them', 'in.las', 'out.ply', 'above=yes', 'flight=flight.txt')
        refuses('scan', 'flight= requires a single LAS or PLY', 'a.xyz', 'out.ply', 'flight=flight.txt')
        refuses('scan', 'flight= requires a single LAS or PLY', 'in.las', 'in.las', 'out.ply', 'flight=flight.txt')
        refuses('scan', 'index= cannot be used with', 'in.las', 'out.ply', 'above=yes', 'index=scanner')
        refuses('scan', 'are for files without scanner positions', 'scanned.ply', 'out.ply', 'above=yes')
        write('plain.ply', head(1, 'double x, double y, double z') + '1 2 3\n')
        refuses('scan', 'the points have no times', 'plain.ply', 'out.ply', 'flight=flight.txt')
        write('late.txt', '100 2 3 4\n200 3 4 5\n')
        equal(call('scan', 'in.las', 'out.ply', 'flight=late.txt')[0], 3)

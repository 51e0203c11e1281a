"""Small good files of every kind that the Python tools read, to be spoiled."""
from __future__ import annotations

import math
import struct
from typing import NamedTuple, Sequence

import samples
from samples import ply

from .judge import texts_of
from .runs import Files
from .small_files import SCANS

POINTS = [(0.5, -2.5, 1e-7), (3.25, 4, 5), (-1, 0.125, 7.5), (2, 2, 2), (9, -8, 7), (float('nan'), 0, 1)]


def pcd(kind: str) -> bytes:
    head = ['# .PCD v0.7', 'VERSION 0.7', 'FIELDS x y z rgb', 'SIZE 4 4 4 4', 'TYPE F F F F', 'COUNT 1 1 1 1', 'WIDTH 6', 'HEIGHT 1',
            'VIEWPOINT 1 2 3.5 1 0 0 0', 'POINTS 6', 'DATA ' + kind, '']
    rows = [(*p, 4.2108e+06) for p in POINTS]
    if kind == 'ascii':
        return ('\n'.join(head) + ''.join(' '.join(map(repr, row)) + '\n' for row in rows)).encode()
    if kind == 'binary':
        return '\n'.join(head).encode() + b''.join(struct.pack('<4f', *row) for row in rows)
    body = b''.join(struct.pack('<6f', *(row[k] for row in rows)) for k in range(4))
    packed = b''.join(bytes([len(body[at:at + 32]) - 1]) + body[at:at + 32] for at in range(0, len(body), 32))
    return '\n'.join(head).encode() + struct.pack('<II', len(packed), len(body)) + packed


def las(version: int, kind: int) -> bytes:
    """Returns a LAS of three points."""
    row = struct.pack('<iiiHBBbBH', 1, -2, 300, 7, 1, 2, -3, 4, 1) if kind == 0 else \
        struct.pack('<iiiHHBBhHdHHH', 1, -2, 300, 7, 1, 2, 3, -4, 1, 0.5, 1, 2, 3)
    return samples.las(version, kind, [row] * 3)


COLUMNS = ('<cartesianX type="Float" precision="single"/><cartesianY type="Float"/>'
           '<cartesianZ type="ScaledInteger" minimum="-5" maximum="1000" scale="0.5" offset="1"/>'
           '<colorRed type="Integer" minimum="0" maximum="255"/>')
POSE = ('<pose type="Structure"><rotation type="Structure"><w type="Float">0.5</w><x type="Float">0.5</x><y type="Float"/>'
        '<z type="Float">0.7</z></rotation><translation type="Structure"><x type="Float">100</x><y type="Float">0</y>'
        '<z type="Float">-1.5</z></translation></pose>')


def e57(stated: int = 6, before: str = '', columns: str = COLUMNS, is_empty: bool = False) -> bytes:
    """Returns an E57 of six points; `before` stands before the root of its XML, and an empty one has columns without bytes."""
    z = sum((k % 1006) << (10 * k) for k in range(6)).to_bytes(8, 'little')
    parts = [struct.pack('<6f', *range(6)), struct.pack('<6d', *[k / 4 for k in range(6)]), z, bytes([7] * 6)] if not is_empty else [b''] * 3
    text = before + samples.E57_ROOT + samples.station_xml(samples.physical(48), stated, POSE, columns) + samples.E57_END
    return samples.e57(samples.section(samples.packet(parts)), text)


PTX = '\n'.join(['2', '3', '1 2 3', '1 0 0', '0 1 0', '0 0 1', '0 -1 0 0', '1 0 0 0', '0 0 1 0', '1 2 3 1', '0.5 1 2 0.3', '0 0 0 0.5',
                 '4 5.25 6 1', '1e1 -2 3 0', '7 8 9 0.1 1 2 3', 'nan 0 0 0', '1', '1', '9 9 9', '1 0 0', '0 1 0', '0 0 1', '1 0 0 0', '0 1 0 0',
                 '0 0 1 0', '9 9 9 1', '1 1 1 1', '']).encode()
XYZ = b'// a list\nX Y Z I\n0.5 1 2 7\n3 4.25 5 8\n-1e1 .5 6. 9\nnan 1 2 3\n1 1 1 1\n'
PTS = b'3\n0.5 1 2 7\n3 4.25 5 8\n-1e1 .5 6. 9\n2\n1 2 3\n4 5 6\n'
TABLE = b'# places\n1 2 3\n-4.5 5e0 .5\n7 8 9\n'
STATIONS = b'# place and file\n1 2 3 a.xyz\n-4 5 6 b.pts\n'
NORMALS = [(x, y, z, x, y, z) for x in (-1.5, 1.5) for y in (-1, 1) for z in (-1, 0.5, 2)]
IMAGES_TEXT = b'# pictures\n4 1 0 0 0 0 0 -10 1 b.jpg\n\n1 0.5 0.5 0.5 0.5 1 2 3 1 one\n100 200 -1 5.5 6.5 7\n'
IMAGES = samples.images_bin([(4, (1, 0, 0, 0, 0, 0, -10), 'b.jpg', b''),
                             (1, (.5, .5, .5, .5, 1, 2, 3), 'one', struct.pack('<ddqddq', 100, 200, -1, 5.5, 6.5, 7))])
VISIBLE = struct.pack('<QIIIIII', 3, 2, 0, 1, 1, 1, 0)
SLICE = b'loops 2\nloop 3\n0 10 -20 4\n3 11 21 2\n5 7 -8 6\nloop 3\n1 100 -20 4\n4 -11 21 2\n7 -7 8 6\n'
LABELS = b'answers 4\ninside\noutside\ninside\ninside\n'


class Job(NamedTuple):
    """A tool, its arguments and files, and the file that is spoiled."""
    label: str
    tool: str
    words: list[str]
    files: Files
    spoiled: str
    is_text: bool = True


def colored_scan() -> bytes:
    points = [(9, 9, 9), (9, -9, -9), (-9, 9, -9), (-9, -9, 9), (1, 2, -1)]
    rows = [(*p, k, 200, 255, k % 4) for k, p in enumerate(points)]
    more = 'element scanner 4\nproperty int x\nproperty int y\nproperty int z\n'
    columns = 'int x int y int z uchar red uchar green uchar blue int scanner'
    return ply('', columns, rows, more) + b'90 80 70\n90 -80 -85\n-90 85 -70\n-80 -90 75\n'


def scan_jobs() -> list[Job]:
    text = ply('', 'double x float y double z float intensity int scanner', [(*p, 0.5, k % 2) for k, p in enumerate(POINTS)],
               'element scanner 2\nproperty float x\nproperty float y\nproperty float z\n') + b'1 2 3\n4.5 -5e0 6\n'
    little = ply('<', 'float x double y float z uchar red', [(*p, 9) for p in POINTS])
    big = ply('>', 'float x float y double z float scalar_scanner short n', [(*p, k % 3, -4) for k, p in enumerate(POINTS)])
    normals = ply('', 'float x float y float z float nx float ny float nz', NORMALS)
    fused = ply('<', 'float x float y float z float nx float ny float nz uchar red', [(*p, 0, 0, 1, 9) for p in POINTS[:3]])
    colmap = {'in': fused, 'in.vis': VISIBLE, 'i.bin': IMAGES, 'i.txt': IMAGES_TEXT}
    sieves: list[list[str]] = [[], ['side=0.5'], ['from=-5,-5,-5', 'to=5,5,5'], ['origin=0.5,1e1,-3'], ['surround=5']]
    found = []
    for more in sieves:
        found += [Job('text PLY', 'scan', ['in', 'out', *more], {'in': text}, 'in'), Job('PTX', 'scan', ['in', 'out', *more], {'in': PTX}, 'in'),
                  Job('list', 'scan', ['in=1,2,3', 'out', *more], {'in': XYZ}, 'in'),
                  Job('PCD text', 'scan', ['in', 'out', *more], {'in': pcd('ascii')}, 'in'),
                  Job('binary PLY', 'scan', ['in=1,1,1', 'out', *more], {'in': little}, 'in', False),
                  Job('E57', 'scan', ['in', 'out', *more], {'in': e57()}, 'in', False)]
    return found + [
        Job('PTS', 'scan', ['in=1,2,3', 'out'], {'in': PTS}, 'in'), Job('big PLY', 'scan', ['in', 'out', 'positions=t'], {'in': big, 't': TABLE}, 'in', False),
        Job('table of positions', 'scan', ['in', 'out', 'positions=t'], {'in': big, 't': TABLE}, 't'),
        Job('table of stations', 'scan', ['out', 'table=t'], {'a.xyz': XYZ, 'b.pts': PTS, 't': STATIONS}, 't'),
        Job('PLY with lists', 'scan', ['in', 'out'], {'in': SCANS['text'].data}, 'in'),
        Job('binary PLY with lists', 'scan', ['in', 'out'], {'in': SCANS['little'].data}, 'in', False),
        Job('PCD binary', 'scan', ['in', 'out'], {'in': pcd('binary')}, 'in', False),
        Job('PCD compressed', 'scan', ['in', 'out'], {'in': pcd('binary_compressed')}, 'in', False),
        Job('LAS 1.2', 'scan', ['in', 'out', 'index=PointSourceId', 'positions=t'], {'in': las(2, 0), 't': TABLE}, 'in', False),
        Job('LAS 1.4', 'scan', ['in=1,1,1', 'out'], {'in': las(4, 7)}, 'in', False),
        Job('normals', 'scan', ['in', 'out', 'normals=yes'], {'in': normals}, 'in'),
        Job('normals', 'scan', ['in', 'out', 'normals=yes', 'far=0.5'], {'in': normals}, 'in'),
        *(Job(f'COLMAP {name}', 'scan', ['in', 'out', f'images={images}'], colmap, name, name == 'i.txt')
          for name, images in (('in', 'i.bin'), ('in.vis', 'i.bin'), ('i.bin', 'i.bin'), ('i.txt', 'i.txt')))]


def sphere() -> list[tuple[float, float, float]]:
    """Returns 150 points of a sphere of radius 2, in no order of space."""
    found = []
    for k in range(150):
        z, turn = 1 - (2 * k + 1) / 150, 2.4 * k
        ring = (1 - z * z) ** 0.5
        found.append((round(2 * ring * math.cos(turn), 4), round(2 * ring * math.sin(turn), 4), round(2 * z, 4)))
    return found


def surface_jobs() -> list[Job]:
    """Scans of a sphere in all forms that `recon-surface` reads, and ground."""
    points = sphere()
    more = 'element scanner 2\nproperty float x\nproperty float y\nproperty float z\n'
    scanned = [(*p, k, 200, 9, 1 + k % 3, int(p[2] > 0)) for k, p in enumerate(points)]
    columns = 'x uchar red uchar green uchar blue int weight int scanner'.replace('x ', 'float x double y float z ', 1)
    places = b'0 0 -9\n0.5 1e1 9\n'
    little = ply('<', columns, scanned, more) + struct.pack('<6f', 0, 0, -9, 0.5, 10, 9)
    listed = ''.join('%r %r %r 7\n' % p for p in points).encode()
    normals = ''.join('%r %r %r %r %r %r\n' % (*p, *(x / 2 for x in p)) for p in points).encode()
    ground = ply('<', 'double x double y double z', [(548900 + k % 20, 4177000 + k // 20, 30 + k * 7 % 5 / 10) for k in range(400)])
    ptx = '\n'.join(['150', '1', '9 9 9', '1 0 0', '0 1 0', '0 0 1', '1 0 0 0', '0 1 0 0', '0 0 1 0', '9 9 9 1',
                     *('%r %r %r 0.5' % p for p in points), '']).encode()
    head = 'VERSION 0.7\nFIELDS x y z vp_x vp_y vp_z\nSIZE 4 4 4 4 4 4\nTYPE F F F F F F\nCOUNT 1 1 1 1 1 1\nWIDTH 150\nHEIGHT 1\nPOINTS 150\nDATA '
    seen = [(*p, 0.0, 0.0, 9.0 if p[2] > 0 else -9.0) for p in points]
    pcds = {'ascii': '\n'.join(' '.join(map(repr, row)) for row in seen).encode() + b'\n', 'binary': b''.join(struct.pack('<6f', *row) for row in seen)}
    out = ['-q', '-o', 'out.ply']
    found = [Job('text PLY', 'surface', ['in', *out], {'in': ply('', columns, scanned, more) + places}, 'in'),
             Job('binary PLY', 'surface', ['in', *out], {'in': little}, 'in', False),
             Job('list', 'surface', ['in=0,0,9', *out], {'in': listed}, 'in'), Job('list without a position', 'surface', ['in', *out], {'in': listed}, 'in'),
             Job('list with normals', 'surface', ['in', *out], {'in': normals}, 'in'), Job('ground', 'surface', ['in', *out], {'in': ground}, 'in', False),
             Job('PLY with normals', 'surface', ['in', *out, '--normals'], {'in': ply('<', 'float x float y float z float nx float ny float nz',
                 [(*p, *p) for p in points])}, 'in', False),
             Job('PTX', 'surface', ['in', *out], {'in': ptx}, 'in')]
    found += [Job(f'PCD {kind}', 'surface', ['in', *out], {'in': (head + kind + '\n').encode() + body}, 'in', kind == 'ascii') for kind, body in pcds.items()]
    return [job for job in found for _ in range(2)]


def jobs() -> list[Job]:
    scan = colored_scan()
    mesh = texts_of(scan, [])[0]
    finishing: tuple[tuple[str, list[str]], ...] = (('out.ply', []), ('out.stl', ['unit=10']), ('out.glb', ['pieces=1', 'origin=1,2,3']), ('out.ply', ['smooth=2', 'within=3']),
                 ('out.ply', ['manifold=yes', 'flips=no']))
    return scan_jobs() + surface_jobs() + [Job('mesh', 'finish', ['in', out, *more], {'in': mesh}, 'in') for out, more in finishing] + [
        Job('scan', 'finish', ['in', 'out.ply', 'scan=s'], {'in': mesh, 's': scan}, 's'),
        Job('mesh', 'mesh_to_floats', ['in', 'out', 'unit=1000', 'origin=0.5,1e3,-2'], {'in': mesh}, 'in'),
        Job('slice', 'contours', ['in', 'out.svg', 'unit=1000'], {'in': SLICE}, 'in'),
        Job('slice', 'contours', ['in', 'out.csv', 'origin=1,2,3'], {'in': SLICE}, 'in'),
        Job('labels', 'grid', ['volume', 'in', 'side=0.25'], {'in': LABELS}, 'in'),
        Job('PTX', 'tiles', ['split', 'in', 'out', 'points=20', 'unit=10', 'overlap=1'], {'in': PTX}, 'in')]


def bombs() -> list[Job]:
    """Small files that ask for much memory or time."""
    laughs = '<?xml version="1.0"?><!DOCTYPE e [<!ENTITY a "' + 'x' * 1000 + '">'
    laughs += ''.join(f'<!ENTITY {k} "{f"&{chr(ord(k) - 1)};" * 10}">' for k in 'bcdefghij') + ']>'
    zero = ''.join(f'<cartesian{axis} type="Integer" minimum="0" maximum="0"/>' for axis in 'XYZ')
    packed = bytes([0, 65]) + bytes([0xE0, 255, 0]) * 30000
    compressed = ('VERSION 0.7\nFIELDS x y z\nSIZE 1 1 1\nTYPE U U U\nCOUNT 1 1 1\nPOINTS 2640000\nDATA binary_compressed\n').encode() \
        + struct.pack('<II', len(packed), 1 + 30000 * 264) + packed
    head = b'ply\nformat ascii 1.0\nelement vertex 1\nproperty float x\nproperty float y\nproperty float z\n%send_header\n'
    nan = struct.pack('<d', float('nan'))
    scan: list[tuple[str, bytes, list[str]]] = [
        ('10^9 points without bits', e57(10 ** 9, '', zero, True), []), ('10^5 points without bits', e57(10 ** 5, '', zero, True), []),
        ('10^18 points', e57(10 ** 18), []), ('10^4200 points', e57(10 ** 4200), []), ('entities that grow', e57(6, laughs), []),
        ('a field of 10^9 values', pcd('ascii').replace(b'COUNT 1 1 1 1', b'COUNT 1 1 1 1000000000'), []),
        ('a binary field of 10^9 values', pcd('binary').replace(b'COUNT 1 1 1 1', b'COUNT 1 1 1 1000000000'), []),
        ('2^32 - 1 points of a PCD', pcd('binary').replace(b'POINTS 6', b'POINTS 4294967295'), []), ('90 kB that hold 8 MB', compressed, []),
        ('2^32 - 1 points of a LAS', las(2, 0)[:107] + b'\xff' * 4 + las(2, 0)[111:], ['in=1,1,1']),
        ('a LAS with a scale of nan', las(2, 0)[:131] + nan + las(2, 0)[139:], ['in=1,1,1']),
        ('a LAS with an offset of inf', las(2, 0)[:155] + struct.pack('<d', float('inf')) + las(2, 0)[163:], ['in=1,1,1']),
        ('2^32 - 1 rows of lists', head % b'property list uint float q\n' + b'1 2 3 4294967295 0 0\n', []),
        ('a binary list of 2^32 - 1', (head % b'property list uint double q\n').replace(b'ascii', b'binary_little_endian') + bytes(12) + b'\xff' * 104, []),
        ('10^12 rows of a PTX', PTX.replace(b'2\n3\n', b'1000000\n1000000\n', 1), []),
        ('10^18 rows of a PTS', PTS.replace(b'3\n', b'1000000000000000000\n', 1), ['in=1,1,1']),
        ('a coordinate of 1e999999', b'0 0 0\n1e999999 1 2\n1 1 1\n', ['in=1,1,1', 'side=1']),
        ('an origin of 1e99999999', XYZ, ['in=1,1,1', 'origin=1e99999999,1,1']), ('a side of 1e-99999999', XYZ, ['in=1,1,1', 'side=1e-99999999'])]
    found = []
    for name, data, words in scan:
        first = words[:1] if words and words[0].startswith('in=') else ['in']
        found.append(Job(name, 'scan', [*first, 'out', *(w for w in words if w not in first)], {'in': data}, 'in'))
    mesh = texts_of(colored_scan(), [])[0]
    more: list[tuple[str, list[str], bytes]] = [
        ('finish', ['in', 'out.ply'], mesh.replace(b'vertex ', b'vertex 42949672')), ('finish', ['in', 'out.ply'], mesh.replace(b'face ', b'face 42949672')),
        ('finish', ['in', 'out.ply', 'smooth=1000', 'within=1e29'], mesh), ('mesh_to_floats', ['in', 'out', 'origin=1e99999999,0,0'], mesh),
        ('contours', ['in', 'out.csv', 'origin=1e99999999,0,0'], SLICE), ('contours', ['in', 'out.svg'], b'loops 2\nloop 0\nloop 0\n'),
        ('contours', ['in', 'out.csv'], b'loops 1\nloop 9999999999\n0 1 2 3\n'), ('grid', ['volume', 'in', 'side=1e99999999'], LABELS),
        ('grid', ['points', 'out', 'from=0,0,0', 'to=1e99999999,1,1', 'side=1'], LABELS),
        ('grid', ['points', 'out', 'from=0,0,0', 'to=1,1,1', 'side=1e-99999999'], LABELS),
        ('make_scan', ['torus', '100000001', '1', 'out'], b''), ('make_scan', ['cube', '10', '1', 'out', 'scale=1e308'], b''),
        ('make_scan', ['torus', '-1', '1', 'out'], b''), ('make_scan', ['torus', '\u0661', '1', 'out'], b'')]
    return found + [Job(' '.join(words), tool, words, {'in': data}, 'in') for tool, words, data in more]

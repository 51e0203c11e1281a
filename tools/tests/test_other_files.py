"""Files of other programs: PCD, LAS, E57, COLMAP's points; and those that are named and not read."""
from __future__ import annotations

import base64
import os
import random
import struct
import zlib

from helpers import Given, InFolder, binary, call, equal, head, holds, read, refuses, says, write
from recon import scan
from typing import Any, Callable
from test_all import changed
import samples
from samples import las, packet, physical, station_xml
from recon.toolbox.e57_file import Column
from recon.toolbox.ply_text import Refusal

PCD = """# .PCD v0.7 - Point Cloud Data file format
VERSION 0.7
FIELDS x y z rgb normal
SIZE 4 4 8 4 4
TYPE F F F F F
COUNT 1 1 1 1 2
WIDTH 3
HEIGHT 1
VIEWPOINT 1 2 3.5 1 0 0 0
POINTS 3
DATA ascii
0.93773 0.33763 0 4.2108e+06 1 2
0.90805 0.35641 0 4.2108e+06 3 4
nan 0.32 0 4.2108e+06 5 6
"""
PCD_COLUMNS = 'float x, float y, double z, uchar red, uchar green, uchar blue, float normal_0, float normal_1, int scanner'


# a body that pcl_convert_pcd_ascii_binary of PCL 1.13 packed, of ten points x y z
PACKED = bytes.fromhex(
    '3c00000078000000010000400001803f2005034000004020030080200300a0200300c0200300e02003040041000010200300004023e01b03'
    '2000c04f4000e00b0b010000')


COMPRESSED = '\n'.join(['VERSION 0.7', 'FIELDS x y z', 'SIZE 4 4 4', 'TYPE F F F', 'COUNT 1 1 1', 'WIDTH 10', 'HEIGHT 1',
                        'POINTS 10', 'DATA binary_compressed', '']).encode('ascii')


def bits(values: list[int], width: int) -> bytes:
    """Whole numbers packed by bits."""
    packed = sum(value << k * width for k, value in enumerate(values))
    return packed.to_bytes((len(values) * width + 7) // 8, 'little')


POSE = ('<pose type="Structure"><rotation type="Structure"><w type="Float">0.7071067811865476</w><x type="Float"/>'
        '<y type="Float"/><z type="Float">0.7071067811865476</z></rotation><translation type="Structure">'
        '<x type="Float">100</x><y type="Float">0</y><z type="Float">-1.5</z></translation></pose>')
COLUMNS = ('<cartesianX type="Float" precision="single"/><cartesianY type="Float"/>'
           '<cartesianZ type="ScaledInteger" minimum="-5" maximum="1000" scale="0.5" offset="1"/>'
           '<cartesianInvalidState type="Integer" minimum="0" maximum="2"/>'
           '<colorRed type="Integer" minimum="0" maximum="255"/>')


def e57(count: int, spoil: Callable[..., Any] = lambda text: text) -> bytes:
    """Returns an E57 of one station whose points stand in two packets that divide bytes anywhere."""
    x = struct.pack(f'<{count}f', *range(count))
    y = struct.pack(f'<{count}d', *[k / 4 for k in range(count)])
    z, state, red = bits([k % 1006 for k in range(count)], 10), bits([int(k == 1) for k in range(count)], 2), bytes([7] * count)
    cut = 3 * count // 7
    parts = [[part[:cut] for part in (x, y, z, state, red)], [part[cut:] for part in (x, y, z, state, red)]]
    text = spoil(samples.E57_ROOT + station_xml(physical(48), count, POSE, COLUMNS) + samples.E57_END)
    return samples.e57(samples.section(b''.join(map(packet, parts))), text)


# three points as PDAL 2.2 wrote them, as LAS 1.4 of the point format 7 and as E57
PDAL_LAS = zlib.decompress(base64.b85decode(
    'c-r%E40dB+5MV$Dj4S~zjy?={07zcJNY6;mKtUrYH77N(SQACwoADKUIb%5^gvYMJzzn3Au^9Ac<;P3DNdflgG)S(YMa~gI`#B=(>4A#3!fCL)Lkp1Ja'
    '-wYCd?{83h)RwFFg=eM5&D_YXnKQ3EDQ`LiVO^XT)?1V5QGFdT(*h9hT$*65l#k%rOFHp9$)_d=YXm~iXa9ipzC*V10zqJf#C~KGbe^QEDWp+YzzR7ST'
    'MB'))
PDAL_E57 = zlib.decompress(base64.b85decode(
    'c-rNbO>g5w7{|TrF1u8G0K{SC^$BU^*oo^VSvhIFDTPW+Te_hFR;y}aKgrHwd!q5AZF+=qK^!=6=Sy%#960bX_y}A%ATgeC9KW^M6-OqAN$mgp=Ks8m9'
    'ryWYsDEs??<nbbUrxWLKRX-gmwR$r>V8V+W2HFmD6#TD`9OT$O+U%_?)s6N%-^T;4|3kQzCKLmAJduZ4&7h=IREwM5AW|t;=|wM{O9%q<)QMP@(thPp5'
    'iF)DEF0rl)IeoY+r_fdJZ(kB<g9+hN-C#dBn%jw5NSO+S5DQc7MYGyM00kQ`uq$J?%N8bC1m_XdCKsa84BWv{#JHo*Kr*#YF?fENl=uH3mn+;r__rsWM'
    't-)6_XkKTozQt$rF2S|9{?%(a5S7oQy-ot(vUIzb+sacPKxxWO)&*5@2&l3ZYiD1?<s9)#9+9={mux+C|6%j>0bj%w|y`yrb0yXr1tNZrE$ynNYrj1@y'
    '5r*rJz1nZif*|vEgZL__pn{BXkXtyT1-!-9WThMHceZfp1f|e$Eh+Y$#QuiYUQ=nSE=@|Lj1wD=`dP4|!Y7X$2BDy%0(wn>{F}uh6Y9Q6ZR%Nk3dW2A3'
    'dc<G|4EafN3QW1NM*%UugeMP1IG^yeEBd0aj-TE?MZtV2+6xF`lEW1^b{Pq=HwcLL^$ARX^5z4-He92;t+?t#>`^>pYr>!K601{)fbzw@I$o&9yY7L=M'
    '2;YdJZjz{5_Sq6BUDpS5Ri*cfdM56g&5y{wlj|huW;aV%lzOhV?GxP#El!$vZk>nEpKf4R?<#eE#3CO*1O}DrJEh!^6l>C#6sgjV+rDn;E2U3b3nowg*'
    'XO(X+H`7Xfla`^|Z~7rc&^Dp$B9h@e5XFECEr%NP@Z1y^wi`GKevXzNo8fS@h+bh`zc-#Djw<#%xjQ3^l|N4(DM{<Ik-SUCQrUwr$zvZAd`qNu{;k67U'
    'HHi2fVm+3GC3CBZSW;^Z#!XEk{7ns%*gRf&|#vpzCpBW1sZ<pUhzthwqMBFpYj22yu^%Sst$`9avS?Zi_-Q(i5K@P<1{?Yh14sxl#|S9P<$U(X)bZYbp'
    'I_REP@na`y<yO{O;`VwT)^_f{oZ!uaHt&EmTt$Jm7lArPCihrxw%c4nn<okBR<fGZL&1}FElY3dp3xtCA0>LuPDxp%{MXiTTK`=W-4_l70sCrn`dXR)>'
    '$%7zNJY3a!(5;499voph##PnCRjr9uW6NrH^CKfv`mR{E^gU+eUS#t1E8mO!zo3!+8T>z=|LwmXee^G}CXGt'))
PDAL_ROWS = ((500001.25, 4000008.5, 2.638, 7, 130, 60, 253), (500002.5, 4000009.125, -3, 8, 1, 2, 3),
             (500003, 4000010, 0.5, 9, 4, 5, 6))


# images.bin as COLMAP 3.8 wrote it of two pictures, the one with two points
IMAGES_BIN = bytes.fromhex(
    '020000000000000004000000000000000000f03f000000000000000000000000000000000000000000000000000000000000000000000000'
    '0000000000000000000024c001000000622e6a706700000000000000000001000000000000000000e03f000000000000e03f000000000000'
    'e03f000000000000e03f000000000000f03f00000000000000400000000000000840010000006f6e65000200000000000000000000000000'
    '59400000000000006940ffffffffffffffff00000000000016400000000000001a400700000000000000')
IMAGES_TEXT = ('# pictures\n4 1 0 0 0 0 0 -10 1 b.jpg\n\n1 0.5 0.5 0.5 0.5 1 2 3 1 one\n100 200 -1 5.5 6.5 7\n')


class OtherFiles(InFolder):
    def test_pcd_and_its_viewpoint(self) -> None:
        write('in.pcd', PCD)
        says('scan', 'read 3 points of in.pcd; left out 1 not finite; wrote 2 points and 1 scanner to out.ply', 'in.pcd',
             'out.ply')
        rows = '0.93773 0.33763 0 128 128 224 1 2 0\n0.90805 0.35641 0 128 128 224 3 4 0\n'
        holds('out.ply', head(2, PCD_COLUMNS, 1) + rows + '1 2 3.5\n')
        values = [(0.5, 0.25, 1e-7, 4.2108e+06, 1, 2), (2, 3, 4, 0, 5, 6)]
        body = b''.join(struct.pack('<ffdfff', *row) for row in values)
        write('in.pcd', PCD[:PCD.index('DATA')].replace('POINTS 3', 'POINTS 2').encode('ascii') + b'DATA binary\n' + body)
        equal(call('scan', 'in.pcd', 'out.ply')[0], 0)
        holds('out.ply', head(2, PCD_COLUMNS, 1) + '0.5 0.25 1e-07 128 128 224 1.0 2.0 0\n2.0 3.0 4.0 0 0 0 5.0 6.0 0\n1 2 3.5\n')
        write('more.xyz', '7 8 9\n')
        says('scan', 'read 3 points of 2 files; left out nothing; wrote 3 points and 2 scanners to out.ply; colors left out, since more.xyz '
             'has none', 'in.pcd', 'more.xyz=4,4,4', 'out.ply')
        equal(read('out.ply').endswith('7 8 9 1\n1 2 3.5\n4 4 4\n'), True)
        spoiled = ((PCD.replace('ascii', 'zipped'), 'unsupported DATA of the PCD: zipped'),
                   (PCD[:-30], 'truncated: line 13, the last one, has no newline'), (PCD.replace(' 5 6', ' 5'), 'point 2 has 5 values'),
                   (PCD.replace('POINTS 3', 'POINTS 4'), 'truncated: the file ends in point 3 of 4'),
                   (PCD[:150], 'truncated: the file ends in the header'), (PCD + '1 2 3 4 5 6\n', 'unexpected data after'),
                   (PCD.replace('SIZE 4', 'SIZE 3'), 'unsupported type of the field x of the PCD'),
                   (PCD.replace('POINTS 3\n', ''), 'no line POINTS'))
        for text, part in spoiled:
            write('in.pcd', text)
            refuses('scan', part, 'in.pcd', 'out.ply')

    def test_pcd_that_is_compressed(self) -> None:
        write('in.pcd', COMPRESSED + PACKED)
        equal(call('scan', 'in.pcd', 'out.ply')[0], 0)
        rows = [list(map(float, row.split())) for row in read('out.ply').split('end_header\n')[1].splitlines()[:10]]
        equal(rows, [[k, 0.5, k % 3, 0] for k in range(10)])
        # a number that is none, and signals it
        body = struct.pack('<I', 0x7fa00000) + struct.pack('<9f', *range(9)) + struct.pack('<10f', *range(10)) + struct.pack('<10f', *range(10))
        head = COMPRESSED[:COMPRESSED.index(b'FIELDS')] + b'FIELDS x y z\nSIZE 4 4 4\nTYPE F F F\nPOINTS 10\nDATA binary_compressed\n'
        packed = b''.join(bytes([len(body[at:at + 32]) - 1]) + body[at:at + 32] for at in range(0, len(body), 32))
        write('in.pcd', head + struct.pack('<II', len(packed), len(body)) + packed)
        status, said, error = call('scan', 'in.pcd', 'out.ply')
        equal((status, 'left out 1 not finite' in said, error), (0, True, ''))
        spoiled = ((PACKED[:-1], 'truncated: the file ends in the compressed body'), (PACKED[:4], 'has the wrong length for 10 points'),
                   (PACKED[:8] + b'\xff' + PACKED[9:], 'is invalid'), (PACKED[:8] + b'\0' + PACKED[9:], 'compressed body'))
        for data, part in spoiled:
            write('in.pcd', COMPRESSED + data)
            refuses('scan', part, 'in.pcd', 'out.ply')

    def test_las_and_its_stations(self) -> None:
        old = [struct.pack('<iiiHBBbBHdHHH', 123456, -1, 3, 9, 0, 2, 0, 0, k, 1.5, 65280, 0, 256) for k in (0, 1)]
        write('in.las', las(2, 3, old, extra=b'a remark'))
        write('places.txt', '500000 4000000 0\n500001 4000000 0\n')
        columns = ('double x, double y, double z, ushort intensity, uchar classification, int scanner, double gpstime, '
                   'ushort red, ushort green, ushort blue')
        says('scan', 'read 2 points of in.las; left out nothing; wrote 2 points and 2 scanners to out.ply', 'in.las',
             'out.ply', 'index=PointSourceId', 'positions=places.txt')
        rows = ''.join(f'500123.456 4000000.499 -6.25 9 2 {k} 1.5 65280 0 256\n' for k in (0, 1))
        equal(read('out.ply').split('vertex 2\n')[1],
              head(2, columns, 2).split('vertex 2\n')[1] + rows + '500000 4000000 0\n500001 4000000 0\n')
        new = [struct.pack('<iiiHHBBhHd', 1000, 0, 0, 9, 0, 2, 0, 0, 3, 1.5) + b'more']
        write('in.las', las(4, 6, new))
        equal(call('scan', 'in.las', 'out.ply')[0], 0)
        equal(read('out.ply').splitlines()[-1], '500001 4000000.5 -7 9 2 3 1.5')
        write('in.las', las(4, 6, new)[:-1])
        refuses('scan', 'truncated: the file ends in point 0 of 1', 'in.las', 'out.ply')
        write('in.las', las(2, 131, old))
        refuses('scan', 'this is LAZ', 'in.las', 'out.ply')
        write('in.las', las(2, 11, old))
        refuses('scan', 'unsupported point format of the LAS: 11', 'in.las', 'out.ply')

    def test_e57_and_its_poses(self) -> None:
        write('in.e57', e57(900))
        said = 'read 900 points of in.e57; left out 1 not finite; wrote 899 points and 1 scanner to out.ply'
        says('scan', said, 'in.e57', 'out.ply')
        lines = read('out.ply').split('end_header\n')[1].splitlines()
        for row in (0, 2, 3, 500, 899):
            x, y, z, red, scanner = map(float, lines[row - (row > 1)].split())
            wanted = 100 - row / 4, row, (row % 1006 - 5) * 0.5 + 1 - 1.5
            equal((max(abs(a - b) for a, b in zip((x, y, z), wanted)) < 1e-9, red, scanner), (True, 7, 0))
        equal(lines[-1], '100.0 0.0 -1.5')
        equal(call('scan', 'in.e57', 'in.e57', 'out.ply')[0], 0)
        write('in.e57', e57(900, lambda text: text.replace('>0.7071067811865476</w>', '/>')))
        equal(call('scan', 'in.e57', 'out.ply')[0], 0)
        x, y = map(float, read('out.ply').split('end_header\n')[1].splitlines()[-2].split()[:2])
        equal((x, y), (100 - 899, -899 / 4))
        write('in.e57', e57(900)[:-1024])
        refuses('scan', 'that the header of the E57 states', 'in.e57', 'out.ply')
        write('in.e57', e57(900, lambda text: text.replace('cartesianX', 'sphericalRange')))
        refuses('scan', 'spherical ones are not supported', 'in.e57', 'out.ply')
        write('in.e57', e57(900, lambda text: text.replace('recordCount="900"', 'recordCount="901"')))
        refuses('scan', 'station 0 has 900 points of 901', 'in.e57', 'out.ply')
        write('in.e57', e57(900, lambda text: text.replace('<data3D', '<data3D<')))
        refuses('scan', 'is invalid', 'in.e57', 'out.ply')

    def test_files_that_pdal_wrote(self) -> None:
        for name, data, dropped in (('in.las', PDAL_LAS, (4, 5, 6)), ('in.e57', PDAL_E57, (7,))):
            write(name, data)
            equal(call('scan', name, 'out.ply')[0], 0)
            rows = [row.split() for row in read('out.ply').split('end_header\n')[1].splitlines()[:3]]
            equal(tuple(tuple(float(word) for k, word in enumerate(row) if k not in dropped) for row in rows), PDAL_ROWS)

    def test_numbers_packed_by_bits(self) -> None:
        for width in range(0, 41):
            node = {'type': 'Integer', 'minimum': '-3', 'maximum': str(-3 + 2 ** width - 1)}
            column, values = Column(node), [(k * 0x9E3779B97F4A7C15) % 2 ** width for k in range(50)]
            data, got = bits(values, width), []
            for at in range(0, len(data), 7):
                column.bytes += data[at:at + 7]
                got += column.take(min(column.count(50), 50 - len(got)))
            got += column.take(50 - len(got)) if not width else []
            equal(got, [value - 3 for value in values])

    def test_points_of_colmap(self) -> None:
        write('in.ply', binary('<', '\n', [(0.5, 1, 2, 9), (3, 4, 5, 8), (float('nan'), 0, 0, 1)]))
        write('in.ply.vis', struct.pack('<QIIIIII', 3, 2, 1, 0, 0, 1, 1))
        line = ('read 3 points of in.ply and 2 images; left out 1 not finite; wrote 2 points and 2 scanners to out.ply; '
                '2 sights')
        for name, data in (('images.bin', IMAGES_BIN), ('images.txt', IMAGES_TEXT)):
            write(name, data)
            says('scan', line, 'in.ply', 'out.ply', 'images=' + name)
            text, body = read('out.ply').split('end_header\n')
            equal('property list ushort ushort scanner\n' in text, True)
            rows = body.splitlines()
            equal(rows[:2], ['0.5 1.0 2.0 9 2 1 0', '3.0 4.0 5.0 8 0'])
            equal([list(map(float, row.split())) for row in rows[2:]], [[0, 0, 10], [-2, -3, -1]])
        write('short.bin', IMAGES_BIN[:-1])
        refuses('scan', 'truncated: the file of images ends in the points of image 1', 'in.ply', 'out.ply', 'images=short.bin')
        write('short.bin', IMAGES_BIN[:100])
        refuses('scan', 'truncated: the file of images ends in image 1', 'in.ply', 'out.ply', 'images=short.bin')
        write('in.ply.vis', struct.pack('<QIIIIII', 3, 2, 1, 2, 0, 1, 1))
        refuses('scan', 'point 0: image index 2 is out of range: images= has 2 images', 'in.ply', 'out.ply', 'images=images.txt')
        write('in.ply.vis', struct.pack('<QIII', 3, 2, 1, 0))
        refuses('scan', 'truncated: fused.ply.vis ends in point 1 of 3', 'in.ply', 'out.ply', 'images=images.txt')
        write('in.ply.vis', struct.pack('<Q', 2))
        refuses('scan', 'does not belong to the 3 points', 'in.ply', 'out.ply', 'images=images.txt')

    def test_files_that_are_named_and_not_read(self) -> None:
        for data, part in ((b'PK\3\4' + bytes(9), 'zip'), (b'\x1f\x8b' + bytes(9), 'gzip'), (b'\x89HDF\r\n', 'HDF5')):
            write('in.ptx', data)
            refuses('scan', part, 'in.ptx', 'out.ply')
        write('in.xyz', '1,5 2,5 3,5\n')
        refuses('scan', 'line 1 has decimal commas', 'in.xyz=0,0,0', 'out.ply')
        write('in.xyz', '1,5;2,5;3,5\n')
        refuses('scan', 'line 1 has decimal commas', 'in.xyz=0,0,0', 'out.ply')
        write('in.xyz', '1 2 3\n')
        refuses('scan', 'is not a PLY, PCD, LAS, E57 or PTX', 'in.xyz', 'out.ply')
        refuses('scan', 'in.xyz has no scanner position: pass in.xyz=X,Y,Z', 'in.xyz', 'in.xyz=0,0,0', 'out.ply')
        refuses('scan', 'a=b is neither an option', 'a=b', 'out.ply')
        refuses('scan', 'index= cannot be used with FILE=X,Y,Z', 'in.xyz=0,0,0', 'out.ply', 'index=a')
        refuses('scan', 'far= requires normals=yes', 'in.xyz', 'out.ply', 'far=1')
        write('in.ply', binary('<', '\n', [(1, 2, 3, 4)]))
        refuses('scan', 'in.ply has no scanner position: pass in.ply=X,Y,Z', 'in.ply', 'in.xyz=0,0,0', 'out.ply')

    def test_changed_files_of_other_programs_are_taken_or_refused(self) -> None:
        draw, taken = random.Random(3), 0
        rows = [struct.pack('<iiiHBBbBHdHHH', 123456, -1, 3, 9, 0, 2, 0, 0, 0, 1.5, 65280, 0, 256)]
        write('in.ply', binary('<', '\n', [(0.5, 1, 2, 9), (3, 4, 5, 8)]))
        write('in.ply.vis', struct.pack('<QIIII', 2, 2, 1, 0, 0))
        files = (PCD.encode('ascii'), COMPRESSED + PACKED, las(2, 3, rows), e57(200), IMAGES_BIN)
        for _ in range(600):
            whole = draw.choice(files)
            data = changed(draw, whole)
            write('in.bin', data[:draw.randrange(len(data))] if draw.random() < 0.2 else data)
            try:
                if whole is IMAGES_BIN:
                    scan.work(('in.ply', 'out'), Given(images='in.bin'))
                else:
                    scan.work(('in.bin', 'out'), Given())
                taken += 1
            except (Refusal, ArithmeticError):
                equal(os.path.exists('out.part'), False)
        equal(50 < taken < 550, True)

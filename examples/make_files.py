#!/usr/bin/env python3
"""Makes the files that the commands of docs/howto/import.md read, in a new folder, with the examples.

  python3 examples/make_files.py FOLDER

They are the figurine of examples/ as a text of coordinates, PTX, E57, PCD, LAS, a model of COLMAP and the PLY of other programs, all in meters and from
the same eight scanners; tables of positions; points of a ball with normals.
"""
# Names: MADE (the writer of each file) · write_named (writes the files that a page names; dev/docs/pages.py uses it) · main.
from __future__ import annotations

import math
import pathlib
import re
import struct
import sys
from collections.abc import Callable, Iterable, Sequence
from dataclasses import dataclass

HERE = pathlib.Path(__file__).resolve().parent
FIGURINE = HERE / 'figurine.ply'
PAGE_OF_E57, CHECKSUM = 1020, b'\0\0\0\0'
Row = Sequence[str]


@dataclass
class Scan:
    """The points of a scan with the number of the scanner that saw each, and the positions of scanners, as text."""
    points: list[list[str]]
    scanners: list[list[str]]

    def of(self, scanner: int) -> list[list[str]]:
        """Returns the coordinates of the points that a scanner saw."""
        return [row[:3] for row in self.points if int(row[3]) == scanner]

    def place(self, scanner: int) -> str:
        """Returns the position of a scanner."""
        return ' '.join(self.scanners[scanner])


def figurine() -> Scan:
    """Returns the packed scan."""
    rows = [line.split() for line in FIGURINE.read_text().partition('end_header\n')[2].splitlines()]
    return Scan([row for row in rows if len(row) == 4], [row for row in rows if len(row) == 3])


def lines(rows: Iterable[Row]) -> bytes:
    """Returns a text with a line for each row."""
    return ''.join(' '.join(row) + '\n' for row in rows).encode('ascii')


def ply(properties: Sequence[str], rows: Sequence[Row]) -> bytes:
    """Returns a text PLY of points, with no scanners."""
    head = ['ply', 'format ascii 1.0', f'element vertex {len(rows)}', *(f'property {it}' for it in properties), 'end_header']
    return lines([[line] for line in head]) + lines(rows)


def stations_ply(scan: Scan, name: str) -> bytes:
    """Returns the points as other programs write them: a property of theirs has the number of the scanner."""
    return ply(['double x', 'double y', 'double z', f'float {name}'], [[*row[:3], f'{row[3]}.000000'] for row in scan.points])


def ptx(scan: Scan) -> bytes:
    """Returns the stations as PTX: points from the position of the scanner, and the pose that brings them back."""
    axes = [['1', '0', '0'], ['0', '1', '0'], ['0', '0', '1']]
    text = b''
    for number, place in enumerate(scan.scanners):
        own = [[f'{float(a) - float(b):.4f}' for a, b in zip(row, place)] for row in scan.of(number)]
        pose = [*([*axis, '0'] for axis in axes), [*place, '1']]
        text += lines([[str(len(own))], ['1'], place, *axes, *pose, *([*row, '0.5'] for row in own)])
    return text


def paged(data: bytes) -> bytes:
    """Returns the pages of an E57, with places for the checksums, which no reader here looks at."""
    return b''.join(data[at:at + PAGE_OF_E57].ljust(PAGE_OF_E57, b'\0') + CHECKSUM for at in range(0, len(data), PAGE_OF_E57))


def physical(at: int) -> int:
    """Returns where a byte of the data stands in the pages of an E57."""
    return at // PAGE_OF_E57 * (PAGE_OF_E57 + len(CHECKSUM)) + at % PAGE_OF_E57


def e57_section(rows: list[list[float]], start: int) -> bytes:
    """Returns the section of a station: packets of at most a thousand points, three columns of 64 bits each."""
    packets = b''
    for at in range(0, len(rows), 1000):
        columns = [struct.pack(f'<{len(column)}d', *column) for column in zip(*rows[at:at + 1000])]
        body = struct.pack('<3H', *map(len, columns)) + b''.join(columns)
        body += b'\0' * (-(len(body) + 6) % 4)
        packets += struct.pack('<BBHH', 1, 0, len(body) + 5, 3) + body
    return struct.pack('<B7xQQQ', 1, 32 + len(packets), physical(start + 32), 0) + packets


def e57(scan: Scan) -> bytes:
    """Returns the stations as E57, each with its position as pose."""
    data, stations = b'\0' * 48, ''
    columns = ''.join(f'<cartesian{axis} type="Float"/>' for axis in 'XYZ')
    for number, place in enumerate(scan.scanners):
        rows = [[float(a) - float(b) for a, b in zip(row, place)] for row in scan.of(number)]
        shift = ''.join(f'<{axis} type="Float">{word}</{axis}>' for axis, word in zip('xyz', place))
        stations += (f'<vectorChild type="Structure"><pose type="Structure"><translation type="Structure">{shift}</translation></pose>'
                     f'<points type="CompressedVector" fileOffset="{physical(len(data))}" recordCount="{len(rows)}">'
                     f'<prototype type="Structure">{columns}</prototype><codecs type="Vector"/></points></vectorChild>')
        data += e57_section(rows, len(data))
    text = (f'<e57Root type="Structure" xmlns="http://www.astm.org/COMMIT/E57/2010-e57-v1.0"><data3D type="Vector">{stations}</data3D>'
            '</e57Root>').encode('ascii')
    head = struct.pack('<8sII4Q', b'ASTM-E57', 1, 0, len(paged(data + text)), physical(len(data)), len(text), 1024)
    return paged(head + data[48:] + text)


def pcd(scan: Scan, scanner: int) -> bytes:
    """Returns the points of one scanner as PCD, which states its position."""
    rows = scan.of(scanner)
    head = ['VERSION 0.7', 'FIELDS x y z', 'SIZE 4 4 4', 'TYPE F F F', 'COUNT 1 1 1', f'WIDTH {len(rows)}', 'HEIGHT 1',
            f'VIEWPOINT {scan.place(scanner)} 1 0 0 0', f'POINTS {len(rows)}', 'DATA ascii']
    return lines([[line] for line in head]) + lines(rows)


def las(scan: Scan) -> bytes:
    """Returns the points as LAS 1.2 of the point format 1, point k at the time k seconds."""
    head = bytearray(227)
    head[:4], head[24], head[25] = b'LASF', 1, 2
    struct.pack_into('<HII', head, 94, 227, 227, 0)
    struct.pack_into('<BHI', head, 104, 1, 28, len(scan.points))
    struct.pack_into('<6d', head, 131, 0.0001, 0.0001, 0.0001, 0, 0, 0)
    rows = [struct.pack('<iiiHBBbBHd', *(round(float(word) * 10000) for word in row[:3]), 0, 0, 0, 0, 0, int(row[3]), time)
            for time, row in enumerate(scan.points)]
    return bytes(head) + b''.join(rows)


def images_bin(scan: Scan) -> bytes:
    """Returns the positions as pictures of COLMAP that are not turned."""
    pictures = [struct.pack('<I7dI', k, 1, 0, 0, 0, *(-float(word) for word in place), 1) + b'%d.jpg\0' % k + struct.pack('<Q', 0)
                for k, place in enumerate(scan.scanners)]
    return struct.pack('<Q', len(pictures)) + b''.join(pictures)


def points_bin(scan: Scan) -> bytes:
    """Returns the points as sparse points of COLMAP."""
    points = [struct.pack('<Q3d3BdQII', k, *map(float, row[:3]), 128, 128, 128, 0.5, 1, int(row[3]), 0) for k, row in enumerate(scan.points)]
    return struct.pack('<Q', len(points)) + b''.join(points)


def fused_ply(scan: Scan) -> bytes:
    """Returns the points as dense points of COLMAP."""
    return ply(['float x', 'float y', 'float z'], [row[:3] for row in scan.points])


def fused_vis(scan: Scan) -> bytes:
    """Returns which pictures saw the dense points."""
    return struct.pack('<Q', len(scan.points)) + b''.join(struct.pack('<II', 1, int(row[3])) for row in scan.points)


def ball_with_normals(_: Scan) -> bytes:
    """Returns 200 points of a ball of radius 1, each with its normal."""
    ball = [(math.sqrt(1 - z * z), z, 2.4 * k) for k in range(200) for z in [(k + 0.5) / 100 - 1]]
    places = [(r * math.cos(turn), r * math.sin(turn), z) for r, z, turn in ball]
    return lines([f'{c:.5f}' for c in place * 2] for place in places)


def flight_of(_: Scan) -> bytes:
    """Returns a straight flight over the points, which passes them in 8,000 seconds."""
    return lines([['0', '-2', '0', '3'], ['4000', '0', '0', '3'], ['8000', '2', '0', '3']])


MADE: dict[str, Callable[[Scan], bytes]] = {
    'scan.ply': lambda scan: FIGURINE.read_bytes(),
    'site.ply': lambda scan: FIGURINE.read_bytes(),
    'cloud.xyz': lambda scan: lines(scan.of(6)),
    'left.xyz': lambda scan: lines(scan.of(6)),
    'right.pts': lambda scan: lines([[str(len(scan.of(7)))], *([*row, '0'] for row in scan.of(7))]),
    'stations.txt': lambda scan: lines([[scan.place(6), 'left.xyz'], [scan.place(7), 'right.pts']]),
    'places.txt': lambda scan: lines(scan.scanners),
    'merged.ply': lambda scan: stations_ply(scan, 'scalar_Original_cloud_index'),
    'stations.ply': lambda scan: stations_ply(scan, 'pointsourceid'),
    'cloud.ply': lambda scan: ply(['double x', 'double y', 'double z'], scan.of(6)),
    'cloud_SOR.ply': lambda scan: stations_ply(scan, 'scalar_scanner'),
    'scan.ptx': ptx,
    'cloud.e57': e57,
    'a.pcd': lambda scan: pcd(scan, 6),
    'b.pcd': lambda scan: pcd(scan, 7),
    'cloud.las': las,
    'flight.txt': flight_of,
    'dense/fused.ply': fused_ply,
    'dense/fused.ply.vis': fused_vis,
    'dense/sparse/images.bin': images_bin,
    'sparse/0/images.bin': images_bin,
    'sparse/0/points3D.bin': points_bin,
    'normals.xyz': ball_with_normals,
}
# Files that a command reads without naming them, by a text that names them.
NAMED_BY = {'dense/fused.ply.vis': 'dense/fused.ply', 'sparse/0/images.bin': 'sparse/0', 'sparse/0/points3D.bin': 'sparse/0'}


def write_named(text: str, folder: pathlib.Path) -> None:
    """Writes the files that a page names."""
    scan = figurine()
    for name, made in MADE.items():
        if re.search(rf'(?<![\w./-]){re.escape(NAMED_BY.get(name, name))}(?![\w-])', text):
            write(folder / name, made(scan))


def write(path: pathlib.Path, data: bytes) -> None:
    """Writes a file, and makes its folders."""
    path.parent.mkdir(parents=True, exist_ok=True)
    path.write_bytes(data)


def main(words: Sequence[str]) -> str:
    """Makes the files, and returns what is printed. Raises SystemExit with the error."""
    if len(words) != 1 or words[0].startswith('-'):
        raise SystemExit(__doc__.strip())
    folder, scan = pathlib.Path(words[0]), figurine()
    try:
        folder.mkdir()
    except OSError as error:
        raise SystemExit(f'make_files.py: error: {error.strerror}: {folder}') from None
    for name, made in MADE.items():
        write(folder / name, made(scan))
    for path in sorted(HERE.glob('*.ply')):
        write(folder / 'examples' / path.name, path.read_bytes())
    return f'wrote {len(MADE)} files and the folder examples to {folder}'


if __name__ == '__main__':
    print(main(sys.argv[1:]))

"""Samples for tests, for fuzzing and for measurements: files as other programs write them (PLY, LAS, E57, COLMAP), and small meshes."""
from __future__ import annotations

import itertools
import struct
from collections import Counter
from collections.abc import Iterable, Sequence
from random import Random
from typing import Any

CODES = {'float': 'f', 'double': 'd', 'uchar': 'B', 'short': 'h', 'int': 'i'}
PAGE, CHECKSUM = 1020, b'\0\0\0\0'
E57_ROOT = '<e57Root type="Structure" xmlns="http://www.astm.org/COMMIT/E57/2010-e57-v1.0"><data3D type="Vector">'
E57_END = '</data3D></e57Root>'


def ply(order: str, columns: str, rows: Sequence[Sequence[float]], more: str = '') -> bytes:
    """Returns a PLY, as text or binary of a byte order; `columns` are pairs of a type and a name, `more` are elements after the vertices."""
    words = columns.split()
    types, names = words[::2], words[1::2]
    kind = {'': 'ascii', '<': 'binary_little_endian', '>': 'binary_big_endian'}[order]
    head = ['ply', f'format {kind} 1.0', 'comment by another', f'element vertex {len(rows)}', *(f'property {t} {n}' for t, n in zip(types, names))]
    text = '\n'.join(head) + '\n' + more + 'end_header\n'
    if order:
        return text.encode() + b''.join(struct.pack(order + ''.join(CODES[t] for t in types), *row) for row in rows)
    return (text + ''.join(' '.join(map(str, row)) + '\n' for row in rows)).encode()


def las_head(version: int, kind: int, length: int, count: int, scale: Sequence[float], offset: Sequence[float], extra: int = 0) -> bytes:
    """Returns the header of a LAS 1.x of a point format, with points of `length` bytes that begin after `extra` bytes."""
    size = 375 if version == 4 else 227
    data = bytearray(size)
    data[:4], data[24], data[25] = b'LASF', 1, version
    struct.pack_into('<HII', data, 94, size, size + extra, 0)
    struct.pack_into('<BHI', data, 104, kind, length, 0 if version == 4 else count)
    struct.pack_into('<6d', data, 131, *scale, *offset)
    if version == 4:
        struct.pack_into('<Q', data, 247, count)
    return bytes(data)


def las(version: int, kind: int, rows: Sequence[bytes], extra: bytes = b'') -> bytes:
    """Returns a LAS of these points, with a usual scale and offset."""
    return las_head(version, kind, len(rows[0]), len(rows), (0.001, 0.001, 0.25), (500000, 4000000.5, -7), len(extra)) + extra + b''.join(rows)


def paged(data: bytes) -> bytes:
    """Returns the pages of an E57: 1020 bytes each, and a checksum, which no reader here looks at."""
    return b''.join(data[at:at + PAGE].ljust(PAGE, b'\0') + CHECKSUM for at in range(0, len(data), PAGE))


def physical(at: int) -> int:
    """Returns where a byte of the data is in the pages of an E57."""
    return at // PAGE * (PAGE + len(CHECKSUM)) + at % PAGE


def packet(parts: Sequence[bytes]) -> bytes:
    """Returns a data packet of an E57: the bytes of each column."""
    body = struct.pack(f'<{len(parts)}H', *map(len, parts)) + b''.join(parts)
    body += b'\0' * (-len(body) % 4 + 2)
    return struct.pack('<BBHH', 1, 0, len(body) + 5, len(parts)) + body


def section(packets: bytes, start: int = 48) -> bytes:
    """Returns the section of a station of an E57 that begins at a byte of the data."""
    return struct.pack('<B7xQQQ', 1, 32 + len(packets), physical(start + 32), 0) + packets


def station_xml(offset: int, count: int | str, pose: str, columns: str) -> str:
    """Returns what the XML of an E57 states of a station: where its section is, how many points, pose and columns."""
    return (f'<vectorChild type="Structure">{pose}<points type="CompressedVector" fileOffset="{offset}" recordCount="{count}">'
            f'<prototype type="Structure">{columns}</prototype><codecs type="Vector"/></points></vectorChild>')


def e57(sections: bytes, text: str) -> bytes:
    """Returns an E57 of the sections of its stations, which begin at byte 48, and its XML."""
    data, xml = bytes(48) + sections, text.encode('utf-8')
    head = struct.pack('<8sII4Q', b'ASTM-E57', 1, 0, len(paged(data + xml)), physical(len(data)), len(xml), 1024)
    return paged(head + sections + xml)


def images_bin(pictures: Iterable[tuple[int, Sequence[float], str, bytes]]) -> bytes:
    """Returns pictures as COLMAP writes them: number, rotation and translation, name, and its points as they are stored."""
    rows = [struct.pack('<I7dI', number, *pose, 1) + name.encode() + b'\0' + struct.pack('<Q', len(points) // 24) + points
            for number, pose, name, points in pictures]
    return struct.pack('<Q', len(rows)) + b''.join(rows)


def mesh_text(points: Sequence[Any], faces: Sequence[Any]) -> str:
    """Returns a mesh as `recon build` writes it, the smallest index of each face first."""
    lines = ['ply', 'format ascii 1.0', f'element vertex {len(points)}', 'property int x', 'property int y', 'property int z',
             f'element face {len(faces)}', 'property list uchar int vertex_indices', 'end_header']
    rows = [min((*face[k:], *face[:k]) for k in range(3)) for face in faces]
    return '\n'.join([*lines, *(' '.join(map(str, point)) for point in points), *('3 ' + ' '.join(map(str, row)) for row in rows), ''])


def mesh_of(text: str) -> tuple[list[tuple[int, ...]], list[tuple[int, ...]]]:
    """Returns the points and faces of a mesh's text."""
    head, body = text.split('end_header\n')
    rows = [tuple(map(int, line.split())) for line in body.splitlines()]
    count = int(head.split('element vertex ')[1].split()[0])
    return rows[:count], [row[1:] for row in rows[count:]]


def edges_of(faces: Sequence[Any]) -> Counter[tuple[int, int]]:
    """Returns how often each directed edge occurs."""
    return Counter(pair for a, b, c in faces for pair in ((a, b), (b, c), (c, a)))


def ball(count: int, size: int, roughness: float = 0, draw: Random | None = None) -> Any:
    """Returns a closed mesh of a cube's sides cut into squares of two triangles each, drawn out to a ball, or not if `roughness` is below 0."""
    draw, number, faces = draw or Random(1), dict[tuple[int, ...], int](), []
    for axis, end, i, j in itertools.product(range(3), (0, count), range(count), range(count)):
        corners = []
        for u, v in ((0, 0), (1, 0), (1, 1), (0, 1)):
            place = [0, 0, 0]
            place[axis], place[(axis + 1) % 3], place[(axis + 2) % 3] = end, i + u, j + v
            corners.append(number.setdefault(tuple(place), len(number)))
        a, b, c, d = corners if end else corners[::-1]
        faces += [(a, b, c), (a, c, d)] if draw.random() < 0.5 else [(b, c, d), (b, d, a)]
    points = []
    for key in number:
        far = [2 * x / count - 1 for x in key]
        long = 1 if roughness < 0 else sum(x * x for x in far) ** 0.5 / (1 + draw.uniform(-roughness, roughness))
        points.append(tuple(round(x / long * size) for x in far))
    return points, faces

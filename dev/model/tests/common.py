"""What the tests share: scans of the worked examples, and runs of commands over files in memory."""
from __future__ import annotations

import os
import sys
from typing import Sequence

sys.path.insert(0, os.path.dirname(os.path.dirname(os.path.dirname(os.path.abspath(__file__)))))

from model.commands import Memory, run  # noqa: E402
from model.points import Point  # noqa: E402
from model.solution import Model  # noqa: E402

XYZ = ['property int x', 'property int y', 'property int z']


def text(*lines: str) -> bytes:
    return ('\n'.join(lines) + '\n').encode()


def plain(rows: Sequence[tuple[int, int, int, int]], scanners: Sequence[Point]) -> bytes:
    """Returns a scan in the plain form; a row is a point and the index of its scanner."""
    head = ['ply', 'format ascii 1.0', f'element vertex {len(rows)}', *XYZ, 'property int scanner', f'element scanner {len(scanners)}', *XYZ,
            'end_header']
    return text(*head, *(' '.join(map(str, row)) for row in [*rows, *scanners]))


def outward(points: Sequence[Point]) -> bytes:
    """Returns each point seen from a scanner of its own, ten times as far out."""
    return plain([(*p, i) for i, p in enumerate(points)], [(10 * x, 10 * y, 10 * z) for x, y, z in points])


FOUR = [(100, 100, 100), (100, -100, -100), (-100, 100, -100), (-100, -100, 100)]
CUBE = [(100 if k & 1 else -100, 100 if k & 2 else -100, 100 if k & 4 else -100) for k in range(8)]
TETRAHEDRON, BLOCK = outward(FOUR), outward(CUBE)
# The tetrahedron, and a line of sight to its first point through its inside.
FIVE_SIGHTS = plain([(*p, i) for i, p in enumerate(FOUR)] + [(100, 100, 100, 4)],
                    [(10 * x, 10 * y, 10 * z) for x, y, z in FOUR] + [(-1000, -1000, -1000)])


def rows_of(cert: bytes, name: str) -> list[str]:
    """Returns the rows of a list of a certificate."""
    lines = cert.decode().split('\n')
    at = next(k for k, line in enumerate(lines) if line.split(' ')[0] == name and line.count(' ') == 1)
    return lines[at + 1:at + 1 + int(lines[at].split(' ')[1])]


def ran(words: str, **files: bytes) -> tuple[int, str, dict[str, bytes]]:
    """Status and line of a command, and the files afterwards; the file `scan` is called `in` on the command line."""
    host = Memory({'in' if name == 'scan' else name: data for name, data in files.items()})
    status = run(words.split(' ') if words else [], host, Model())
    return status, host.said.decode().rstrip('\n'), host.files

"""The printed form of a scan, and the text of a mesh."""
from __future__ import annotations

from typing import Dict, List, NamedTuple, Sequence, Tuple

from .points import DATA_LIMIT, Facet, Point

PLACE = 'property int x\nproperty int y\nproperty int z\n'


class Seen(NamedTuple):
    """A sight: a row, a scanner, a weight."""
    row: int
    scanner: int
    weight: int


class Scan(NamedTuple):
    points: List[Point]
    scanners: List[Point]
    seen: List[Seen]


class NotPrinted(Exception):
    """The bytes are no scan in the printed form."""


def scan_text(scan: Scan) -> bytes:
    rows: List[Tuple[Point, int, List[int]]] = [(p, 1, []) for p in scan.points]
    for r, k, w in scan.seen:
        rows[r] = rows[r][0], w, [*rows[r][2], k]
    wide = not all(w == 1 and len(by) == 1 for _, w, by in rows)
    seen = 'property uchar weight\nproperty list uint int scanner\n' if wide else 'property int scanner\n'
    lines = [f'ply\nformat ascii 1.0\nelement vertex {len(rows)}\n{PLACE}{seen}element scanner {len(scan.scanners)}\n{PLACE}end_header']
    lines += [' '.join(map(str, (*p, w, len(by), *by) if wide else (*p, *by))) for p, w, by in rows]
    return ('\n'.join([*lines, *(' '.join(map(str, p)) for p in scan.scanners), ''])).encode()


def is_shown(scan: Scan) -> bool:
    if any(abs(z) > DATA_LIMIT for p in scan.points + scan.scanners for z in p):
        return False
    weights: Dict[int, int] = {}
    for r, k, w in scan.seen:
        if not (0 <= r < len(scan.points) and 0 <= k < len(scan.scanners) and 1 <= w <= 255 and weights.setdefault(r, w) == w):
            return False
    rows = [r for r, _, _ in scan.seen]
    return rows == sorted(rows) and len(scan.points) <= 1_048_576 and len(scan.scanners) <= 65_536 and len(scan.seen) <= 8_388_608


def parsed(data: bytes) -> Scan:
    """Returns the scan that has this text. The text is a function of the scan, so a scan is guessed and printed."""
    try:
        head, body = data.decode('ascii').split('end_header\n', 1)
        counts = [int(line.split()[2]) for line in head.split('\n') if line.startswith('element')]
        lines = [list(map(int, line.split(' '))) for line in body.split('\n')[:-1]]
        rows, others = lines[:counts[0]], lines[counts[0]:]
        if 'weight' in head:
            seen = [Seen(r, k, row[3]) for r, row in enumerate(rows) for k in row[5:]]
        else:
            seen = [Seen(r, row[3], 1) for r, row in enumerate(rows)]
        scan = Scan([(row[0], row[1], row[2]) for row in rows], [(x, y, z) for x, y, z in others], seen)
        if not is_shown(scan) or scan_text(scan) != data:
            raise NotPrinted
    except (ValueError, IndexError) as error:
        raise NotPrinted(str(error)) from None
    return scan


def mesh_text(points: Sequence[Point], faces: Sequence[Facet]) -> bytes:
    head = f'ply\nformat ascii 1.0\nelement vertex {len(points)}\n{PLACE}element face {len(faces)}\nproperty list uchar int vertex_indices\nend_header'
    rows = [' '.join(map(str, p)) for p in points] + [' '.join(map(str, (3, *f))) for f in faces]
    return '\n'.join([head, *rows, '']).encode()

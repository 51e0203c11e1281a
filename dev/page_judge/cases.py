"""Small scans, and certificates and meshes with one thing wrong."""
from __future__ import annotations

import random
from typing import Callable, List, Tuple

from .points import DATA_LIMIT, Point
from .texts import Scan, Seen

KINDS = ('random', 'lattice', 'sphere', 'plane', 'line', 'repeated', 'octahedron', 'limits', 'solid', 'solid', 'solid')
AROUND = [(1, 0, 0), (-1, 0, 0), (0, 1, 0), (0, -1, 0), (0, 0, 1), (0, 0, -1), (1, 1, 1), (-1, -1, 1), (1, -1, -1), (-1, 1, -1)]


def within(x: int, y: int, z: int) -> Point:
    x, y, z = (max(-DATA_LIMIT, min(DATA_LIMIT, number)) for number in (x, y, z))
    return x, y, z


def point(draw: random.Random, most: int) -> Point:
    return draw.randint(-most, most), draw.randint(-most, most), draw.randint(-most, most)


def on_sphere(draw: random.Random, count: int) -> List[Point]:
    side, square = range(-9, 10), draw.choice([9, 25, 27, 49, 50, 81])
    found = [(x, y, z) for x in side for y in side for z in side if x * x + y * y + z * z == square]
    return draw.sample(found, min(count, len(found)))


def points_of(draw: random.Random, kind: str) -> List[Point]:
    """Returns points of a kind, up to 14."""
    count, most = draw.randint(4, 14), draw.choice([1, 2, 3, 5, 20, 1000, DATA_LIMIT])
    if kind in ('sphere', 'solid'):
        return on_sphere(draw, count)
    if kind == 'plane':
        a, b = point(draw, 2), point(draw, 2)
        steps = [(draw.randint(-3, 3), draw.randint(-3, 3)) for _ in range(count)]
        return [within(*(i * x + j * y for x, y in zip(a, b))) for i, j in steps] + [point(draw, 3)][:draw.randint(0, 1)]
    if kind == 'line':
        a = point(draw, 2)
        return [within(*(draw.randint(-5, 5) * x for x in a)) for _ in range(count)] + [point(draw, 3), point(draw, 3)][:draw.randint(0, 2)]
    if kind == 'repeated':
        few = [point(draw, 3) for _ in range(draw.randint(2, 8))]
        return [draw.choice(few) for _ in range(count)]
    if kind == 'octahedron':
        return [within(most * x, most * y, most * z) for x, y, z in AROUND[:6]] + [point(draw, most) for _ in range(draw.randint(0, 5))]
    if kind == 'limits':
        ends = [-DATA_LIMIT, DATA_LIMIT, 0, DATA_LIMIT - 1, 1]
        return [(draw.choice(ends), draw.choice(ends), draw.choice(ends)) for _ in range(count)]
    return [point(draw, 1 if kind == 'lattice' else most) for _ in range(count)]


def scanner_of(draw: random.Random, points: List[Point]) -> Point:
    """Returns a scanner at a point, in line with two, at the limit, or anywhere."""
    p, q, chance = draw.choice(points), draw.choice(points), draw.random()
    if chance < 0.3:
        return p
    if chance < 0.45:
        return within(*((x + y) // 2 for x, y in zip(p, q)))
    if chance < 0.55:
        return within(*(2 * x - y for x, y in zip(p, q)))
    far = max(1, *(abs(z) for p in points for z in p))
    return within(*point(draw, far * draw.choice([1, 2, 5])))


def nearest(p: Point, scanners: List[Point]) -> int:
    return min(range(len(scanners)), key=lambda k: sum((a - b) ** 2 for a, b in zip(p, scanners[k])))


def scan_of(draw: random.Random) -> Scan:
    kind = draw.choice(KINDS)
    points = points_of(draw, kind)
    if kind == 'solid':
        far = draw.choice([30, 100, 200])
        scanners = [(far * x, far * y, far * z) for x, y, z in AROUND[:draw.choice([4, 6, 10])]]
        seen = [Seen(r, nearest(p, scanners) if draw.random() < 0.9 else draw.randrange(len(scanners)), 1) for r, p in enumerate(points)]
        return Scan(points, scanners, seen)
    scanners = [scanner_of(draw, points) for _ in range(draw.randint(1, 5))]
    most, heavy = draw.choice([(1, 1), (1, 1), (4, 1), (4, 255)])
    seen = []
    for r in range(len(points)):
        weight = draw.randint(1, heavy)
        seen += [Seen(r, draw.randrange(len(scanners)), weight) for _ in range(1 if most == 1 else draw.randint(0, most))]
    return Scan(points, scanners, seen)


def weights_of(draw: random.Random) -> Tuple[int, int]:
    """Returns a visibility weight and an area weight."""
    return draw.choice([8, 8, 1, 2, 65535, draw.randint(1, 65535)]), draw.choice([1, 1, 0, 0, 3, 8, 65535, draw.randint(0, 65535)])


def changed_byte(draw: random.Random, text: bytes) -> bytes:
    at = draw.randrange(len(text))
    return text[:at] + bytes([draw.choice(b'0123456789 \n-x')]) + text[at + 1:]


def lost_bytes(draw: random.Random, text: bytes) -> bytes:
    at = draw.randrange(len(text))
    return text[:at] + (text[at + 1:] if draw.random() < 0.5 else b'')


def changed_line(draw: random.Random, text: bytes) -> bytes:
    """Loses, repeats or exchanges a line."""
    lines = text.split(b'\n')
    at = draw.randrange(max(1, len(lines) - 2))
    return b'\n'.join(draw.choice([lines[:at] + lines[at + 1:], lines[:at + 1] + lines[at:], lines[:at] + lines[at:at + 2][::-1] + lines[at + 2:]]))


def changed_number(draw: random.Random, text: bytes) -> bytes:
    """Changes the last number of a line by 1 or much."""
    lines = text.split(b'\n')
    at = draw.choice([k for k, line in enumerate(lines) if line[-1:].isdigit()])
    words = lines[at].split(b' ')
    if words[-1].isdigit():
        words[-1] = b'%d' % max(0, int(words[-1]) + draw.choice([-1, 1, 1, 1 << 40]))
    return b'\n'.join([*lines[:at], b' '.join(words), *lines[at + 1:]])


CHANGES: List[Callable[[random.Random, bytes], bytes]] = [changed_byte, lost_bytes, changed_line, changed_number, changed_number]

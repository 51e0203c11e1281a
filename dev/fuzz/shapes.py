"""Scans that are hard: degenerate points of many kinds, and scanners among them, in their planes and lines, and far out."""
from __future__ import annotations

import itertools
import math
import random
from typing import Callable, NamedTuple, Optional, Sequence

from model.points import LIMIT, Point
from model.scans import Row, Scan, push_scan

Draw = random.Random
Points = list[Point]


def clipped(p: Sequence[float]) -> Point:
    x, y, z = (max(-LIMIT, min(LIMIT, int(w))) for w in p)
    return x, y, z


def times(k: int, p: Point) -> Point:
    return k * p[0], k * p[1], k * p[2]


def on_sphere(squared: int) -> Points:
    """Returns the whole-number points on a sphere."""
    r = math.isqrt(squared)
    found = []
    for x, y in itertools.product(range(-r, r + 1), repeat=2):
        rest = squared - x * x - y * y
        if rest >= 0 and math.isqrt(rest) ** 2 == rest:
            found += [(x, y, math.isqrt(rest)), (x, y, -math.isqrt(rest))]
    return list(dict.fromkeys(found))


def sphere(draw: Draw, n: int) -> Points:
    points = on_sphere(draw.choice([3, 5, 9, 14, 25, 29, 50, 65, 81, 146, 425] if n < 60 else [1105, 5525, 9425]))
    draw.shuffle(points)
    k = draw.choice([1, 1, 2, 3, 1000])
    return [times(k, p) for p in points[:n]]


def lattice(draw: Draw, n: int) -> Points:
    size = max(2, round(n ** (1 / 3) + 0.5))
    step = draw.choice([1, 1, 2, 3, 1000, 2 * LIMIT // (size - 1)])
    points = list(itertools.product(range(size), repeat=3))
    if draw.random() < 0.6:
        draw.shuffle(points)
    return [clipped([w * step - (LIMIT if step > 1000 else 0) for w in p]) for p in points[:n]]


def flat_lattice(draw: Draw, n: int) -> Points:
    size = max(2, math.isqrt(n) + 1)
    points = [(x, y, 0) for x in range(size) for y in range(size)]
    draw.shuffle(points)
    return points[:n]


def line(draw: Draw, n: int) -> Points:
    way, k = draw.choice([(1, 0, 0), (0, 0, 1), (1, 1, 1), (3, -2, 7)]), draw.choice([1, 1, 5])
    return [clipped([w * k * (t - n // 2) for w in way]) for t in range(n)]


def skew(draw: Draw, n: int) -> Points:
    """Two skew lines: the square of their points in cells."""
    k, h = draw.choice([1, 1, 5, 1000]), draw.choice([1, 2, 50])
    return [(k * (t // 2 - n // 4), 0, 0) if t % 2 else (0, k * (t // 2 - n // 4), h) for t in range(n)]


def paraboloid(draw: Draw, n: int) -> Points:
    size = max(2, math.isqrt(n) + 1) // 2 + 1
    points = [(x, y, x * x + y * y) for x in range(-size, size + 1) for y in range(-size, size + 1)]
    draw.shuffle(points)
    return points[:n]


def limits(draw: Draw, n: int) -> Points:
    values = [-LIMIT, LIMIT, 0, -LIMIT + 1, LIMIT - 1, 1, -1]
    return [clipped([draw.choice(values) if draw.random() < 0.8 else draw.randint(-LIMIT, LIMIT) for _ in range(3)]) for _ in range(n)]


def circles(draw: Draw, n: int) -> Points:
    ring = [(5, 0), (4, 3), (3, 4), (0, 5), (-3, 4), (-4, 3), (-5, 0), (-4, -3), (-3, -4), (0, -5), (3, -4), (4, -3)]
    gap = draw.choice([1, 2, 7])
    return [(*ring[k % 12], k // 12 * gap) for k in range(n)]


def moment(draw: Draw, n: int) -> Points:
    """Returns the curve on which every two points are joined."""
    k = draw.choice([1, 1, 2])
    m = min(n, 240 // k)
    return [clipped((k * t, (k * t) ** 2, (k * t) ** 3)) for t in range(-(m // 2), m - m // 2)]


def cloud(draw: Draw, n: int) -> Points:
    k = draw.choice([2, 10, 100, 10000, LIMIT])
    return [(draw.randint(-k, k), draw.randint(-k, k), draw.randint(-k, k)) for _ in range(n)]


def shell(draw: Draw, n: int) -> Points:
    r = draw.choice([20, 1000, 50000, LIMIT - 5])
    found = []
    for _ in range(n):
        p = [draw.gauss(0, 1) for _ in range(3)]
        found.append(clipped([round(r * w / (math.hypot(*p) or 1)) for w in p]))
    return found


def box(draw: Draw, n: int) -> Points:
    r = draw.choice([1, 3, 10, 100])
    found = []
    for _ in range(n):
        p = [draw.randint(-r, r) for _ in range(3)]
        p[draw.randrange(3)] = draw.choice([-r, r])
        found.append(clipped(p))
    return found


def scales(draw: Draw, n: int) -> Points:
    return [clipped([draw.choice([-1, 1]) * draw.choice([0, 1, 2 ** draw.randint(0, 20)]) for _ in range(3)]) for _ in range(n)]


def needle(draw: Draw, n: int) -> Points:
    return [(k, draw.randint(0, 1), draw.randint(0, 1)) for k in range(n)]


def slanted(draw: Draw, n: int) -> Points:
    """Nearly one plane, far out: thin cells."""
    u, v = ([draw.randint(-1000, 1000) for _ in range(3)] for _ in range(2))
    found = []
    for _ in range(n):
        a, b = draw.randint(-900, 900), draw.randint(-900, 900)
        found.append(clipped([a * p + b * q + draw.choice([0, 0, 0, 1, -1]) for p, q in zip(u, v)]))
    return found


def repeated(draw: Draw, n: int) -> Points:
    some = cloud(draw, max(1, n // 5))
    return [draw.choice(some) for _ in range(n)]


KINDS: dict[str, Callable[[Draw, int], Points]] = {f.__name__: f for f in (
    sphere, lattice, flat_lattice, line, skew, paraboloid, limits, circles, moment, cloud, shell, box, scales, needle, slanted, repeated)}
VOTES = [1, 1, 2, 8, 8, 100, 65535]
SMOOTHS = [0, 0, 1, 1, 2, 3, 5, 40, 65535]


def scanner_near(draw: Draw, a: Point, b: Point, c: Point) -> Point:
    """Returns a scanner in some relation to three points."""
    ways: list[Callable[[], Sequence[float]]] = [
        lambda: times(draw.choice([2, 3, 10, 100]), a), lambda: times(10, a), lambda: a,
        lambda: [p + q - r for p, q, r in zip(a, b, c)], lambda: [2 * p - q for p, q in zip(a, b)], lambda: [(p + q) // 2 for p, q in zip(a, b)],
        lambda: [(p + q + r) // 3 for p, q, r in zip(a, b, c)], lambda: [draw.choice([-LIMIT, LIMIT]) for _ in range(3)],
        lambda: [draw.randint(-LIMIT, LIMIT) for _ in range(3)], lambda: [p + draw.choice([-1, 0, 1]) for p in a]]
    return clipped(draw.choice(ways)())


class Drawn(NamedTuple):
    scan: Scan
    kind: str


def outward(points: Points) -> Points:
    """For each point a place three times as far from the middle."""
    middle = [sum(p[axis] for p in points) // len(points) for axis in range(3)]
    return [clipped([m + 3 * (w - m) for w, m in zip(p, middle)]) for p in points]


def far_corners(points: Points) -> Points:
    far = max(1, *(abs(w) for p in points for w in p))
    return [clipped((3 * far * x, 3 * far * y, 3 * far * z)) for x, y, z in itertools.product((-1, 1), repeat=3)]


def drawn_scan(draw: Draw, n: int, kind: Optional[str] = None) -> Drawn:
    """Returns a scan of about n points; half of them enclose something."""
    kind = kind or draw.choice(list(KINDS))
    points = [clipped(p) for p in KINDS[kind](draw, n)]
    if draw.random() < 0.3:
        shift = [draw.choice([0, 1, -7, 1000, LIMIT // 2]) for _ in range(3)]
        points = [clipped([w + s for w, s in zip(p, shift)]) for p in points]
    scanners = [scanner_near(draw, *(draw.choice(points) for _ in range(3))) for _ in range(draw.choice([1, 1, 2, 3, 4, 6]))]
    seen: list[list[int]] = [[draw.randrange(len(scanners))] for _ in points]
    if draw.random() < 0.5:
        own = outward(points) if len(points) <= 40 else far_corners(points)
        nearest = [k if len(points) <= 40 else max(range(8), key=lambda i: sum(a * b for a, b in zip(own[i], p))) for k, p in enumerate(points)]
        seen = [[len(scanners) + k] for k in nearest]
        scanners += own
    if draw.random() < 0.3:
        seen = [s[:draw.choice([0, 1, 1, 1])] + [draw.randrange(len(scanners)) for _ in range(draw.choice([0, 0, 1, 2, 3]))] for s in seen]
    weighed = draw.random() < 0.35
    rows = [Row(p, draw.choice([1, 2, 3, 254, 255]) if weighed else 1, tuple(s)) for p, s in zip(points, seen)
            for _ in range(draw.choice([1, 1, 1, 1, 1, 2, 3]))]
    if draw.random() < 0.4:
        draw.shuffle(rows)
    return Drawn(Scan(rows, scanners), kind)


def text_of(draw: Draw, scan: Scan, fixed_share: float = 0.15) -> tuple[bytes, list[str]]:
    """Returns a scan as a text with options; some are seen from a fixed scanner."""
    if draw.random() >= fixed_share:
        return push_scan(scan), []
    weighed = any(row.weight != 1 for row in scan.rows)
    lines = ['ply', 'format ascii 1.0', f'element vertex {len(scan.rows)}', 'property int x', 'property int y', 'property int z']
    lines += (['property uchar weight'] if weighed else []) + ['end_header']
    lines += [' '.join(map(str, [*row.point, *([row.weight] if weighed else [])])) for row in scan.rows]
    return ('\n'.join(lines) + '\n').encode(), ['scanner=%d,%d,%d' % draw.choice(scan.scanners)]

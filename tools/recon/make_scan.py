"""Simulates a scan of a shape, in integer coordinates. The same arguments give the same file.

  recon-make-scan SHAPE COUNT SEED OUT [scale=S] [noise=F] [stray=F]

  SHAPE              torus, statue (a figure of balls), cube or sphere, seen from 8 positions around it; room (with furniture and two
                     pillars, seen from 4 positions inside); or one of three that time the worst case, whose lines of sight cross as
                     many cells as possible: `tube` (a thin tube, seen from one point beyond each end), `crowd` (points in a ball, each
                     seen by 20 of 65,536 scanners in it, one row for each line of sight) and paraboloid (seen from 4 positions over
                     it). These three have no noise and no outliers
  COUNT, SEED        the number of rows, and the seed of the generator
  scale=S            steps for the length 1; shapes reach from about -1 to 1, their scanners to 2.4 (default: 500000). Coordinates are
                     clamped to 2,097,151
  noise=F            the standard deviation of a point along its line of sight, as a fraction of the length 1 (default: 0.0015)
  stray=F            the fraction of outliers: half of them too short on their line of sight, half anywhere (default: 0.02)

A point is drawn uniformly on the surface together with a scanner, and kept if that scanner sees it, not at a grazing angle.
"""
from __future__ import annotations

import itertools
import math
import random
from dataclasses import dataclass
from typing import Any, Iterator, Sequence, Tuple

from recon.toolbox.output_files import whole_file
from recon.toolbox.ply_text import IS_NUMBER, SCANNER_LIMIT, Property, Refusal, Writer
from recon.toolbox.progress import step
from recon.toolbox.tool import Report, number_of, run

Place = Sequence[float]
Box = Tuple[Place, Place]
LIMIT = 2097151
COUNT_LIMIT = 10 ** 8


def less(a: Place, b: Place) -> Place:
    return a[0] - b[0], a[1] - b[1], a[2] - b[2]


def dot(a: Place, b: Place) -> float:
    return a[0] * b[0] + a[1] * b[1] + a[2] * b[2]


def along(a: Place, d: Place, t: float) -> Place:
    return a[0] + d[0] * t, a[1] + d[1] * t, a[2] + d[2] * t


def direction(draw: random.Random) -> Place:
    """A direction, drawn evenly."""
    z, turn = draw.uniform(-1, 1), draw.uniform(0, 2 * math.pi)
    ring = math.sqrt(1 - z * z)
    return ring * math.cos(turn), ring * math.sin(turn), z


def ring_of_scanners(far: float, heights: tuple[float, float]) -> list[Place]:
    """Eight places around an object."""
    return [(far * math.cos(0.3 + math.pi / 4 * k), far * math.sin(0.3 + math.pi / 4 * k), heights[k % 2]) for k in range(8)]


def box_is_met(low: Place, high: Place, a: Place, d: Place, first: float, last: float) -> bool:
    """Whether the line from a along d passes through the inside of a box between the two parameters."""
    for k in range(3):
        if abs(d[k]) < 1e-12:
            if not low[k] < a[k] < high[k]:
                return False
            continue
        one, two = (low[k] - a[k]) / d[k], (high[k] - a[k]) / d[k]
        first, last = max(first, min(one, two)), min(last, max(one, two))
    return first + 1e-9 < last


class Torus:
    """A torus with the radii 0.7 and 0.28."""
    scanners = ring_of_scanners(2.2, (1.4, -1.5))

    def draw(self, draw: random.Random) -> tuple[Place, Place]:
        while True:
            around, tube = draw.uniform(0, 2 * math.pi), draw.uniform(0, 2 * math.pi)
            far = 0.7 + 0.28 * math.cos(tube)
            if draw.uniform(0, 0.98) <= far:
                break
        out = math.cos(tube) * math.cos(around), math.cos(tube) * math.sin(around), math.sin(tube)
        return (far * math.cos(around), far * math.sin(around), 0.28 * math.sin(tube)), out

    def is_hidden(self, p: Place, d: Place) -> bool:
        for k in range(1, 40):
            x, y, z = along(p, d, 0.02 + k * 0.02)
            if math.hypot(math.hypot(x, y) - 0.7, z) < 0.28:
                return True
        return False


class Balls:
    """Balls joined to one body."""

    def __init__(self, balls: Sequence[tuple[Place, float]], scanners: list[Place]) -> None:
        self.balls, self.scanners = balls, scanners
        self.weights = [radius * radius for _, radius in balls]

    def draw(self, draw: random.Random) -> tuple[Place, Place]:
        while True:
            (centre, radius), = draw.choices(self.balls, self.weights)
            out = direction(draw)
            p = along(centre, out, radius)
            if all(dot(less(p, c), less(p, c)) >= r * r for c, r in self.balls if c != centre):
                return p, out

    def is_hidden(self, p: Place, d: Place) -> bool:
        length = dot(d, d)
        for centre, radius in self.balls:
            m = less(p, centre)
            half = dot(m, d)
            root = half * half - length * (dot(m, m) - radius * radius)
            if root > 0 and -half - math.sqrt(root) > 1e-6 * length:
                return True
        return False


class Boxes:
    """Boxes seen from outside, and perhaps one seen from inside."""

    def __init__(self, solid: Sequence[Box], hollow: Sequence[Box], scanners: list[Place]) -> None:
        self.solid, self.scanners = solid, scanners
        self.faces, self.weights = [], []
        for (low, high), sign in [(box, 1) for box in solid] + [(box, -1) for box in hollow]:
            for axis in range(3):
                for end in (0, 1):
                    self.faces.append((low, high, axis, end, sign))
                    self.weights.append(math.prod(high[k] - low[k] for k in range(3) if k != axis))

    def draw(self, draw: random.Random) -> tuple[Place, Place]:
        (low, high, axis, end, sign), = draw.choices(self.faces, self.weights)
        p = [draw.uniform(low[k], high[k]) for k in range(3)]
        p[axis] = (low, high)[end][axis]
        out = [0, 0, 0]
        out[axis] = sign if end else -sign
        return tuple(p), out

    def is_hidden(self, p: Place, d: Place) -> bool:
        return any(box_is_met(low, high, p, d, 1e-6, 1) for low, high in self.solid)


class Tube:
    """A thin tube, with the radius a five-hundredth of its length. Each sight goes along its inside from a point to one of the ends."""
    scanners = [(-1.05, 0, 0), (1.05, 0, 0)]

    def rows(self, draw: random.Random) -> Iterator[tuple[Place, int]]:
        while True:
            turn = draw.uniform(0, 2 * math.pi)
            yield (draw.uniform(-1, 1), 0.002 * math.cos(turn), 0.002 * math.sin(turn)), draw.randrange(2)


class Crowd:
    """Points in a ball, each seen by 20 of the scanners in it."""

    def __init__(self) -> None:
        places = random.Random('crowd')
        self.scanners = [self.place(places) for _ in range(SCANNER_LIMIT)]

    def place(self, draw: random.Random) -> Place:
        return tuple(c * draw.random() ** (1 / 3) for c in direction(draw))

    def rows(self, draw: random.Random) -> Iterator[tuple[Place, int]]:
        while True:
            p = self.place(draw)
            for _ in range(20):
                yield p, draw.randrange(len(self.scanners))


class Paraboloid:
    """A bowl, whose points have many cells between them, seen from over it."""
    scanners = [(0.2, 0.1, 1.5), (-0.3, 0.2, 1.7), (0.1, -0.4, 1.6), (0.0, 0.0, 2.2)]

    def rows(self, draw: random.Random) -> Iterator[tuple[Place, int]]:
        while True:
            x, y = draw.uniform(-0.8, 0.8), draw.uniform(-0.8, 0.8)
            yield (x, y, x * x + y * y), draw.randrange(4)


FIGURE = [((0, 0, -0.92), 0.34), ((-0.15, 0, -0.62), 0.2), ((0.15, 0, -0.62), 0.2), ((-0.14, 0, -0.35), 0.2),
          ((0.14, 0, -0.35), 0.2), ((0, 0, -0.05), 0.33), ((0, 0, 0.3), 0.28), ((0, 0, 0.68), 0.2), ((0, -0.2, 0.67), 0.05),
          ((-0.3, 0, 0.4), 0.13), ((-0.44, -0.08, 0.25), 0.12), ((-0.5, -0.22, 0.12), 0.11), ((0.3, 0, 0.4), 0.13),
          ((0.45, 0, 0.52), 0.12), ((0.55, -0.05, 0.68), 0.11), ((0.6, -0.1, 0.86), 0.1)]
WORST = {'tube': Tube, 'crowd': Crowd, 'paraboloid': Paraboloid}
ROOM = ((-1.0, -0.8, -0.5), (1.0, 0.8, 0.5))
FURNITURE = [((-0.8, -0.6, -0.5), (-0.2, -0.3, -0.15)), ((0.2, 0.3, -0.5), (0.8, 0.65, -0.2)),
             ((0.65, -0.7, -0.5), (0.95, -0.4, 0.25)),
             ((-0.05, -0.06, -0.49), (0.05, 0.06, 0.49)), ((-0.6, 0.35, -0.49), (-0.5, 0.45, 0.49))]


def shape_of(name: str) -> Any:
    if name == 'torus':
        return Torus()
    if name == 'sphere':
        return Balls([((0, 0, 0), 0.7)], ring_of_scanners(2.2, (1.0, -1.0)))
    if name == 'statue':
        return Balls(FIGURE, ring_of_scanners(2.4, (1.0, -0.2)))
    if name == 'cube':
        return Boxes([((-0.6, -0.6, -0.6), (0.6, 0.6, 0.6))], [], ring_of_scanners(2.2, (1.3, -1.3)))
    if name == 'room':
        return Boxes(FURNITURE, [ROOM], [(-0.55, -0.1, 0.05), (0.5, -0.2, 0.1), (-0.1, 0.5, 0.0), (0.45, 0.1, 0.15)])
    if name in WORST:
        return WORST[name]()
    raise Refusal(f'unknown shape {name}: use torus, room, statue, cube, sphere, {", ".join(WORST)}')


def wrong_point(draw: random.Random, p: Place, d: Place) -> Place:
    """A point as scanners err at edges and in dust."""
    if draw.random() < 0.5:
        return along(p, d, 0.9 * draw.random())
    return tuple(draw.uniform(-1.2, 1.2) for _ in range(3))


def seen_point(draw: random.Random, shape: Balls | Boxes | Torus, noise: float, stray: float) -> tuple[Place, int]:
    """A point as one of the scanners saw it, and that scanner's number."""
    while True:
        p, out = shape.draw(draw)
        index = draw.randrange(len(shape.scanners))
        d = less(shape.scanners[index], p)
        length = math.sqrt(dot(d, d))
        if dot(d, out) > 0.08 * length and not shape.is_hidden(p, d):
            break
    if draw.random() < stray:
        return wrong_point(draw, p, d), index
    return along(p, d, draw.gauss(0, noise) / length), index


def rows_of(draw: random.Random, shape: Any, noise: float, stray: float) -> Iterator[tuple[Place, int]]:
    """Points and the numbers of their scanners, without end."""
    if hasattr(shape, 'rows'):
        yield from shape.rows(draw)
    while True:
        yield seen_point(draw, shape, noise, stray)


def scaled(place: Place, scale: float) -> list[str]:
    return [str(max(-LIMIT, min(LIMIT, round(c * scale)))) for c in place]


def number(text: str, what: str, least: int, most: int) -> float:
    if not IS_NUMBER(text) or not least <= float(text) <= most:
        raise Refusal(f'{what} must be a number from {least} to {most}, not {text}')
    return float(text)


@dataclass
class MadeScan(Report):
    """A scan that was made of a shape."""
    shape: str
    out: str
    points: int
    scanners: int

    def __str__(self) -> str:
        return f'wrote {number_of(self.points, "point")} and {self.scanners} scanners of a {self.shape} to {self.out}'


def work(names: Sequence[str], options: Any) -> MadeScan:
    """Makes a scan of a shape."""
    shape, out = shape_of(names[0]), names[3]
    count = int(number(names[1], 'COUNT', 0, COUNT_LIMIT))
    scale = number(options.scale or '500000', 'scale', 1, LIMIT)
    noise = number(options.noise or '0.0015', 'noise', 0, 1)
    stray = number(options.stray or '0.02', 'stray', 0, 1)
    draw = random.Random(' '.join(names[:3]))
    assert len(shape.scanners) <= SCANNER_LIMIT
    columns = [Property(name, 'int') for name in ('x', 'y', 'z', 'scanner')]
    with whole_file(out) as file:
        writer = Writer(file, columns, 'make_scan')
        writer.begin(True)
        with step('simulating', lambda: writer.count / count):
            for p, index in itertools.islice(rows_of(draw, shape, noise, stray), count):
                writer.row(scaled(p, scale) + [str(index)])
        writer.finish([scaled(place, scale) for place in shape.scanners])
    return MadeScan(names[0], out, count, len(shape.scanners))


def main() -> None:
    run(work, __doc__, 4, ('scale', 'noise', 'stray'))


if __name__ == '__main__':
    main()

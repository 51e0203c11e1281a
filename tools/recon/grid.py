"""Measures how much of a box is inside a surface, by a grid of points for `recon ask`.

  recon-grid points OUT from=X,Y,Z to=X,Y,Z side=S
  recon-grid volume ANSWERS side=S

`points` writes the centers of the cubes that fill a box: rows along x, layers of rows along y, and layers along z.

  from=X,Y,Z         the corner of the box with the least coordinates, in coordinates of the scan
  to=X,Y,Z           the corner with the greatest; the last cubes may extend beyond it
  side=S             the side of a cube; at most 1,048,576 cubes

`volume` adds up the cubes whose center is inside. The error comes from the cubes that the surface crosses, and decreases with their
side.
"""
from __future__ import annotations

import re
from dataclasses import dataclass
from decimal import Decimal, ROUND_CEILING
from typing import Any, Sequence, Tuple

from recon.toolbox.exact import WIDE, text
from recon.toolbox.output_files import whole_file
from recon.toolbox.ply_text import Refusal
from recon.toolbox.sieve import length_of
from recon.toolbox.text_lines import Lines
from recon.toolbox.tool import NotUnderstood, Report, number_of, run, three

LIMIT = 1048576
HALF = Decimal('0.5')
IS_HEAD = re.compile(r'answers ([0-9]{1,10})').fullmatch
ANSWERS = {'inside': 1, 'outside': 0}


def middles(low: Decimal, high: Decimal, side: Decimal) -> list[str]:
    """The middles of the cubes from one coordinate to another, as words."""
    if high <= low:
        raise Refusal('each coordinate of from= must be less than that of to=')
    count = WIDE.divide(WIDE.subtract(high, low), side).to_integral_value(ROUND_CEILING)
    if count > LIMIT:
        raise Refusal('more than 1,048,576 cubes: use a larger side')
    return [text(WIDE.add(low, WIDE.multiply(side, k + HALF))) for k in range(int(count))]


@dataclass
class Grid(Report):
    """A grid of points that was written, and how many there are along each axis."""
    out: str
    counts: Tuple[int, int, int]

    def __str__(self) -> str:
        x, y, z = self.counts
        return f'wrote {number_of(x * y * z, "point")} to {self.out}, {x} by {y} by {z}'


@dataclass
class Volume(Report):
    """Answers that were counted, and the volume of the cubes whose middles are inside."""
    name: str
    count: int
    inside: int
    volume: str

    def __str__(self) -> str:
        return f'read {number_of(self.count, "answer")} of {self.name}; inside {self.inside}, volume {self.volume}'


def write_points(out: str, start: str | None, end: str | None, side: Decimal) -> Grid:
    """Writes the points."""
    if start is None or end is None:
        raise Refusal('from= and to= are required: they are two corners of the box')
    corners = zip(three(start, 'from'), three(end, 'to'))
    xs, ys, zs = [middles(Decimal(low), Decimal(high), side) for low, high in corners]
    count = len(xs) * len(ys) * len(zs)
    if count > LIMIT:
        raise Refusal('more than 1,048,576 cubes: use a larger side')
    with whole_file(out) as file:
        for z in zs:
            for y in ys:
                file.writelines(f'{x} {y} {z}\n' for x in xs)
    return Grid(out, (len(xs), len(ys), len(zs)))


def answer_of(lines: Lines) -> int:
    """1 or 0, by the next line."""
    line = lines.next_line()
    if line is None:
        raise Refusal(f'truncated: an answer is missing after line {lines.number}')
    if line not in ANSWERS:
        raise Refusal(f'line {lines.number} is not `inside` or `outside`')
    return ANSWERS[line]


def read_answers(path: str) -> tuple[int, int]:
    """How many answers there are, and how many of them are `inside`."""
    lines = Lines(path)
    try:
        head = IS_HEAD(lines.next_line() or '')
        if not head:
            raise Refusal('line 1 is not `answers N`: the file is not an answer of recon ask')
        count = int(head.group(1))
        inside = sum(answer_of(lines) for _ in range(count))
        if lines.next_line() is not None:
            raise Refusal(f'line {lines.number}: unexpected data after the last answer')
        return count, inside
    finally:
        lines.close()


def work(names: Sequence[str], options: Any) -> Report:
    """Writes a grid of points, or tells a volume by the answers to one."""
    command, path = names
    if command not in ('points', 'volume'):
        raise NotUnderstood
    length_of(options.side or '', 'side', 'the side of a cube')
    side = Decimal(options.side)
    if command == 'points':
        return write_points(path, options.from_, options.to, side)
    if options.from_ is not None or options.to is not None:
        raise Refusal('from= and to= are not options of volume')
    count, inside = read_answers(path)
    volume = text(WIDE.multiply(Decimal(inside), WIDE.power(side, 3)))
    return Volume(path, count, inside, volume)


def main() -> None:
    run(work, __doc__, 2, ('from', 'to', 'side'))


if __name__ == '__main__':
    main()

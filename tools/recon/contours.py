"""Converts a slice of `recon` to an SVG drawing or a CSV table, in coordinates of the scan.

  recon-contours SLICE OUT [unit=U] [origin=X,Y,Z]

  OUT                SVG or CSV, by the extension of its name: .svg or .csv
  unit=U             divide coordinates by U (default: 1)
  origin=X,Y,Z       add the origin that was subtracted from the scan (default: 0,0,0)

In the drawing x points right and y up, and the inside is filled by the even-odd rule. A row of the table contains the index of the loop, from
0, the index of the face, and the point's x and y. Each loop is closed: its first point follows its last. Coordinates are decimals
of up to 30 digits, the last one rounded.
"""
from __future__ import annotations

import os
from dataclasses import dataclass
from decimal import Decimal
from typing import Any, Sequence, TextIO

from recon.toolbox.exact import READ, text
from recon.toolbox.output_files import whole_file
from recon.toolbox.ply_text import Refusal
from recon.toolbox.slice_text import Frame, read_loops
from recon.toolbox.tool import Report, number_of, run

MARGIN = Decimal('0.05')


def box_of(loops: Sequence[Sequence[tuple[str, str]]]) -> tuple[Decimal, Decimal, Decimal, Decimal]:
    """The least x and y of all points, and the greatest."""
    points = [point for loop in loops for point in loop]
    xs, ys = ([Decimal(point[axis]) for point in points] for axis in (0, 1))
    return min(xs), min(ys), max(xs), max(ys)


def path_of(loop: Sequence[tuple[str, str]]) -> str:
    """A closed line, with y up."""
    return 'M' + ' L'.join(f'{x} {text(-Decimal(y))}' for x, y in loop) + ' Z'


def draw(slice_path: str, frame: Frame, file: TextIO) -> tuple[int, int]:
    """Writes a drawing, and answers how many loops and points it has."""
    loops = [[(frame.word(0, x, under), frame.word(1, y, under)) for _, x, y, under in loop] for loop in read_loops(slice_path)]
    if not any(loops):
        raise Refusal(f'the slice has no {"points" if loops else "loops"}: nothing to draw')
    left, low, right, high = box_of(loops)
    edge = max(right - left, high - low) * MARGIN
    view = [left - edge, -high - edge, right - left + 2 * edge, high - low + 2 * edge]
    file.write(f'<svg xmlns="http://www.w3.org/2000/svg" viewBox="{" ".join(text(READ.plus(word)) for word in view)}">\n')
    file.write(f'<path fill="#f2cfa2" fill-rule="evenodd" stroke="#333333" stroke-width="{text(edge / 10)}" d="')
    file.write('\n'.join(map(path_of, loops)))
    file.write('"/>\n</svg>\n')
    return len(loops), sum(map(len, loops))


def tabulate(slice_path: str, frame: Frame, file: TextIO) -> tuple[int, int]:
    """Writes a table, loop by loop, and answers how many loops and points it has."""
    loops = points = 0
    file.write('loop,face,x,y\n')
    for loop in read_loops(slice_path):
        for face, x, y, under in loop:
            file.write(f'{loops},{int(face)},{frame.word(0, x, under)},{frame.word(1, y, under)}\n')
        loops, points = loops + 1, points + len(loop)
    return loops, points


FORMS = {'.svg': draw, '.csv': tabulate}


@dataclass
class Drawn(Report):
    """A slice that was drawn or tabulated."""
    name: str
    out: str
    loops: int
    points: int

    def __str__(self) -> str:
        counts = f'{number_of(self.loops, "loop")} of {number_of(self.points, "point")}'
        return f'wrote {counts} of {self.name} to {self.out}'


def work(names: Sequence[str], options: Any) -> Drawn:
    """Draws or tabulates a slice, as the ending of the output's name says."""
    ending = os.path.splitext(names[1])[1].lower()
    if ending not in FORMS:
        raise Refusal(f'{names[1]}: unknown file name extension: use {", ".join(FORMS)}')
    frame = Frame(options)
    with whole_file(names[1]) as file:
        loops, points = FORMS[ending](names[0], frame, file)
    return Drawn(names[0], names[1], loops, points)


def main() -> None:
    run(work, __doc__, 2, ('unit', 'origin'))


if __name__ == '__main__':
    main()

"""Boxes that cut space into tiles, found from a sample of a scan, in scaled units.

Space is cut again and again by planes along the axes, at whole numbers. A box that is not cut any more is the *core* of a tile; the cores
meet in their faces and leave no place out. A tile's scan has the points of its core and those within the overlap of it, on each axis.

Names: mean_spacing · Core (a tile's box) · Cut (a box that was cut) · divide (cuts a box until each tile has few enough points) · cores_of (the
boxes of a division, in their order) · handed_out (which points belong to which core) · write_list, read_list (the file `tiles.txt`).
"""
from __future__ import annotations

import math
import re
from dataclasses import dataclass
from typing import Iterator, List, Tuple, Union

import numpy as np
from scipy.spatial import cKDTree

from recon.toolbox.output_files import whole_file
from recon.toolbox.ply_text import Refusal

ASKED = 4000
FAR, LIMIT = 1 << 21, (1 << 21) - 1
MOST_TILES = 4095
# how many times as many points tiles have as the box that they are cut from, about
SHARED = 1.1
# The median distance to the nearest of points that lie evenly, in no order, on a surface, a square of side 1 for each.
MEDIAN = math.sqrt(math.log(2) / math.pi)
IS_FILE = re.compile(r'[A-Za-z0-9_-][A-Za-z0-9_.-]{0,254}').fullmatch
WHOLE = r'(-?[0-9]{1,7})'
CUT = re.compile(rf'cut ([xyz]) {WHOLE}').fullmatch
TILE = re.compile(r'tile ([^ ]+) ' + ' '.join([WHOLE] * 6)).fullmatch


def mean_spacing(points: np.ndarray, share: float) -> float:
    """Returns the side of the square of the surface that a point has, by the median of distances; each of the points (n, 3) stands for
    `share` points."""
    side = 2 * float(np.linalg.norm(np.ptp(points, axis=0))) / math.sqrt(len(points)) or 1.0
    asked = points[::max(1, len(points) // ASKED)]
    far = np.sort(np.minimum(cKDTree(points).query(asked, 2)[0][:, 1], side))
    return float(far[len(far) // 2]) / MEDIAN / math.sqrt(share)


class Core:
    """A box with its least coordinates, which belong to it, and its greatest, which do not; `FAR` where it has no end."""

    def __init__(self, low: Tuple[int, ...] = (-FAR,) * 3, high: Tuple[int, ...] = (FAR,) * 3, name: str = '') -> None:
        self.low, self.high, self.name = low, high, name

    def holds(self, points: np.ndarray, factor: int = 1) -> np.ndarray:
        """Returns which points (n, 3), in parts of a unit, lie in the box."""
        inside = [(points[:, k] >= factor * self.low[k]) & (points[:, k] < factor * self.high[k]) for k in range(3)]
        return np.asarray(inside[0] & inside[1] & inside[2])

    def within(self, points: np.ndarray, overlap: int) -> np.ndarray:
        """Returns which points (n, 3) are of the box or near enough to it."""
        inside = [(points[:, k] >= self.low[k] - overlap) & (points[:, k] <= self.high[k] + overlap) for k in range(3)]
        return np.asarray(inside[0] & inside[1] & inside[2])

    def halves(self, axis: int, at: int) -> tuple[Core, Core]:
        """Returns the two boxes below and above a plane."""
        low, high = list(self.low), list(self.high)
        low[axis] = high[axis] = at
        return Core(self.low, tuple(high)), Core(tuple(low), self.high)


@dataclass
class Cut:
    """A box that was cut at a plane, into the part below it and that from it on."""
    axis: int
    at: int
    below: Division
    above: Division


Division = Union[Core, Cut]


def cut_at(values: np.ndarray, part: float) -> int | None:
    """Returns a whole number with about this part of the values below it, or None where all values are the same."""
    low, high = int(values.min()), int(values.max())
    if low == high:
        return None
    at = int(np.partition(values, int(part * (len(values) - 1)))[int(part * (len(values) - 1))])
    return min(max(at, low + 1), high)


def best_cut(core: Core, points: np.ndarray, overlap: int, part: float) -> tuple[int, int] | None:
    """Returns the axis and the place of the plane along which the fewest points stand in the overlap, or None where there is none."""
    inside, found = points[core.holds(points)], []
    for axis in range(3):
        at = cut_at(inside[:, axis], part) if len(inside) else None
        if at is not None:
            found.append((int((np.abs(points[:, axis] - at) <= overlap).sum()), axis, at))
    return min(found)[1:] if found else None


def divide(core: Core, points: np.ndarray, share: float, overlap: int, limit: int, most: int = MOST_TILES) -> Division:
    """Cuts a box until each tile has at most the given number of points, by a sample of points (n, 3) in its box and the overlap; each
    of these stands for several. The sampling error is allowed for. A box for k tiles is cut into one for k // 2 and one for the others, so that
    tiles are nearly full."""
    expected = share * len(points) + (4 * share * math.sqrt(len(points)) if share > 1 else 0)
    if expected <= limit:
        return core
    count = max(2, math.ceil(SHARED * expected / limit))
    cut = best_cut(core, points, overlap, count // 2 / count)
    if cut is None or most < 2:
        raise Refusal(f'more than {limit} points are too near each other to be split into boxes: use a smaller overlap=, a larger '
                      'points=, or thin the scan first (recon-scan with side=)')
    axis, at = cut
    below, above = core.halves(axis, at)
    first = divide(below, points[points[:, axis] <= at + overlap], share, overlap, limit, most - 1)
    last = divide(above, points[points[:, axis] >= at - overlap], share, overlap, limit, most - len(cores_of(first)))
    return Cut(axis, at, first, last)


def cores_of(division: Division) -> List[Core]:
    if isinstance(division, Core):
        return [division]
    return cores_of(division.below) + cores_of(division.above)


def handed_out(division: Division, points: np.ndarray, rows: np.ndarray, overlap: int) -> Iterator[Tuple[Core, np.ndarray]]:
    """Yields each core that some of these rows of points (n, 3) belong to or are near enough to, and the rows."""
    if not len(rows):
        return
    if isinstance(division, Core):
        yield division, rows
        return
    values = points[rows, division.axis]
    yield from handed_out(division.below, points, rows[values <= division.at + overlap], overlap)
    yield from handed_out(division.above, points, rows[values >= division.at - overlap], overlap)


def core_numbers(division: Division, points: np.ndarray, factor: int) -> np.ndarray:
    """Returns for points (n, 3), in parts of a unit, the number of the core in which each lies."""
    found, count = np.zeros(len(points), np.int32), 0

    def go(part: Division, rows: np.ndarray) -> None:
        nonlocal count
        if isinstance(part, Core):
            found[rows], count = count, count + 1
            return
        is_below = points[rows, part.axis] < factor * part.at
        go(part.below, rows[is_below])
        go(part.above, rows[~is_below])

    go(division, np.arange(len(points)))
    return found


def core_number(division: Division, point: Tuple[int, ...], factor: int) -> int:
    """Returns the same of one point."""
    number = 0
    while isinstance(division, Cut):
        if point[division.axis] < factor * division.at:
            division = division.below
        else:
            number += len(cores_of(division.below))
            division = division.above
    return number


def lines_of(division: Division) -> Iterator[str]:
    """Yields the lines of a division in `tiles.txt`."""
    if isinstance(division, Core):
        yield f'tile {division.name}.mesh.ply {" ".join(map(str, (*division.low, *division.high)))}\n'
        return
    yield f'cut {"xyz"[division.axis]} {division.at}\n'
    yield from lines_of(division.below)
    yield from lines_of(division.above)


def write_list(path: str, division: Division) -> None:
    """Writes `tiles.txt`."""
    with whole_file(path) as file:
        file.write(f'tiles {len(cores_of(division))}\n')
        file.writelines(lines_of(division))


def read_list(path: str) -> Division:
    """Reads `tiles.txt`. Raises `Refusal` for another file."""
    with open(path, encoding='latin-1', newline='\n') as file:
        lines = file.read(1 << 20).split('\n')
    rest = iter(lines[1:])

    def part(core: Core) -> Division:
        line = next(rest, '')
        tile, cut = TILE(line), CUT(line)
        if tile and IS_FILE(tile[1]) and tile[1].endswith('.mesh.ply'):
            core.name = tile[1][:-len('.mesh.ply')]
            if tuple(map(int, tile.groups()[1:])) != (*core.low, *core.high):
                raise ValueError
            return core
        if not cut:
            raise ValueError
        axis, at = 'xyz'.index(cut[1]), int(cut[2])
        below, above = core.halves(axis, at)
        return Cut(axis, at, part(below), part(above))

    try:
        division = part(Core())
        names = [core.name for core in cores_of(division)]
        if [*rest] != [''] or lines[0] != f'tiles {len(names)}' or len(set(names)) < len(names) or len(names) > MOST_TILES:
            raise ValueError
    except (ValueError, RecursionError):
        raise Refusal(f'{path} is not a list of recon-tiles split') from None
    return division

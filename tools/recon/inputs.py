"""Scans as `recon-surface` takes them in: points, who saw them, and their colors, from files of every kind that `recon-scan` reads.

Names: Cloud · read_cloud (reads files, and chooses how lines of sight are known).
"""
from __future__ import annotations

import os
import re
from dataclasses import dataclass
from pathlib import Path
from typing import Any, Optional, Sequence

import numpy as np

from recon.choices import Choices
from recon.clouds import box_of, spacing
from recon.library import Sights
from recon.program import Invalid
from recon.sights import above, along_normals, estimated_normals, lies_flat
from recon.tables import Table, read_table, silent
from recon.toolbox.point_files import has_rows
from recon.toolbox.ply_text import Refusal
from recon.toolbox.seen import Views, views_of
from recon.toolbox.sieve import InBox
from recon.toolbox.text_layout import NORMALS
from recon.toolbox.text_points import start_of_list
from recon.toolbox.tool import field, number_of

FAR, SAMPLE = 1e150, 40_000
# of points that are added
GRAY = 160
MODELS = ('sparse/images.bin', 'sparse/images.txt', 'images.bin', 'images.txt', 'sparse/0/images.bin')


@dataclass
class Cloud:
    """Points (n, 3), scanners (k, 3), who saw which point, weights (n,) and colors (n, 3) as uint8 if there are any. `is_made_up` tells
    scanners that nobody stated. `rows` (n,) is the row of each point among those that were read. The last `added` points are no points of the scan
    (`with_corners`); their rows are -1."""
    points: np.ndarray
    scanners: np.ndarray
    sights: Sights
    colors: Optional[np.ndarray] = None
    weights: Optional[np.ndarray] = None
    is_made_up: bool = False
    added: int = 0
    rows: Optional[np.ndarray] = None

    def views(self) -> Views:
        """From where each point was seen."""
        return views_of(self.points, self.scanners, self.sights.counts, self.sights.scanners, self.added, self.is_made_up)

    def take(self, rows: np.ndarray) -> Cloud:
        """Returns the points of these rows, in their order, with all scanners."""
        return Cloud(self.points[rows], self.scanners, self.sights.take(rows), None if self.colors is None else self.colors[rows],
                     None if self.weights is None else self.weights[rows], self.is_made_up,
                     rows=None if self.rows is None else self.rows[rows])

    def first_scanners(self) -> np.ndarray:
        """The row of the first scanner of each point that has one; -1 for the others."""
        starts = np.cumsum(self.sights.counts) - self.sights.counts
        padded = np.r_[self.sights.scanners, -1]
        return np.where(self.sights.counts > 0, padded[np.minimum(starts, len(padded) - 1)], -1)

    def with_corners(self, off: float) -> Cloud:
        """Returns the cloud with eight points more: the corners of a box `off` outside of the points, each seen by a scanner as far
        outside of the box. So walls that were scanned from inside become solid."""
        low, high = box_of(self.points)
        signs = np.array([[x, y, z] for x in (0, 1) for y in (0, 1) for z in (0, 1)])
        corners = [np.where(signs, high + k * off, low - k * off) for k in (1, 2)]
        count = len(self.scanners)
        sights = Sights(np.r_[self.sights.counts, np.ones(8, np.int64)], np.r_[self.sights.scanners, np.arange(count, count + 8)])
        return Cloud(np.r_[self.points, corners[0]], np.r_[self.scanners, corners[1]], sights,
                     None if self.colors is None else np.r_[self.colors, np.full((8, 3), GRAY, np.uint8)],
                     None if self.weights is None else np.r_[self.weights, np.ones(8, np.int64)], self.is_made_up, 8,
                     None if self.rows is None else np.r_[self.rows, np.full(8, -1)])


class Inputs:
    """The files of a run, and the options that say how they are read. `folder` takes what is made on the way."""

    def __init__(self, args: Any, folder: Path, choices: Choices) -> None:
        self.args, self.folder, self.choices = args, folder, choices
        self.names = [os.fspath(name) for name in args.input]

    def scanned(self, names: Sequence[str], **options: Any) -> Table:
        """Reads files as `recon-scan` does with these options, and with those that crop. Raises `Refusal`."""
        table, said = read_table(names, silent, **options, **self.cropping())
        self.choices.tell(said)
        return table

    def cropping(self) -> dict[str, str]:
        """The options of `recon-scan` that keep a box of the points."""
        given = {key: getattr(self.args, field(key)) for key in ('from', 'to') if getattr(self.args, field(key)) is not None}
        return {**given, 'outside': 'yes'} if given and self.args.outside else given

    def reading(self) -> dict[str, str]:
        """The options of `recon-scan` that were given."""
        keys = ('positions', 'index', 'table', 'images', 'position', 'flight')
        return {key: getattr(self.args, key) for key in keys if getattr(self.args, key) is not None}

    def placed(self) -> tuple[Sequence[str], dict[str, str]]:
        """The names and options where `--scanner` gives one position to all points."""
        args = self.args
        options = self.reading()
        if not args.scanner:
            return self.names, options
        if len(self.names) != 1 or '=' in self.names[0] and not os.path.exists(self.names[0]) or 'positions' in options or 'table' in options:
            raise Refusal('--scanner requires a single FILE without =X,Y,Z, and excludes --positions and --table')
        return self.names, {**options, 'scanner': args.scanner}


def read_cloud(inputs: Inputs) -> Cloud:
    """Reads the files, and chooses how lines of sight are known: as the options or the files say, else along normals, else from above
    where the points lie so, else along estimated normals."""
    if inputs.args.arrays is not None:
        return of_arrays(inputs, inputs.args.arrays)
    args, choices, name = inputs.args, inputs.choices, inputs.names[0]
    names, options = inputs.placed()
    if args.normals:
        return along(inputs, with_normals(inputs), 'given')
    if args.scanner or options or len(names) > 1 or '=' in name:
        return stated(inputs, inputs.scanned(names, **options), 'one position' if args.scanner else 'as given')
    if os.path.isdir(name):
        return workspace(inputs, Path(name))
    if not has_rows(name) and is_list(name):
        table = inputs.scanned([name + '=0,0,0'])
        if table.normals() is not None and not (args.above or args.estimate_normals):
            return along(inputs, table, 'columns 4 to 6 are unit vectors')
        return guessed(inputs, Table(table.columns, None, None))
    images = beside(name)
    if images is not None:
        choices.choose('sights', 'images', f'found {images}')
        return cloud_of(inputs.scanned([name], images=images))
    table = inputs.scanned([name])
    if table.scanners is not None and len(table.scanners) and table.sights is not None:
        return stated(inputs, table, 'as the file states')
    normals = table.normals()
    if normals is not None and not (args.above or args.estimate_normals):
        return along(inputs, table, 'the file has normals and no scanner positions')
    return guessed(inputs, table)


def of_arrays(inputs: Inputs, table: Table) -> Cloud:
    """The cloud of arrays, cropped as files are."""
    args = inputs.args
    if table.scanners is not None:
        cloud = stated(inputs, table, 'as given')
    elif table.normals() is not None and not (args.above or args.estimate_normals):
        cloud = along(inputs, table, 'given')
    else:
        cloud = guessed(inputs, table)
    if args.from_ is None and args.to is None:
        return cloud
    return cloud.take(np.flatnonzero(InBox(args.from_, args.to, args.outside).of_all(cloud.points)))


def stated(inputs: Inputs, table: Table, how: str) -> Cloud:
    """A cloud whose scanners the file or the options state."""
    if table.sights is None or table.scanners is None:
        raise Refusal('no scanner positions in the file: pass --scanner X,Y,Z or --positions TABLE')
    inputs.choices.choose('sights', how, number_of(len(table.scanners), 'position'))
    return cloud_of(table)


def cloud_of(table: Table) -> Cloud:
    assert table.sights is not None and table.scanners is not None
    weights = table.columns.get('weight')
    whole = weights is not None and bool(((weights >= 1) & (weights <= 255) & (weights % 1 == 0)).all())
    return finite(Cloud(table.points(), table.scanners, table.sights, table.colors(),
                        weights.astype(np.int64) if weights is not None and whole else None, rows=np.arange(len(table.columns['x']))))


def finite(cloud: Cloud) -> Cloud:
    """Without points that are too far out to compute with."""
    rows = np.flatnonzero(are_near(cloud.points))
    return cloud if len(rows) == len(cloud.points) else cloud.take(rows)


def are_near(points: np.ndarray) -> np.ndarray:
    """Which points have coordinates whose squares are in the range of floating point."""
    return np.asarray(np.logical_and.reduce([np.abs(points[:, k]) < FAR for k in range(3)]))


def with_normals(inputs: Inputs) -> Table:
    """The points of one file with their normals."""
    if len(inputs.names) != 1:
        raise Refusal('--normals requires a single file')
    name = inputs.names[0]
    if has_rows(name):
        return inputs.scanned(inputs.names)
    start = start_of_list(name, False)
    if start is not None and start.layout.has(NORMALS):
        return inputs.scanned([name + '=0,0,0'])
    return inputs.scanned(inputs.names, normals='yes', far='1')


def along(inputs: Inputs, table: Table, why: str) -> Cloud:
    """A cloud with scanners along the normals of the file."""
    normals = table.normals()
    if normals is None:
        raise Refusal('the points have no normals')
    rows = np.flatnonzero(np.isfinite(normals).all(axis=1) & (normals != 0).any(axis=1) & are_near(table.points()))
    colors = table.colors()
    inputs.choices.choose('sights', 'along normals', why)
    cloud = cloud_along(inputs, table.points()[rows], normals[rows], None if colors is None else colors[rows])
    cloud.rows = rows
    return cloud


def cloud_along(inputs: Inputs, points: np.ndarray, normals: np.ndarray, colors: np.ndarray | None) -> Cloud:
    """A cloud whose scanners stand `far` off the points, one spacing where nothing else is given."""
    if not len(points):
        raise Refusal('no point has a finite normal other than 0 0 0')
    apart = spacing(points).distance
    far = inputs.args.far or float(f'{apart:.3g}') or 1.0
    scanners, numbers = along_normals(points, normals, far)
    shared = f'; {len(points):,} points share {len(scanners):,} positions' if len(scanners) < len(points) else ''
    inputs.choices.choose('far', f'{far:.6g}', ('given' if inputs.args.far else 'one spacing') + shared)
    return Cloud(points, scanners, Sights(np.ones(len(points), np.int64), numbers), colors, is_made_up=True)


def guessed(inputs: Inputs, table: Table) -> Cloud:
    """A cloud without scanners: seen from above if its shape allows it, else along estimated normals."""
    args, points, colors = inputs.args, table.points(), table.colors()
    rows = np.flatnonzero(are_near(points))
    points, colors = points[rows], None if colors is None else colors[rows]
    if len(points) < 4:
        raise Refusal('fewer than four points')
    flat = lies_flat(points, spacing(points).distance)
    if args.above or (flat > 0.7 and not args.estimate_normals):
        place = above(points)
        why = 'given' if args.above else f'no scanner positions, no normals; {flat:.0%} of the vertical columns have a single height'
        inputs.choices.choose('sights', 'from above', why)
        inputs.choices.warn('no scanner positions: one position far above the points is assumed (pass --scanner X,Y,Z if it is known)')
        return Cloud(points, place[None], Sights(np.ones(len(points), np.int64), np.zeros(len(points), np.int64)), colors, rows=rows)
    inputs.choices.choose('sights', 'along estimated normals', 'given' if args.estimate_normals else 'no scanner positions, no normals, not an airborne scan')
    inputs.choices.warn('no scanner positions: normals are estimated (pass --scanner X,Y,Z if the position is known)')
    cloud = cloud_along(inputs, points, estimated_normals(points), colors)
    cloud.rows = rows
    return cloud


def workspace(inputs: Inputs, folder: Path) -> Cloud:
    """A workspace of COLMAP: its dense points, or else its sparse ones."""
    images = next((folder / name for name in MODELS if (folder / name).exists()), None)
    if images is None:
        raise Refusal(f'the folder {folder} has no images.bin or images.txt of COLMAP')
    dense, sparse = folder / 'fused.ply', images.with_name('points3D.bin')
    points = dense if dense.exists() else sparse
    inputs.choices.choose('sights', 'images', f'found {points} and {images}')
    return cloud_of(inputs.scanned([os.fspath(points)], images=os.fspath(images)))


def beside(name: str) -> str | None:
    """The images of COLMAP that stand beside its dense or sparse points."""
    path = Path(name)
    if path.name != 'points3D.bin' and not path.with_name(path.name + '.vis').exists():
        return None
    return next((os.fspath(path.parent / model) for model in MODELS if (path.parent / model).exists()), None)


def is_list(name: str) -> bool:
    """Whether a file is a list of numbers, three or more in all lines but the first, and no PTX, whose header are lines of one number."""
    widths = []
    with open(name, 'rb') as file:
        lines = file.readlines(SAMPLE)
    for line in lines[:2] if len(lines) < 4 else lines[1:-1]:
        words = re.split(rb'[\s,;]+', line.strip())
        try:
            widths.append(len(list(map(float, words))))
        except ValueError:
            continue
    return min(widths, default=0) >= 3


__all__ = ['Cloud', 'Inputs', 'Invalid', 'Table', 'read_cloud']

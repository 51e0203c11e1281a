"""A scan of any size cut into tiles, some hundred thousand rows at a time, so that only a sample, a part of the scan, and one tile are held.

The scan is read once, into rows of scaled units on the disk. These are read for a sample, and again to hand them out. A tile that has more points than
the sample let expect is cut again by its own rows.

Names: Wanted (what a split is asked for) · split (cuts a scan into a folder's files) · Tile (a tile that was written).
"""
from __future__ import annotations

import json
import os
from dataclasses import dataclass
from typing import Any, Dict, List, NamedTuple, Tuple

import numpy as np

from recon.library import write_scan
from recon.toolbox import tile_jobs
from recon.toolbox.output_files import new_folder
from recon.toolbox.ply_text import SCANNER_LIMIT, Refusal
from recon.toolbox.progress import step
from recon.toolbox.tile_boxes import FAR, Core, Cut, Division, cores_of, divide, handed_out, mean_spacing, write_list
from recon.toolbox.tile_halo import Halo
from recon.toolbox.tile_rows import ReadScan, Rows, Spool, spooled, together
from recon.toolbox.tool import Report, left_out, number_of

SAMPLE_SIZE = 400000
DIRECTIONS = np.array([[x, y, z] for x in (1, -1) for y in (1, -1) for z in (1, -1)])


class Wanted(NamedTuple):
    """The request for a split: the most points of a tile and how many of them may come from outside, the overlap in coordinates of the scan (or None,
    and as many mean spacings), the scale, and how the scan is read."""
    points: int
    through: int
    overlap: float | None
    spacings: float
    unit: int
    reading: Any


class Tile(NamedTuple):
    """A tile that was written: its core, its points, those without halo points, those in its core, and its scanners."""
    core: Core
    points: int
    own: int
    in_core: int
    scanners: int


def outermost(spool: Spool) -> Rows:
    """Returns the points that lie farthest out towards the eight corners of a cube, each once."""
    best, found = np.full(8, -4 * FAR), [Rows(np.zeros(0), np.zeros(0))] * 8
    for part in spool.parts():
        far = part.table['place'].astype(np.int64) @ DIRECTIONS.T
        rows = far.argmax(axis=0)
        for k in np.flatnonzero(far[rows, np.arange(8)] > best):
            best[k], found[k] = far[rows[k], k], part.take(rows[k:k + 1])
    ends: Dict[bytes, Rows] = {}
    for end in found:
        ends.setdefault(end.table['place'].tobytes(), end)
    return together([*ends.values()])


class Splitter:
    """A scan in a spool that is cut."""

    def __init__(self, wanted: Wanted, scan: ReadScan, spool: Spool, draw: np.random.Generator) -> None:
        self.wanted, self.scan, self.spool, self.draw = wanted, scan, spool, draw
        self.sample, self.ends = spool.sample(SAMPLE_SIZE, draw), outermost(spool)
        points = self.sample.table['place'].astype(float)
        self.spacing = mean_spacing(points, spool.count / len(points))
        given = wanted.spacings * self.spacing if wanted.overlap is None else wanted.overlap * wanted.unit
        self.overlap = int(min(round(given), 2 * FAR))
        self.halo = Halo(self.sample, scan.positions)
        self.written = 0

    def division(self, core: Core, sample: Rows, count: int) -> Division:
        """Cuts a box by a sample of its `count` points."""
        limit = self.wanted.points - self.wanted.through - len(self.ends.table)
        return divide(core, sample.table['place'].astype(np.int64), count / len(sample.table), self.overlap, limit)

    def tiles(self, core: Core, spool: Spool, sample: Rows) -> Tuple[Division, List[Tile]]:
        """Cuts a box whose points are in a spool, and writes its tiles, each beside the spool under the name of its core."""
        division = self.division(core, sample, spool.count)
        cores = cores_of(division)
        spools = {id(each): Spool(f'{spool.path}-{number}') for number, each in enumerate(cores)}
        for block in spool.parts():
            places = block.table['place']
            for each, rows in handed_out(division, places, np.arange(len(places)), self.overlap):
                spools[id(each)].add(block.take(rows))
        found = [self.tile(each, spools[id(each)]) for each in cores]
        return replaced(division, iter([part for part, _ in found])), [tile for _, tiles in found for tile in tiles]

    def tile(self, core: Core, spool: Spool) -> Tuple[Division, List[Tile]]:
        """Writes a tile, or the tiles that it is cut into where it has too many points."""
        if spool.count > self.wanted.points - self.wanted.through - len(self.ends.table):
            found = self.tiles(core, spool, spool.sample(SAMPLE_SIZE, self.draw))
        else:
            core.name = spool.path
            found = core, [self.finished(core, spool.whole())]
        spool.remove()
        return found

    def finished(self, core: Core, own: Rows) -> Tile:
        """Writes a tile's scan: its own points, halo points, and the eight outermost of the scan, which come last and in one order in all tiles, so that
        ties among them are decided alike."""
        places = own.table['place']
        halo = self.halo.points(core, places, self.overlap, self.wanted.through)
        ends = self.ends.take(np.flatnonzero(~core.within(self.ends.table['place'], self.overlap)))
        rows = together([own, halo.take(np.flatnonzero(ranks(halo, self.ends) == 0)), ends])
        rows = rows.take(np.argsort(ranks(rows, self.ends), kind='stable'))
        numbers, scanners = np.unique(rows.scanners, return_inverse=True)
        if len(numbers) > SCANNER_LIMIT:
            raise Refusal(f'a tile has points of more than {SCANNER_LIMIT} scanners: use a smaller points=')
        sights = Rows(rows.table, scanners.ravel()).sights()
        weights = rows.table['weight'] if self.scan.has_weights else None
        write_scan(core.name + '.ply', rows.table['place'], sights, self.scan.positions[numbers], weights)
        self.written += int(core.holds(places).sum())
        return Tile(core, len(rows.table), len(places), int(core.holds(places).sum()), len(numbers))


def ranks(rows: Rows, ends: Rows) -> np.ndarray:
    """Returns for each row the number of the end, from 1, whose place it has, or 0."""
    found = np.zeros(len(rows.table), np.int8)
    for number, place in enumerate(ends.table['place'], 1):
        found[(rows.table['place'] == place).all(axis=1)] = number
    return found


def replaced(division: Division, parts: Any) -> Division:
    """Returns a division with its cores replaced, in their order."""
    if isinstance(division, Core):
        part: Division = next(parts)
        return part
    below = replaced(division.below, parts)
    return Cut(division.axis, division.at, below, replaced(division.above, parts))


def named(tiles: List[Tile], folder: str) -> List[Dict[str, Any]]:
    """Gives the tiles' files their names in the order of the cores, and answers what `tiles.json` says of each."""
    width, found = max(3, len(str(len(tiles) - 1))), []
    for number, tile in enumerate(tiles):
        name = str(number).zfill(width)
        os.rename(tile.core.name + '.ply', os.path.join(folder, name + '.ply'))
        tile.core.name = name
        low, high = ([None if abs(end) == FAR else end for end in ends] for ends in (tile.core.low, tile.core.high))
        found.append({'name': name, 'low': low, 'high': high, 'points': tile.points, 'own': tile.own, 'in_core': tile.in_core,
                      'scanners': tile.scanners})
    return found


def write_folder(scan: List[str], folder: str, wanted: Wanted, options: List[str]) -> Tuple[ReadScan, Dict[str, Any]]:
    """Writes the tiles of a scan, `tiles.json`, `tiles.txt` and the jobs into a folder, and returns what was read and what `tiles.json` says."""
    spool = Spool(os.path.join(folder, 'part'))
    read = spooled(scan, wanted.reading, wanted.unit, spool)
    if not spool.count:
        raise Refusal('no points')
    splitter = Splitter(wanted, read, spool, np.random.default_rng(1))
    with step('writing tiles', lambda: splitter.written / spool.count):
        division, tiles = splitter.tiles(Core(), spool, splitter.sample)
    spool.remove()
    about: Dict[str, Any] = {'scan': ' '.join(map(os.path.basename, scan)), 'points': spool.count, 'unit': wanted.unit, 'options': options,
             'spacing': float(f'{splitter.spacing:.4g}'), 'overlap': splitter.overlap, 'tiles': named(tiles, folder)}
    with open(os.path.join(folder, 'tiles.json'), 'w', encoding='ascii') as file:
        json.dump(about, file, indent=1)
        file.write('\n')
    write_list(os.path.join(folder, 'tiles.txt'), division)
    tile_jobs.write(folder, [tile['name'] for tile in about['tiles']], options)
    return read, about


@dataclass
class SplitReport(Report):
    """Tiles that were written: how many, the most points of one and the points of all, the overlap and the mean spacing."""
    read: str
    left_out: Dict[str, int]
    folder: str
    tiles: int
    most: int
    points: int
    overlap: float
    spacing: float

    def __str__(self) -> str:
        return (f'{self.read}; left out {left_out(self.left_out)}; wrote {number_of(self.tiles, "tile")} of at most '
                f'{number_of(self.most, "point")}, {self.points} in all, to {self.folder}; overlap {self.overlap:.4g}, mean spacing '
                f'{self.spacing:.4g}')


def split(scan: List[str], folder: str, wanted: Wanted, options: List[str]) -> SplitReport:
    """Cuts the scan of these names into tiles."""
    with new_folder(folder) as part:
        read, about = write_folder(scan, part, wanted, options)
    tiles = about['tiles']
    most, handed = max(tile['points'] for tile in tiles), sum(tile['points'] for tile in tiles)
    return SplitReport(read.read, read.left_out, folder, len(tiles), most, handed, about['overlap'] / wanted.unit, about['spacing'] / wanted.unit)

